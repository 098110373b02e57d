#include "monitoring/status.h"

#include <errno.h>
#include <stdio.h>
#include <string.h>

#include "configuration/reload.h"
#include "monitoring/events.h"
#include "monitoring/note.h"
#include "monitoring/viewer.h"
#include "systems/clock.h"
#include "systems/fault.h"
#include "systems/local.h"
#include "systems/sockets.h"
#include "systems/system.h"

enum {
    MOST_STATUS_WORDS = 4,
    TIME_TO_ASK = 10000,  /* milliseconds in which somebody asks who has connected */
    TIME_TO_TAKE = 60000, /* and in which he takes something of what is for him */
    REST = 1000,          /* and for which nobody is taken where the system has no room for one more connection */
    TIME_TO_HEAR = 1000,  /* and in which he hears it who is told that too many ask */
    MOST_REFUSED = 8,     /* of whom so many are waited for */
};

/* Somebody who was told so. */
typedef struct refused {
    int fd;
    uint64_t since; /* milliseconds of the clock */
} refused;

/* (there is one gateway in a program) */
static struct {
    const char *path;
    int listener;
    viewer viewers[MOST_VIEWERS];
    size_t turn; /* whose turn it is to be shown something */
    refused refused[MOST_REFUSED]; /* who came first stands first */
    size_t refused_count;
    bool rests;           /* the system had no room for one more connection, which was told, */
    uint64_t rests_since; /* when it was asked last */
} the = {.listener = -1};

bool status_open(const char *path)
{
    the.path = path;
    the.listener = local_open(path);
    return the.listener >= 0;
}

/* Closes the connection of the first of those who were refused. */
static void let_go(void)
{
    local_end(&the.refused[0].fd);
    memmove(the.refused, the.refused + 1, --the.refused_count * sizeof *the.refused);
}

void status_close(void)
{
    for (size_t k = 0; k < MOST_VIEWERS; k++)
        if (the.viewers[k].state != ABSENT)
            viewer_close(&the.viewers[k]);
    while (the.refused_count > 0)
        let_go();
    if (the.path != NULL)
        local_close(&the.listener, the.path);
    the.path = NULL;
}

/* ---- Questions ---- */

typedef struct question {
    const char *words[MOST_STATUS_WORDS]; /* NULL behind the last */
} question;

static void cut(char *line, question *q)
{
    char *rest;
    size_t count = 0;
    memset(q, 0, sizeof *q);
    for (char *word = strtok_r(line, " \r", &rest); word != NULL && count < MOST_STATUS_WORDS; word = strtok_r(NULL, " \r", &rest))
        q->words[count++] = word;
}

static bool is_word(const char *word, const char *other)
{
    return word != NULL && strcmp(word, other) == 0;
}

/* How something is to be shown, where the word says so. */
static bool is_form(const char *word, sheet_form *form)
{
    static const char *const FORMS[] = {[AS_COLUMNS] = "columns", [AS_JSON] = "json", [AS_PROMETHEUS] = "prometheus"};
    for (sheet_form k = AS_COLUMNS; k <= AS_PROMETHEUS; k++)
        if (is_word(word, FORMS[k])) {
            *form = k;
            return true;
        }
    return false;
}

/* Somebody wants to see something: show [SECTION] [FORM]. */
static void show(gateway *it, viewer *v, const question *q)
{
    static const char HERE[] = {FOR_OUTPUT};
    v->form = AS_COLUMNS;
    const char *section = is_form(q->words[1], &v->form) ? NULL : q->words[1];
    if (section != NULL && q->words[2] != NULL && !is_form(q->words[2], &v->form)) {
        viewer_complain(v, "expected columns, json or prometheus");
        return;
    }
    if (is_word(section, "events")) {
        if (!events_are_followed())
            events_begin(it);
        v->state = FOLLOWS;
    } else if (shown_begin(&v->so_far, section)) {
        v->state = IS_SHOWN;
    } else {
        viewer_complain(v, "expected %s", SECTION_WORDS);
        return;
    }
    viewer_add(v, HERE, sizeof HERE);
    viewer_push(v);
}

static void answer(gateway *it, viewer *v)
{
    question q;
    unsigned number = (unsigned)(v - the.viewers);
    cut(v->asked, &q);
    if (is_word(q.words[0], "show"))
        show(it, v, &q);
    else if (is_word(q.words[0], "ping"))
        probe_ping(it, v, q.words[1], number);
    else if (is_word(q.words[0], "trace"))
        probe_trace(it, v, q.words[1], number);
    else if (is_word(q.words[0], "reload"))
        reload_for(it, v);
    else
        viewer_complain(v, "expected show, ping, trace or reload");
}

/* ---- Who asks ---- */

static viewer *place_for_one(void)
{
    for (size_t k = 0; k < MOST_VIEWERS; k++)
        if (the.viewers[k].state == ABSENT)
            return &the.viewers[k];
    return NULL;
}

/* Nobody is taken for a while, where the system has no room for one more connection; it is told once. */
static void rest(int fault)
{
    bool is_told = the.rests;
    the.rests = fault != 0 && !is_of_nobody(fault);
    the.rests_since = clock_now();
    errno = fault;
    if (the.rests && !is_told)
        event("nobody can ask at %s now: %s", the.path, fault_words());
}

/* Tells somebody that too many ask. (a connection that is closed with something unheard is cut, and what is on its way may be lost: so it is
 * closed a while later) */
static void refuse(int fd)
{
    static const char FULL[] = "-too many ask at once: expected fewer\n\0001";
    if (the.refused_count == MOST_REFUSED)
        let_go();
    (void)!connection_send(fd, (const uint8_t *)FULL, sizeof FULL - 1);
    connection_finish(fd);
    the.refused[the.refused_count++] = (refused){fd, clock_now()};
}

static void take_one(void)
{
    int fd = local_take(the.listener);
    rest(fd < 0 ? errno : 0);
    viewer *v = place_for_one();
    if (fd >= 0 && v != NULL) {
        viewer_begin(v, fd);
        return;
    }
    if (fd >= 0)
        refuse(fd);
}

/* Something has come from somebody. */
static void hear(gateway *it, viewer *v)
{
    if (v->state == ASKS) {
        if (viewer_asks(v))
            answer(it, v);
    } else if (!viewer_stays(v)) {
        viewer_close(v);
    }
}

/* Whether he waits for the next piece of what is shown. */
static bool waits_for_piece(const viewer *v)
{
    return v->state == IS_SHOWN && viewer_pending(v) == 0;
}

/* One of those who wait for a piece gets it, by turns. */
static void fill_next(gateway *it)
{
    for (size_t k = 0; k < MOST_VIEWERS; k++) {
        size_t number = (the.turn + k) % MOST_VIEWERS;
        if (!waits_for_piece(&the.viewers[number]))
            continue;
        viewer_fill(it, &the.viewers[number]);
        the.turn = number + 1;
        return;
    }
}

/* ---- Turns ---- */

size_t status_waits(watch *list)
{
    size_t count = 0;
    for (size_t k = 0; k < MOST_VIEWERS; k++) {
        const viewer *v = &the.viewers[k];
        if (v->state != ABSENT)
            list[count++] = (watch){.fd = v->fd, .sends = viewer_pending(v) > 0 || waits_for_piece(v)};
    }
    if (the.listener >= 0 && (!the.rests || clock_now() - the.rests_since >= REST))
        list[count++] = (watch){.fd = the.listener};
    return count;
}

static bool has_come(const watch *list, size_t count, int fd)
{
    for (size_t k = 0; k < count; k++)
        if (list[k].fd == fd)
            return list[k].has_come;
    return false;
}

void status_attend(gateway *it, const watch *list, size_t count)
{
    bool is_listener = the.listener >= 0 && has_come(list, count, the.listener);
    bool have_come[MOST_VIEWERS];
    for (size_t k = 0; k < MOST_VIEWERS; k++)
        have_come[k] = the.viewers[k].state != ABSENT && has_come(list, count, the.viewers[k].fd);
    for (size_t k = 0; k < MOST_VIEWERS; k++)
        if (have_come[k])
            hear(it, &the.viewers[k]);
    fill_next(it);
    for (size_t k = 0; k < MOST_VIEWERS; k++)
        if (the.viewers[k].state != ABSENT)
            viewer_push(&the.viewers[k]);
    if (is_listener)
        take_one();
}

/* ---- Seconds ---- */

/* Whether somebody has not asked, or not taken anything, for too long. */
static bool is_too_late(const viewer *v)
{
    uint64_t waited = clock_now() - v->moved;
    return (v->state == ASKS && waited > TIME_TO_ASK) || (viewer_pending(v) > 0 && waited > TIME_TO_TAKE);
}

void status_second(gateway *it)
{
    if (events_are_followed())
        events_second(it);
    while (the.refused_count > 0 && clock_now() - the.refused[0].since >= TIME_TO_HEAR)
        let_go();
    for (size_t k = 0; k < MOST_VIEWERS; k++) {
        viewer *v = &the.viewers[k];
        if (v->state != ABSENT && is_too_late(v))
            viewer_close(v);
        if (v->state == PROBES)
            probe_second(it, v);
        if (v->state != ABSENT)
            viewer_push(v);
    }
}

bool status_hears(const uint8_t *packet, size_t length)
{
    bool is_answer = false;
    for (size_t k = 0; k < MOST_VIEWERS; k++)
        if (the.viewers[k].state == PROBES && probe_hears(&the.viewers[k], packet, length))
            is_answer = true;
    return is_answer;
}

/* ---- Events ---- */

bool status_is_followed(void)
{
    for (size_t k = 0; k < MOST_VIEWERS; k++)
        if (the.viewers[k].state == FOLLOWS)
            return true;
    return false;
}

/* How many events are missing stands at their place. */
static void tell_missing(viewer *v)
{
    char told[80];
    const char *form = v->form == AS_JSON ? "{\"event\": \"missing\", \"number\": %llu}\n" : "%llu events are missing here\n";
    int length = snprintf(told, sizeof told, form, (unsigned long long)v->missed);
    if (viewer_add(v, told, (size_t)length))
        v->missed = 0;
}

void status_tell(const char *line, const char *json)
{
    for (size_t k = 0; k < MOST_VIEWERS; k++) {
        viewer *v = &the.viewers[k];
        const char *told = v->form == AS_JSON ? json : line;
        if (v->state == FOLLOWS && v->missed > 0)
            tell_missing(v);
        if (v->state == FOLLOWS && (v->missed > 0 || !viewer_add(v, told, strlen(told))))
            v->missed++;
    }
}

#include "monitoring/status_page.h"

#include <errno.h>

#include "configuration/words.h"
#include "monitoring/note.h"
#include "monitoring/output.h"
#include "monitoring/visitor.h"
#include "monitoring/web_address.h"
#include "systems/clock.h"
#include "systems/fault.h"
#include "systems/sockets.h"
#include "systems/system.h"

/* Milliseconds for which nobody is taken where the system has no room for one more connection; and until it is looked again whether somebody
 * takes more who isn't waited for. */
enum { REST = 1000, LOOKS_AGAIN = 20 };

/* (there is one gateway in a program) */
static struct {
    const char *words;
    int listener;
    visitor visitors[MOST_VISITORS];
    size_t turn;          /* whose turn it is to get a piece of his answer */
    bool rests;           /* the system had no room for one more connection, which was told, */
    uint64_t rests_since; /* when it was asked last */
} the = {.listener = -1};

bool status_page_open(const char *words)
{
    char where[ADDRESS_ROOM];
    address at = {.port = 0};
    errno = EINVAL;
    the.words = words;
    the.listener = web_address_read(words, &at) ? listener_open(&at) : -1;
    if (the.listener < 0)
        return false;
    listener_keep_little(the.listener);
    say("the status is at http://%s/", address_words(&at, where));
    return true;
}

void status_page_close(void)
{
    for (size_t k = 0; k < MOST_VISITORS; k++)
        if (the.visitors[k].state != AWAY)
            visitor_close(&the.visitors[k]);
    if (the.listener >= 0)
        close_any(&the.listener);
}

bool status_page_is_open(void)
{
    return the.listener >= 0;
}

/* ---- Who comes in ---- */

/* A place for a newcomer: one that is free, or that of the one who did nothing for longest, who is put out. */
static visitor *place_for_one(void)
{
    visitor *longest = &the.visitors[0];
    for (visitor *v = the.visitors; v < the.visitors + MOST_VISITORS && longest->state != AWAY; v++)
        if (v->state == AWAY || v->moved < longest->moved)
            longest = v;
    if (longest->state != AWAY)
        visitor_drop(longest);
    return longest;
}

/* Nobody is taken for a while, where the system has no room for one more connection; it is told once. */
static void rest(int fault)
{
    bool is_told = the.rests;
    the.rests = fault != 0 && !is_of_nobody(fault);
    the.rests_since = clock_now();
    errno = fault;
    if (the.rests && !is_told)
        event("nobody can look at the page of the status now: %s", fault_words());
}

static void take_one(void)
{
    address from;
    int fd = listener_take(the.listener, &from);
    rest(fd < 0 ? errno : 0);
    if (fd >= 0)
        visitor_begin(place_for_one(), fd);
}

/* ---- Turns ---- */

/* (who has said all isn't waited for: that he said it would be told at once, again and again. It is looked now and then whether he takes
 * more) */
size_t status_page_waits(watch *list)
{
    size_t count = 0;
    for (size_t k = 0; k < MOST_VISITORS; k++) {
        const visitor *v = &the.visitors[k];
        if (v->state != AWAY && !v->says_no_more)
            list[count++] = (watch){.fd = v->fd, .sends = visitor_pending(v) > 0 || visitor_waits(v)};
    }
    if (the.listener >= 0 && (!the.rests || clock_now() - the.rests_since >= REST))
        list[count++] = (watch){.fd = the.listener};
    return count;
}

int status_page_patience(int milliseconds)
{
    bool is_any = false;
    for (size_t k = 0; k < MOST_VISITORS; k++)
        is_any = is_any || (the.visitors[k].state != AWAY && the.visitors[k].says_no_more);
    return is_any && milliseconds > LOOKS_AGAIN ? LOOKS_AGAIN : milliseconds;
}

static bool has_come(const watch *list, size_t count, int fd)
{
    for (size_t k = 0; k < count; k++)
        if (list[k].fd == fd)
            return list[k].has_come;
    return false;
}

/* One of those who wait for a piece gets it, by turns. */
static void fill_next(gateway *it)
{
    for (size_t k = 0; k < MOST_VISITORS; k++) {
        visitor *v = &the.visitors[(the.turn + k) % MOST_VISITORS];
        if (!visitor_waits(v))
            continue;
        visitor_fill(it, v);
        visitor_push(v);
        the.turn = (size_t)(v - the.visitors) + 1;
        return;
    }
}

/* Something has come of somebody: he says something, or takes something. */
static void hear(visitor *v)
{
    visitor_hear(v, the.words);
    if (v->state != AWAY)
        visitor_push(v);
}

void status_page_attend(gateway *it, const watch *list, size_t count)
{
    bool is_listener = the.listener >= 0 && has_come(list, count, the.listener);
    for (size_t k = 0; k < MOST_VISITORS; k++) {
        visitor *v = &the.visitors[k];
        if (v->state != AWAY && v->says_no_more)
            visitor_push(v);
        else if (v->state != AWAY && has_come(list, count, v->fd))
            hear(v);
    }
    fill_next(it);
    if (is_listener)
        take_one();
}

void status_page_second(void)
{
    for (size_t k = 0; k < MOST_VISITORS; k++)
        if (the.visitors[k].state != AWAY && visitor_is_late(&the.visitors[k]))
            visitor_drop(&the.visitors[k]);
}

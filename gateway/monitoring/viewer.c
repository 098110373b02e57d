#include "monitoring/viewer.h"

#include <errno.h>
#include <stdarg.h>
#include <stdio.h>
#include <string.h>

#include "systems/clock.h"
#include "systems/local.h"
#include "systems/sockets.h"

enum {
    PIECE = 16384,     /* bytes of what is shown that are made at once: between two pieces packets pass */
    KEPT_FOR_END = 16, /* bytes of the room that are the end's */
    MOST_SAID = 512,
};

void viewer_begin(viewer *v, int fd)
{
    v->state = ASKS;
    v->fd = fd;
    v->asked_count = v->sent = v->count = 0;
    v->missed = 0;
    v->moved = clock_now();
}

void viewer_close(viewer *v)
{
    local_end(&v->fd);
    v->state = ABSENT;
}

/* ---- What he says ---- */

bool viewer_asks(viewer *v)
{
    ssize_t length = local_receive(v->fd, (uint8_t *)v->asked + v->asked_count, sizeof v->asked - v->asked_count);
    if (length < 0 && (errno == EAGAIN || errno == EINTR))
        return false;
    if (length <= 0 || v->asked_count + (size_t)length == sizeof v->asked) {
        viewer_close(v);
        return false;
    }
    v->asked_count += (size_t)length;
    char *end = memchr(v->asked, '\n', v->asked_count);
    if (end != NULL)
        *end = '\0';
    return end != NULL;
}

bool viewer_stays(viewer *v)
{
    ssize_t length = local_receive(v->fd, (uint8_t *)v->asked, sizeof v->asked);
    return length > 0 || (length < 0 && (errno == EAGAIN || errno == EINTR));
}

/* ---- What is for him ---- */

size_t viewer_pending(const viewer *v)
{
    return v->count - v->sent;
}

/* (what is on its way goes to the front) */
size_t viewer_room(viewer *v)
{
    memmove(v->text, v->text + v->sent, viewer_pending(v));
    v->count -= v->sent;
    v->sent = 0;
    return v->count < sizeof v->text - KEPT_FOR_END ? sizeof v->text - KEPT_FOR_END - v->count : 0;
}

bool viewer_add(viewer *v, const char *text, size_t length)
{
    if (viewer_room(v) < length)
        return false;
    if (v->count == 0)
        v->moved = clock_now();
    memcpy(v->text + v->count, text, length);
    v->count += length;
    return true;
}

static void add_line(viewer *v, const char *format, va_list rest)
{
    char line[MOST_SAID];
    int length = vsnprintf(line, sizeof line - 1, format, rest);
    size_t end = length < 0 ? 0 : (size_t)length < sizeof line - 1 ? (size_t)length : sizeof line - 2;
    line[end] = '\n';
    viewer_add(v, line, end + 1);
}

void viewer_say(viewer *v, const char *format, ...)
{
    va_list rest;
    va_start(rest, format);
    add_line(v, format, rest);
    va_end(rest);
}

void viewer_end(viewer *v, bool is_well)
{
    viewer_room(v);
    v->text[v->count++] = '\0';
    v->text[v->count++] = is_well ? IS_WELL : IS_NOT_WELL;
    v->state = LEAVES;
}

/* (as many lines as there is room for) */
void viewer_complain_of(viewer *v, const char *text)
{
    static const char HERE[] = {FOR_COMPLAINTS};
    viewer_add(v, HERE, sizeof HERE);
    size_t length = strlen(text), room = viewer_room(v);
    viewer_add(v, text, length < room ? length : room);
    viewer_end(v, false);
}

void viewer_complain(viewer *v, const char *format, ...)
{
    static const char HERE[] = {FOR_COMPLAINTS};
    va_list rest;
    viewer_add(v, HERE, sizeof HERE);
    va_start(rest, format);
    add_line(v, format, rest);
    va_end(rest);
    viewer_end(v, false);
}

void viewer_fill(gateway *it, viewer *v)
{
    bool is_more = true;
    sheet s = {.room = viewer_room(v), .form = v->form};
    s.text = v->text + v->count;
    if (v->count == 0)
        v->moved = clock_now();
    while (is_more && s.count < PIECE && s.room - s.count >= MOST_RECORD)
        is_more = shown_next(it, &v->so_far, &s);
    v->count += s.count;
    if (!is_more)
        viewer_end(v, true);
}

void viewer_push(viewer *v)
{
    if (viewer_pending(v) > 0) {
        ssize_t length = connection_send(v->fd, (const uint8_t *)v->text + v->sent, viewer_pending(v));
        if (length < 0 && errno != EAGAIN && errno != EINTR) {
            viewer_close(v);
            return;
        }
        if (length > 0)
            v->moved = clock_now();
        v->sent += length > 0 ? (size_t)length : 0;
    }
    if (v->state == LEAVES && viewer_pending(v) == 0)
        viewer_close(v);
}

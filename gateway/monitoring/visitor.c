#include "monitoring/visitor.h"

#include <errno.h>
#include <stdio.h>
#include <string.h>

#include "systems/clock.h"
#include "systems/fault.h"
#include "systems/sockets.h"

/* Milliseconds in which he asks, takes all of his answer, takes some of it, and closes. */
enum { TIME_TO_ASK = 10000, TIME_TO_READ = 60000, TIME_TO_TAKE = 15000, TIME_TO_LEAVE = 30000 };

/* Bytes in front of a chunk, behind it, and behind the last one. */
enum { FRONT = sizeof "0000\r\n" - 1, END = sizeof "\r\n" - 1, BEHIND = sizeof "\r\n0\r\n\r\n" - 1 };

void visitor_begin(visitor *v, int fd)
{
    v->state = IS_ASKING;
    v->fd = fd;
    v->head_count = v->sent = v->count = 0;
    v->request = (request){0};
    v->is_whole = v->says_no_more = false;
    v->since = v->moved = clock_now();
}

void visitor_close(visitor *v)
{
    close_any(&v->fd);
    v->state = AWAY;
}

void visitor_drop(visitor *v)
{
    connection_drop(&v->fd);
    v->state = AWAY;
}

static void go_on(visitor *v, visitor_state next)
{
    v->state = next;
    v->since = v->moved = clock_now();
}

/* ---- What he says ---- */

/* (the head lies in its own room until the answer is there) */
static void begin_answer(visitor *v, int status, const char *words)
{
    sheet head = {.text = v->text, .room = REPLY_HEAD};
    reply_begin(&v->reply, &v->request, status, words, &head);
    v->count = head.count;
    v->is_whole = v->reply.body == OF_NOTHING;
    go_on(v, IS_ANSWERED);
}

/* Something, or nothing more, was said. */
static void take(visitor *v, size_t length, const char *words)
{
    if (v->state == IS_ASKING && length > 0) {
        v->moved = clock_now();
        v->head_count += length;
        int status = request_read(&v->request, v->head, v->head_count);
        if (status != 0)
            begin_answer(v, status, words);
    } else if (v->state == IS_ANSWERED) {
        v->says_no_more = v->says_no_more || length == 0;
    } else if (length == 0) {
        visitor_close(v);
    }
}

/* (what he says while he is answered lies where his head was, and is dropped) */
void visitor_hear(visitor *v, const char *words)
{
    size_t kept = v->state == IS_ASKING ? v->head_count : 0;
    ssize_t length = connection_receive(v->fd, (uint8_t *)v->head + kept, sizeof v->head - kept);
    if (length >= 0)
        take(v, (size_t)length, words);
    else if (!may_pass(errno))
        visitor_close(v);
}

/* ---- What is for him ---- */

size_t visitor_pending(const visitor *v)
{
    return v->count - v->sent;
}

bool visitor_waits(const visitor *v)
{
    return v->state == IS_ANSWERED && !v->is_whole && visitor_pending(v) == 0;
}

/* Puts the length of a chunk in front of it, and its end behind; where it is the last, that of all of them. (one without bytes would be taken
 * for that: then there is the end of all alone) */
static void frame_chunk(visitor *v, size_t length)
{
    char front[FRONT + 1];
    const char *end = v->is_whole ? "\r\n0\r\n\r\n" : "\r\n";
    snprintf(front, sizeof front, "%04X\r\n", (unsigned)length);
    memcpy(v->text, front, FRONT);
    memcpy(v->text + FRONT + length, end, strlen(end));
    v->count = FRONT + length + strlen(end);
    v->sent = length > 0 ? 0 : FRONT + END;
}

void visitor_fill(gateway *it, visitor *v)
{
    size_t front = v->reply.is_chunked ? FRONT : 0;
    sheet s = {.text = v->text + front, .room = sizeof v->text - front - BEHIND};
    while (!v->is_whole && s.room - s.count >= MOST_RECORD)
        v->is_whole = !reply_next(it, &v->reply, &s);
    v->sent = 0;
    v->count = s.count;
    v->moved = clock_now();
    if (v->reply.is_chunked)
        frame_chunk(v, s.count);
}

/* All of his answer is on its way. (who hasn't closed his side is waited for, and what he says more is heard: a connection that is closed with
 * something unheard is cut, and what is on its way is lost) */
static void part(visitor *v)
{
    if (v->says_no_more) {
        visitor_close(v);
        return;
    }
    connection_finish(v->fd);
    go_on(v, IS_LEAVING);
}

void visitor_push(visitor *v)
{
    if (visitor_pending(v) > 0) {
        ssize_t length = connection_send(v->fd, (const uint8_t *)v->text + v->sent, visitor_pending(v));
        if (length < 0 && !may_pass(errno)) {
            visitor_close(v);
            return;
        }
        if (length > 0)
            v->moved = clock_now();
        v->sent += length > 0 ? (size_t)length : 0;
    }
    if (v->state == IS_ANSWERED && v->is_whole && visitor_pending(v) == 0)
        part(v);
}

bool visitor_is_late(const visitor *v)
{
    static const unsigned MOST[] = {[IS_ASKING] = TIME_TO_ASK, [IS_ANSWERED] = TIME_TO_READ, [IS_LEAVING] = TIME_TO_LEAVE};
    uint64_t now = clock_now();
    return now - v->since > MOST[v->state] || (v->state == IS_ANSWERED && now - v->moved > TIME_TO_TAKE);
}

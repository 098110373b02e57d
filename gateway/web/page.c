#include "web/page.h"

#include <errno.h>
#include <stdlib.h>
#include <string.h>

#include "ipx.h"
#include "systems/clock.h"
#include "systems/fault.h"
#include "systems/sockets.h"

page *page_begin(int fd, const address *from, struct site *at)
{
    page *it = malloc(sizeof *it);
    if (it == NULL)
        return NULL;
    memset(it, 0, sizeof *it);
    it->fd = fd;
    it->from = *from;
    it->at = at;
    page_is(it, PAGE_ASKS);
    connection_keep_little(fd, PAGE_KEPT);
    return it;
}

void page_free(page *it)
{
    close_any(&it->fd);
    free(it->reads);
    free(it);
}

void page_is(page *it, page_state state)
{
    it->state = state;
    it->since = it->spoke = clock_now();
}

void page_drop(page *it)
{
    close_any(&it->fd);
    it->has_come = it->is_behind = false;
    page_is(it, PAGE_IS_GONE);
}

/* ---- What goes ---- */

bool page_is_pending(const page *it)
{
    return it->fd >= 0 && it->out > it->sent;
}

/* What was sent makes room. */
static size_t room_of(page *it)
{
    if (it->sent > 0)
        memmove(it->going, it->going + it->sent, it->out - it->sent);
    it->out -= it->sent;
    it->sent = 0;
    return PAGE_GOING - it->out;
}

static void put(page *it, const uint8_t *bytes, size_t length)
{
    if (it->out == 0)
        it->took = clock_now();
    memcpy(it->going + it->out, bytes, length);
    it->out += length;
}

/* A frame goes where there is that much room besides what is left for others. */
static bool put_frame(page *it, unsigned number, const uint8_t *bytes, size_t length, size_t left)
{
    uint8_t head[HEAD_ROOM];
    size_t front = websocket_head(head, number, length);
    if (room_of(it) < front + length + left)
        return false;
    put(it, head, front);
    put(it, bytes, length);
    return true;
}

static bool put_message(page *it, const uint8_t *message, size_t length)
{
    return it->state == PAGE_IS_OPEN && put_frame(it, FRAME_BINARY, message, length, PAGE_CONTROL);
}

/* (what waits goes at the end of a turn, or when there is no more room for it: a call of the system costs more than the bytes) */
bool page_send(page *it, const uint8_t *message, size_t length)
{
    if (put_message(it, message, length))
        return true;
    page_push(it);
    return put_message(it, message, length);
}

void page_tell(page *it, const char *text, size_t length)
{
    if (room_of(it) >= length)
        put(it, (const uint8_t *)text, length);
}

void page_end(page *it, uint16_t status)
{
    uint8_t why[2];
    put16(why, status);
    if (it->state == PAGE_IS_OPEN)
        (void)put_frame(it, FRAME_CLOSE, why, status == CLOSED_WITHOUT ? 0 : sizeof why, 0);
    it->is_behind = false;
    page_is(it, PAGE_ENDS);
}

void page_push(page *it)
{
    while (page_is_pending(it) && !it->is_full) {
        ssize_t count = connection_send(it->fd, it->going + it->sent, it->out - it->sent);
        it->is_full = count <= 0;
        if (count < 0 && !may_pass(errno))
            page_drop(it);
        if (count > 0)
            it->took = clock_now();
        it->sent += count > 0 ? (size_t)count : 0;
    }
    if (it->state == PAGE_ENDS && !page_is_pending(it) && !it->is_finished) {
        it->is_finished = true;
        connection_finish(it->fd);
    }
}

/* ---- What comes ---- */

/* Reads into some room. Returns how many bytes came; where it is closed or failed, it is gone. */
static size_t read_into(page *it, uint8_t *room, size_t size)
{
    ssize_t count = connection_receive(it->fd, room, size);
    bool is_over = count == 0 || (count < 0 && !may_pass(errno));
    it->has_come = count == (ssize_t)size;
    if (is_over)
        page_drop(it);
    return count > 0 ? (size_t)count : 0;
}

/* (while it asks, what has come stays where it is: the request lies there) */
bool page_receives(page *it)
{
    if (!it->has_come || it->fd < 0)
        return false;
    if (it->state == PAGE_IS_OPEN && it->taken > 0) {
        memmove(it->coming, it->coming + it->taken, it->in - it->taken);
        it->in -= it->taken;
        it->taken = 0;
    }
    size_t count = it->in < PAGE_COMING ? read_into(it, it->coming + it->in, PAGE_COMING - it->in) : 0;
    it->in += count;
    return count > 0;
}

void page_fades(page *it)
{
    if (it->has_come && it->fd >= 0)
        (void)read_into(it, it->coming, PAGE_COMING);
}

/* What follows of a frame that is no message. */
static void follow(page *it, said what)
{
    if (what == SAID_PING)
        (void)put_frame(it, FRAME_PONG, it->socket.control, it->socket.control_length, 0);
    else if (what == SAID_CLOSE || what == SAID_WRONG)
        page_end(it, it->socket.status);
}

bool page_says(page *it, unsigned *frames)
{
    it->is_behind = false;
    while (it->state == PAGE_IS_OPEN && *frames > 0) {
        size_t length;
        said what = websocket_read(&it->socket, it->coming + it->taken, it->in - it->taken, &length);
        it->taken += length;
        if (what == SAID_PART && !page_receives(it))
            return false;
        *frames -= what != SAID_PART;
        if (what == SAID_MESSAGE)
            return true;
        follow(it, what);
    }
    it->is_behind = it->state == PAGE_IS_OPEN && it->in > it->taken;
    return false;
}

#include "links/stream.h"

#include <errno.h>
#include <string.h>

#include "ipx.h"
#include "systems/fault.h"
#include "systems/sockets.h"

enum { FRONT = 4 /* bytes of a length */ };

void stream_clear(stream *it)
{
    it->is_connected = false;
    it->taken = it->in = it->out = 0;
}

/* Bytes of the frame that came next, with its length in front, which may be any; 0 where not even that has come. */
static uint64_t size_of_next(const stream *it)
{
    return it->in - it->taken < FRONT ? 0 : FRONT + (uint64_t)get32(it->coming + it->taken);
}

bool stream_has_frame(const stream *it)
{
    uint64_t size = size_of_next(it);
    return size != 0 && it->in - it->taken >= size;
}

/* Moves what wasn't taken to the front, and reads once. Returns false where nothing came. */
static bool fill(stream *it, int fd)
{
    it->in -= it->taken;
    memmove(it->coming, it->coming + it->taken, it->in);
    it->taken = 0;
    ssize_t count = connection_receive(fd, it->coming + it->in, STREAM_ROOM - it->in);
    if (count == 0)
        errno = ECONNRESET;
    if (count <= 0)
        return false;
    it->in += (size_t)count;
    return true;
}

bool stream_looks(stream *it, int fd)
{
    while (!stream_has_frame(it)) {
        /* (a length that can't be one: what comes isn't frames) */
        if (size_of_next(it) > STREAM_ROOM) {
            errno = EPROTO;
            return false;
        }
        if (!fill(it, fd))
            return may_pass(errno);
    }
    return true;
}

ssize_t stream_receive(stream *it, int fd, uint8_t *frame, size_t room)
{
    if (!stream_looks(it, fd) || !stream_has_frame(it))
        return -1;
    size_t size = (size_t)size_of_next(it);
    memcpy(frame, it->coming + it->taken + FRONT, size - FRONT < room ? size - FRONT : room);
    it->taken += size;
    return (ssize_t)(size - FRONT);
}

bool stream_push(stream *it, int fd)
{
    while (it->out > 0) {
        ssize_t count = connection_send(fd, it->going, it->out);
        if (count < 0)
            return may_pass(errno);
        it->out -= (size_t)count;
        memmove(it->going, it->going + count, it->out);
    }
    return true;
}

bool stream_send(stream *it, int fd, const uint8_t *frame, size_t length)
{
    if (length + FRONT > STREAM_ROOM - it->out)
        return false;
    put32(it->going + it->out, (uint32_t)length);
    memcpy(it->going + it->out + FRONT, frame, length);
    it->out += FRONT + length;
    return stream_push(it, fd);
}

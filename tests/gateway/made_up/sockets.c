/* sockets.h of a made-up system. */
#include "systems/sockets.h"

#include <errno.h>
#include <string.h>

#include "chance.h"
#include "descriptors.h"
#include "groups.h"
#include "outside.h"
#include "peace.h"
#include "play.h"
#include "weather.h"

enum { FIRST_FREE_PORT = 30000, FREE_PORTS = 20, WHOLE = 100, RENUMBERED = 500 };

/* The faults of each call that a system may have. */
static const int OF_OPENING[] = {EMFILE, ENFILE, ENOBUFS, ENOMEM, EADDRNOTAVAIL, EADDRINUSE, EACCES, ENETUNREACH, 0};
static const int OF_RECEIVING[] = {EAGAIN, EINTR, ECONNREFUSED, ENETDOWN, ENOMEM, ENXIO, EIO, 0};
static const int OF_SENDING[] = {EAGAIN, ENOBUFS,  EINTR,        ENETDOWN, ENETUNREACH, EHOSTUNREACH,
                                 EPERM,  EMSGSIZE, ECONNREFUSED, ENOMEM,   ENODEV,      0};
static const int OF_TAKING[] = {EAGAIN, EMFILE, ENFILE, ENOBUFS, ENOMEM, ECONNABORTED, EINTR, EPERM, 0};
static const int OF_CALLING[] = {ECONNREFUSED, ENETUNREACH, EHOSTUNREACH, EMFILE, ETIMEDOUT, EADDRNOTAVAIL, ENOMEM, 0};
static const int OF_STREAMS[] = {EAGAIN, EINTR, ECONNRESET, ETIMEDOUT, ENOMEM, ENOBUFS, EHOSTUNREACH, 0};

void close_any(int *fd)
{
    int at = *fd;
    *fd = -1;
    if (at >= 0)
        descriptor_close(at);
    if (one_in(3))
        errno = EBADF; /* (a system may leave there what it likes) */
}

void connection_drop(int *fd)
{
    close_any(fd);
}

/* ---- Opening ---- */

/* Whether a port of this machine is taken by a socket of that kind. */
static bool is_taken(what is, const address *at)
{
    for (int fd = FIRST_DESCRIPTOR; fd < MOST_DESCRIPTORS; fd++) {
        const descriptor *other = descriptor_if_open(fd);
        if (other != NULL && other->is == is && same_address(&other->local, at))
            return true;
    }
    return false;
}

/* A port that is free where none is named. (a system may give one at once that was just given back) */
static void take_port(what is, address *local)
{
    address wanted = *local;
    if (local->port != 0)
        return;
    wanted.port = (uint16_t)(FIRST_FREE_PORT + below(FREE_PORTS));
    while (is_taken(is, &wanted))
        wanted.port++;
    *local = wanted;
}

static int opened(what is, address *local)
{
    if (fails(OF_OPENING) || !outside_has_address(local))
        return -1;
    take_port(is, local);
    if (is_taken(is, local)) {
        errno = EADDRINUSE;
        return -1;
    }
    int fd = descriptor_open(is);
    if (fd >= 0)
        descriptor_at(fd, is)->local = *local;
    return fd;
}

int datagram_open(address *local, const address *remote)
{
    int fd = opened(DATAGRAMS, local);
    if (fd >= 0 && remote != NULL) {
        descriptor *it = descriptor_at(fd, DATAGRAMS);
        it->remote = *remote;
        it->has_remote = true;
        it->is_own = same_address(local, remote);
    }
    return fd;
}

/* (the machine keeps its addresses, but for a moment) */
bool datagram_has_address(int fd, address *own)
{
    *own = (address){.host = {127, 0, 0, (uint8_t)(1 + below(2))}};
    return descriptor_at(fd, DATAGRAMS) != NULL && !one_in(RENUMBERED);
}

int listener_open(address *local)
{
    return opened(LISTENER, local);
}

void listener_keep_little(int listener)
{
    descriptor_at(listener, LISTENER);
}

static int connection(stage at, const address *remote)
{
    int fd = descriptor_open(CONNECTION);
    if (fd >= 0) {
        descriptor *it = descriptor_at(fd, CONNECTION);
        it->remote = *remote;
        it->stage = at;
        it->takes = is_peace() ? MUCH : below(4) * 100000;
    }
    return fd;
}

int listener_take(int listener, address *from)
{
    descriptor *it = descriptor_at(listener, LISTENER);
    memset(from, 0, sizeof *from);
    if (fails(OF_TAKING))
        return -1;
    errno = EAGAIN;
    if (it->calls == 0)
        return -1;
    int fd = connection(CONNECTED, &it->calling[0]);
    if (fd < 0)
        return -1; /* (who calls goes on waiting) */
    *from = it->calling[0];
    memmove(it->calling, it->calling + 1, --it->calls * sizeof *it->calling);
    return fd;
}

int connection_begin(const address *remote)
{
    return fails(OF_CALLING) ? -1 : connection(UNDER_WAY, remote);
}

int connection_state(int fd)
{
    descriptor *it = descriptor_at(fd, CONNECTION);
    if (it->stage == UNDER_WAY && one_in(3))
        it->stage = one_in(3) ? CUT : CONNECTED;
    if (it->stage == CUT && it->fault == 0)
        it->fault = ECONNREFUSED;
    errno = it->fault;
    it->is_own = it->stage == CONNECTED && one_in(20);
    return it->stage == UNDER_WAY ? 0 : it->stage == CONNECTED ? 1 : -1;
}

bool connection_is_own(int fd)
{
    const descriptor *it = descriptor_if_open(fd);
    if (it == NULL || (it->is != CONNECTION && it->is != DATAGRAMS))
        wrong("descriptor %d is no socket, and is asked whether it is its own", fd);
    return it != NULL && it->is_own;
}

/* A connection of a PC, or of somebody who asks. */
static descriptor *stream_at(int fd)
{
    descriptor *it = descriptor_if_open(fd);
    if (it == NULL || it->is != VIEWER)
        it = descriptor_at(fd, CONNECTION);
    return it;
}

/* (mostly the other end closes it then, too) */
void connection_finish(int fd)
{
    descriptor *it = stream_at(fd);
    it->takes = 0;
    if (!one_in(3))
        it->stage = CUT;
}

void connection_keep_little(int fd, int bytes)
{
    if (descriptor_at(fd, CONNECTION) != NULL && bytes <= 0)
        wrong("connection %d is to keep %d bytes", fd, bytes);
}

bool connection_is_dead(int fd)
{
    return descriptor_at(fd, CONNECTION)->is_dead;
}

bool connection_has_more(int fd)
{
    return has_something(descriptor_at(fd, CONNECTION));
}

bool connection_has_ended(int fd)
{
    return descriptor_at(fd, CONNECTION)->stage == CUT;
}

/* ---- Datagrams and frames ---- */

/* Whether there is no descriptor, as of a link that couldn't be opened: a system says so, and that is all. */
static bool is_none(int fd)
{
    errno = fd < 0 ? EBADF : errno;
    return fd < 0;
}

/* A socket of datagrams, of an interface, of a group or of a switch. */
static descriptor *carrier_at(int fd)
{
    descriptor *it = descriptor_if_open(fd);
    if (it == NULL || (it->is != CARD && it->is != GROUP && it->is != SPEAKER && it->is != PORT))
        it = descriptor_at(fd, DATAGRAMS);
    return it;
}

bool datagrams_receive(int fd, arrivals *in)
{
    in->count = 0;
    if (in->most == 0 || in->most > MOST_TOGETHER)
        wrong("%zu datagrams are received together", in->most);
    if (is_none(fd))
        return false;
    descriptor *it = carrier_at(fd);
    if (it->is_complained || fails(OF_RECEIVING)) {
        errno = it->is_complained ? ECONNREFUSED : errno;
        it->is_complained = false;
        return false;
    }
    if (it->is == CARD && !outside_has_card(it->name, it->index)) {
        errno = ENETDOWN;
        return false;
    }
    errno = EAGAIN;
    size_t most = one_in(4) ? between(1, in->most) : in->most;
    while (it->count > 0 && in->count < most)
        take_next(it, &in->list[in->count++]);
    return in->count > 0;
}

bool datagram_send(int fd, const uint8_t *bytes, size_t length)
{
    if (is_none(fd) || fails(OF_SENDING))
        return false;
    descriptor *it = carrier_at(fd);
    if (it->is == CARD && !outside_has_card(it->name, it->index)) {
        errno = ENXIO;
        return false;
    }
    if (it->is == GROUP)
        wrong("descriptor %d hears a group, and something is sent by it", fd);
    if (it->is == SPEAKER) {
        comes_to_group(it, bytes, length);
        fd = group_of(it);
    }
    if (fd >= 0)
        outside_hears_frame(fd, descriptor_if_open(fd), bytes, length);
    return true;
}

bool datagram_send_to(int fd, const departure *what)
{
    if (is_none(fd) || fails(OF_SENDING))
        return false;
    outside_hears_datagram(fd, descriptor_at(fd, DATAGRAMS), what);
    return true;
}

size_t datagrams_send(int fd, const departure *list, size_t count)
{
    size_t sent = 0;
    if (count == 0 || count > MOST_TOGETHER)
        wrong("%zu datagrams are sent together", count);
    for (; sent < count && !is_none(fd) && !fails(OF_SENDING); sent++)
        outside_hears_datagram(fd, descriptor_at(fd, DATAGRAMS), &list[sent]);
    return sent;
}

/* ---- Connections ---- */

/* A connection is lost by a fault. */
static void cut(descriptor *it, int fault)
{
    if (fault != EAGAIN && fault != EINTR && fault != ENOBUFS && fault != ENOMEM) {
        it->stage = CUT;
        it->fault = fault;
    }
}

ssize_t connection_receive(int fd, uint8_t *bytes, size_t room)
{
    descriptor *it = stream_at(fd);
    size_t count = it->end - it->from;
    if (room == 0)
        return 0;
    if (fails(OF_STREAMS)) {
        cut(it, errno);
        return -1;
    }
    errno = it->stage == CUT && it->fault != 0 ? it->fault : EAGAIN;
    if (count == 0)
        return it->stage == CUT && it->fault == 0 ? 0 : -1;
    if (count > room)
        count = room;
    if (one_in(3))
        count = between(1, (uint32_t)count);
    memcpy(bytes, it->bytes + it->from, count);
    it->from += count;
    return (ssize_t)count;
}

ssize_t connection_send(int fd, const uint8_t *bytes, size_t length)
{
    descriptor *it = stream_at(fd);
    size_t count = length < it->takes ? length : it->takes;
    if (fails(OF_STREAMS)) {
        cut(it, errno);
        return -1;
    }
    errno = it->stage == CUT ? it->fault != 0 ? it->fault : EPIPE : EAGAIN;
    if (it->stage == CUT || (count == 0 && length > 0))
        return -1;
    if (!is_peace() && one_in(3))
        count = between(1, (uint32_t)count);
    it->takes -= count;
    outside_hears_stream(fd, it, bytes, count);
    return (ssize_t)count;
}

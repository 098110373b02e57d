/* QEMU connects once, when it starts. So a PC that is connected stays, and whoever else comes in is refused at once: another PC, or
 * somebody who looks for open ports. A PC has gone where its connection is closed or fails, where it says what isn't frames, and where its
 * machine hasn't acknowledged anything for a minute (sockets.h).
 *
 * While there is none, those who come in are looked at in their order. Who goes again, or says what isn't frames, gives way to the next at
 * once, however many there are; who says a frame, or stays for a second, is the PC. At most one a second is, since each is told to all
 * networks. */
#include "links/pc.h"

#include <errno.h>

#include "configuration/words.h"
#include "monitoring/note.h"
#include "systems/clock.h"
#include "systems/fault.h"
#include "systems/sockets.h"
#include "systems/system.h"

/* Milliseconds from one call, from one machine of which others are told, or from one line about those who are refused, to the next; those
 * that a machine stays, or says something in, before others are told of it; and for which nobody is taken where the system has no room. */
enum { BETWEEN = 1000 };

/* Milliseconds that an address has to answer a call: after them its turn is over, since a system goes on trying for minutes. */
enum { ANSWERS = 5000 };

/* Those who wait of whom so many come in, or are refused, until others have their turn. */
enum { MOST_AT_ONCE = 32 };

/* Whether a second has passed since then; 0 is never. */
static bool is_long_ago(uint64_t then)
{
    return then == 0 || clock_now() - then >= BETWEEN;
}

bool pc_may_come(const cable *it)
{
    return (!it->stream.is_connected || it->is_settled) && is_long_ago(it->rested);
}

bool pc_is_held_up(const cable *it)
{
    return it->stream.is_connected && !it->is_settled && stream_has_frame(&it->stream);
}

void pc_goes(cable *it)
{
    if (it->is_settled || it->listener < 0) {
        it->lacks = it->listener >= 0 ? "nobody is connected" : "the connection ended";
        it->fault = 0;
    }
    it->was_lost = it->was_lost || it->is_settled;
    close_any(&it->fd);
    stream_clear(&it->stream);
    it->is_settled = false;
}

static void refuse(cable *it, int fd, const address *from)
{
    char who[ADDRESS_ROOM], pc[ADDRESS_ROOM], link[LINK_ROOM];
    uint64_t now = clock_now();
    connection_drop(&fd);
    it->refused++;
    if (it->told != 0 && now - it->told < BETWEEN)
        return;
    it->told = now;
    event("%s is refused at %s: %s is connected there", address_words(from, who), cable_words(it, it->set, link),
          address_words(&it->peer, pc));
}

/* Whether a PC has said something that wasn't heard yet, or went and that wasn't heard. */
static bool has_more(const cable *it)
{
    return it->stream.is_connected && (stream_has_frame(&it->stream) || connection_has_more(it->fd));
}

/* Whether nothing reaches the PC any more; what is to go to it is sent first, where it does. */
static bool is_out_of_reach(cable *it)
{
    return it->stream.is_connected && (connection_is_dead(it->fd) || !stream_push(&it->stream, it->fd));
}

/* Waits for a second, since the system has no room for one more connection. */
static void rest(cable *it)
{
    char link[LINK_ROOM];
    int why = errno;
    it->rested = clock_now();
    it->not_taken++;
    if (it->is_not_taken_told)
        return;
    it->is_not_taken_told = true;
    cable_words(it, it->set, link);
    errno = why;
    event("nobody can come in at %s now: %s", link, fault_words());
}

/* Takes the next who waits, or refuses him where there is a PC. Returns whether there may be another. */
static bool takes_next(cable *it)
{
    address from;
    int fd = listener_take(it->listener, &from);
    if (fd < 0) {
        bool may_be_another = is_of_nobody(errno) && errno != EAGAIN;
        if (!is_of_nobody(errno))
            rest(it);
        return may_be_another;
    }
    it->is_not_taken_told = false;
    if (it->stream.is_connected) {
        refuse(it, fd, &from);
        return true;
    }
    it->fd = fd;
    it->peer = from;
    it->taken = clock_now();
    it->stream.is_connected = true;
    return true;
}

/* Whether others are to be told of a machine, which came in or was called: it has said a whole frame, or has stayed. One that has gone is
 * forgotten, also with frames that it said. */
static bool settles(cable *it)
{
    if (it->is_settled || !it->stream.is_connected)
        return it->is_settled;
    if (!stream_looks(&it->stream, it->fd) || connection_has_ended(it->fd)) {
        pc_goes(it);
        if (it->listener < 0)
            remote_fails(&it->remote); /* (another address of the name may keep its connection) */
        return false;
    }
    bool has_shown = stream_has_frame(&it->stream) || is_long_ago(it->taken);
    it->is_settled = has_shown && is_long_ago(it->settled);
    if (it->is_settled)
        it->settled = clock_now();
    return it->is_settled;
}

/* Those who wait come in, one by one. Beside a PC what it said last is heard before the next is refused, and that it went: then the next
 * is taken. Returns whether a PC is there. */
static bool let_in(cable *it)
{
    bool is_there = settles(it);
    for (int k = 0; k < MOST_AT_ONCE && pc_may_come(it) && !has_more(it) && takes_next(it); k++)
        is_there = settles(it);
    return is_there;
}

/* Whether a call has come about: above 0 where it has, below where it never will, and then errno tells why. Where nobody listens, the
 * system may connect a socket with itself. */
static int state_of_call(cable *it)
{
    int state = it->fd < 0 ? -1 : connection_state(it->fd);
    bool is_own = state > 0 && connection_is_own(it->fd), is_silent = state == 0 && clock_now() - it->tried >= ANSWERS;
    if (!is_own && !is_silent)
        return state;
    connection_drop(&it->fd);
    errno = is_own ? ECONNREFUSED : ETIMEDOUT;
    return -1;
}

/* Calls the PC, or looks what became of the call. */
static void call(cable *it)
{
    uint64_t now = clock_now();
    if (!it->remote.is_known) {
        it->lacks = REMOTE_UNKNOWN;
        it->fault = 0;
        return;
    }
    if (it->fd < 0 && it->tried != 0 && now - it->tried < BETWEEN)
        return;
    if (it->fd < 0) {
        it->fd = connection_begin(&it->remote.at);
        it->peer = it->remote.at;
        it->tried = now;
    }
    int state = state_of_call(it);
    if (state < 0) {
        it->lacks = "can't connect";
        it->fault = errno;
        close_any(&it->fd);
        if (!is_for_want_of_room(it->fault)) /* (which is no fault of that address) */
            remote_fails(&it->remote);
    }
    it->stream.is_connected = state > 0;
    it->taken = now;
}

/* (what the PC said last is heard first, also where it has reset its connection; behind it stands that it went) */
bool pc_is_up(cable *it)
{
    if (is_out_of_reach(it) && !has_more(it))
        pc_goes(it);
    if (it->listener >= 0)
        return let_in(it);
    if (!it->stream.is_connected)
        call(it);
    return settles(it);
}

/* (for descriptors that are passed) */
#define _DEFAULT_SOURCE
#include "systems/unix/passed.h"

#include <errno.h>
#include <stdint.h>
#include <stdlib.h>
#include <string.h>
#include <sys/ioctl.h>
#include <unistd.h>

#include "systems/resolver.h"
#include "systems/sockets.h"

/* (not all systems have this flag for a call) */
#ifndef MSG_CMSG_CLOEXEC
#define MSG_CMSG_CLOEXEC 0
#endif

/* Bytes that are room for all that one message passes; those whose descriptors are closed at a time; and descriptors that wait for a thread,
 * more than come before nobody is heard any more who may pass some. */
enum { PASSED_ROOM = 2048, MOST_HELD = 64, MOST_KEPT = 1 << 15 };

/* Those whose descriptors are being closed still, by their paths: so many threads do. It is looked at by one at a time. */
static struct {
    char by[PASSED_BY];
    size_t closing;
} held[MOST_HELD];

/* Those that wait for a thread. */
static struct {
    size_t count;
    int list[MOST_KEPT];
} kept;

/* Where somebody is held, or may be; MOST_HELD where there is no room for one more. */
static size_t place_held(const char *by)
{
    size_t found = MOST_HELD;
    for (size_t k = 0; k < MOST_HELD; k++) {
        if (held[k].closing > 0 && strcmp(held[k].by, by) == 0)
            return k;
        if (held[k].closing == 0 && found == MOST_HELD)
            found = k;
    }
    return found;
}

/* One more thread closes what somebody passed. Returns his number. (where there is no room, the last one's) */
static size_t hold(const char *by)
{
    resolver_lock();
    size_t at = place_held(by);
    if (at == MOST_HELD)
        at--;
    if (held[at].closing++ == 0) {
        strncpy(held[at].by, by, PASSED_BY - 1);
        held[at].by[PASSED_BY - 1] = '\0';
    }
    resolver_unlock();
    return at;
}

static void let_go(size_t by)
{
    resolver_lock();
    held[by].closing--;
    resolver_unlock();
}

/* (where something is to be sent still, a socket may be told to wait for it) */
static void close_all(const passed *them)
{
    struct linger none = {.l_onoff = 0, .l_linger = 0};
    for (size_t k = 0; k < them->count; k++) {
        (void)setsockopt(them->list[k], SOL_SOCKET, SO_LINGER, &none, sizeof none);
        close(them->list[k]);
    }
}

static void close_elsewhere(void *given)
{
    size_t by = ((const passed *)given)->by;
    close_all(given);
    free(given);
    let_go(by);
}

/* Begins a thread that closes them. Returns whether there is one. */
static bool begins_to_close(const passed *them, const char *by)
{
    passed *given = malloc(sizeof *given);
    if (given == NULL)
        return false;
    *given = *them;
    given->by = hold(by);
    if (resolver_begin(close_elsewhere, given))
        return true;
    let_go(given->by);
    free(given);
    return false;
}

/* (without a thread they stay open until there is one) */
void passed_close(const passed *them, const char *by)
{
    size_t room = MOST_KEPT - kept.count, count = them->count < room ? them->count : room;
    if (them->count == 0 || begins_to_close(them, by))
        return;
    memcpy(kept.list + kept.count, them->list, count * sizeof(int));
    kept.count += count;
}

/* Begins to close what waits for a thread. Returns whether nothing waits any more. */
static bool none_is_kept(void)
{
    passed some = {.count = kept.count < MOST_PASSED ? kept.count : MOST_PASSED};
    memcpy(some.list, kept.list + kept.count - some.count, some.count * sizeof(int));
    if (some.count > 0 && begins_to_close(&some, ""))
        kept.count -= some.count;
    return kept.count == 0;
}

bool passed_is_closing(const char *by, size_t most)
{
    if (!none_is_kept())
        return true;
    resolver_lock();
    size_t at = place_held(by);
    bool is_so = at == MOST_HELD || held[at].closing >= most;
    resolver_unlock();
    return is_so;
}

/* The descriptors of a part of what came beside a message. */
static void take(passed *them, const struct cmsghdr *part)
{
    size_t count = (part->cmsg_len - CMSG_LEN(0)) / sizeof(int), room = MOST_PASSED - them->count;
    if (part->cmsg_level != SOL_SOCKET || part->cmsg_type != SCM_RIGHTS)
        return;
    if (count > room)
        count = room;
    memcpy(them->list + them->count, CMSG_DATA(part), count * sizeof(int));
    them->count += count;
}

ssize_t passed_receive(int fd, struct msghdr *what, passed *them)
{
    union {
        struct cmsghdr front;
        uint8_t bytes[PASSED_ROOM];
    } beside;
    them->count = 0;
    what->msg_control = &beside;
    what->msg_controllen = sizeof beside;
    ssize_t length = recvmsg(fd, what, MSG_CMSG_CLOEXEC);
    for (struct cmsghdr *part = length >= 0 ? CMSG_FIRSTHDR(what) : NULL; part != NULL; part = CMSG_NXTHDR(what, part))
        take(them, part);
    them->is_any = them->count > 0 || (length >= 0 && (what->msg_flags & MSG_CTRUNC) != 0);
    return length;
}

/* (a descriptor comes with a byte on a connection, on which nothing more comes then; a datagram may have none) */
static bool may_hold_some(int fd)
{
    int type = SOCK_DGRAM, waiting = 1;
    socklen_t size = sizeof type;
    (void)getsockopt(fd, SOL_SOCKET, SO_TYPE, &type, &size);
    return type != SOCK_STREAM || ioctl(fd, FIONREAD, &waiting) != 0 || waiting > 0;
}

void passed_end(int *fd, const char *by)
{
    passed one = {.count = 1, .list = {*fd}};
    if (*fd >= 0)
        (void)shutdown(*fd, SHUT_RDWR);
    if (*fd < 0 || !may_hold_some(*fd)) {
        close_any(fd);
        return;
    }
    passed_close(&one, by);
    *fd = -1;
}

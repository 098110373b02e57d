/* What the system's faults mean. */
#ifndef FAULT_H
#define FAULT_H

#include <errno.h>
#include <stdbool.h>

/* Whether the system has no room for one more connection, file or packet. */
static inline bool is_for_want_of_room(int fault)
{
    return fault == EMFILE || fault == ENFILE || fault == ENOBUFS || fault == ENOMEM;
}

/* Whether nobody waited for whom a connection is taken, or whoever did has gone. What else hinders the system it tells again and again, at
 * once: then one waits before the next try. */
static inline bool is_of_nobody(int fault)
{
    return fault == EAGAIN || fault == EINTR || fault == ECONNABORTED || fault == ECONNRESET;
}

/* Whether what couldn't be received or sent may be the next time: the connection is there as before. */
static inline bool may_pass(int fault)
{
    return fault == EAGAIN || fault == EINTR || is_for_want_of_room(fault);
}

/* Whether whoever read what is written has gone. */
static inline bool is_of_reader(int fault)
{
    return fault == EPIPE || fault == EBADF;
}

#endif

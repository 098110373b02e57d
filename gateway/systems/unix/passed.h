/* Descriptors that somebody passes with a message, though nobody here wants any. They are closed by a thread: what lies behind a descriptor
 * may make whoever closes it wait, for as long as he likes who passed it, and nobody waits here. */
#ifndef PASSED_H
#define PASSED_H

#include <stdbool.h>
#include <stddef.h>
#include <sys/socket.h>
#include <sys/types.h>

/* Descriptors that one message passes at most; and bytes of the longest path, with its end, by which it is known who passed them. */
enum { MOST_PASSED = 253, PASSED_BY = 108 };

/* What came beside a message. */
typedef struct passed {
    size_t count, by;
    bool is_any; /* some were passed, though the system may have had no room for them */
    int list[MOST_PASSED];
} passed;

/* Receives a message, and what came beside it. Returns what the system answers. */
ssize_t passed_receive(int fd, struct msghdr *what, passed *them);

/* Begins to close what he passed who is known by this path. */
void passed_close(const passed *them, const char *by);

/* Whether so many threads close what he passed still. (it is so, too, where too many others did for him to be known, or while the system has no
 * thread for what somebody passed) */
bool passed_is_closing(const char *by, size_t most);

/* Closes a connection, or the socket of datagrams, of somebody who may have passed what nobody has received yet: that is closed with it. */
void passed_end(int *fd, const char *by);

#endif

/* Sockets of this machine alone, which are named by a path: of a file, whose rights guard it, or on Windows of a pipe, which is its owner's
 * alone. Where the system has none, `has_local` says so, and the calls below fail. */
#ifndef LOCAL_H
#define LOCAL_H

#include <stdbool.h>
#include <stdint.h>
#include <sys/types.h>

/* Whether this system has them. */
bool has_local(void);

/* The path at which a gateway is asked, where it is told no other. */
const char *local_usual(void);

/* Listens at a path, for its owner and its group: rights 0660. What a gateway that was killed left there is removed; where somebody
 * listens, or something else is there, it fails. Returns the socket, or -1. */
int local_open(const char *path);

/* Stops listening. The path is removed, unless it is another's meanwhile. */
void local_close(int *fd, const char *path);

/* The connection that came in, which doesn't wait; or -1. */
int local_take(int listener);

/* Hears what somebody says who came in. Returns how many bytes; 0 where he says no more, and -1 where there is a fault: also where he passes
 * descriptors. While these are being closed nobody comes in. */
ssize_t local_receive(int fd, uint8_t *bytes, size_t room);

/* Ends such a connection: what is on its way to him arrives. */
void local_end(int *fd);

/* Connects to a path, and waits until it is so. Returns the socket, which waits, or -1. */
int local_connect(const char *path);

#endif

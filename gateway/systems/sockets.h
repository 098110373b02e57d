/* Sockets of IPv4 and IPv6: datagrams, and connections. All are opened so that no call waits. What fails leaves its fault in errno: EAGAIN
 * where there is nothing now, or no room. */
#ifndef SOCKETS_H
#define SOCKETS_H

#include <stdbool.h>
#include <stddef.h>
#include <stdint.h>
#include <sys/types.h>

#include "systems/datagram.h"

/* A socket for datagrams at an address; `local` is told the port that it took. With a remote address it hears that one alone.
 * Returns the socket, or -1. */
int datagram_open(address *local, const address *remote);

/* Whether the system would choose the same address again for a socket with a remote one: it is the machine's still, and the way to the other end
 * leaves from there. Also where that can't be said; else it is told the address. */
bool datagram_has_address(int fd, address *own);

/* The next datagrams of a socket, or the next frames of an interface's. Returns false where there is none; with ECONNREFUSED where
 * somebody said, as anybody can, that nobody hears what the socket sent. */
bool datagrams_receive(int fd, arrivals *in);

/* Sends a datagram, or a frame, to where the socket is bound to send; a datagram to someone who may not be there. Returns whether it is on
 * its way. */
bool datagram_send(int fd, const uint8_t *bytes, size_t length);
bool datagram_send_to(int fd, const departure *what);

/* Sends datagrams, at least one and at most MOST_TOGETHER, to places that have answered lately. Returns how many of the first are on their
 * way: 0 where the system refused the very first, or where so much waits already that the rest of the room is for those who are surely there. */
size_t datagrams_send(int fd, const departure *list, size_t count);

/* Waits at an address for connections; `local` is told the port. Returns the socket, or -1. */
int listener_open(address *local);

/* The connection that came in, and who began it; or -1. A connection is lost where the machine at its other end hasn't acknowledged
 * anything for a minute, like one whose plug was pulled. Of what goes on a connection the system keeps no more than some kilobytes. */
int listener_take(int listener, address *from);

/* Of each connection that comes in there from now on, the system keeps no more than some kilobytes of what comes, too: whoever isn't waited for
 * may let it lie. (where the system refuses, it keeps what it likes) */
void listener_keep_little(int listener);

/* Begins a connection, of which the system keeps as little. Returns its socket, or -1. */
int connection_begin(const address *remote);

/* Whether it has come about: 1, 0 not yet, -1 it failed; then errno has the reason. */
int connection_state(int fd);

/* Whether a socket is connected with itself: a system does so where nobody listens at a port, and gives the socket that very port; and
 * where datagrams are to go to an address of this machine, which the socket has. */
bool connection_is_own(int fd);

/* Nothing more goes on a connection, which the other end is told behind all that is under way; it may still say something. */
void connection_finish(int fd);

/* Lets the system keep no more than so many bytes, or some more, of what has come on a connection and of what it hasn't sent yet,
 * where it knows that. */
void connection_keep_little(int fd, int bytes);

/* Whether the other end has not acknowledged for a minute what was sent to it, and the system would go on trying. */
bool connection_is_dead(int fd);

/* Whether something has come that wasn't received yet, or that it was closed; and whether it was closed or failed, whatever came before. */
bool connection_has_more(int fd);
bool connection_has_ended(int fd);

/* What has come on a connection, or 0 where the other end has closed it; as much as it takes of what is to go. Returns how many bytes,
 * or -1. */
ssize_t connection_receive(int fd, uint8_t *bytes, size_t room);
ssize_t connection_send(int fd, const uint8_t *bytes, size_t length);

/* Closes a socket that may be -1, and makes it so. */
void close_any(int *fd);

/* The same for a connection of which nothing is to stay: its port is free at once. */
void connection_drop(int *fd);

#endif

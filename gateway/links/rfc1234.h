/* A link by RFC 1234, which NetWare calls IPTUNNEL: a datagram of UDP is a packet of IPX, with nothing in front of it and nothing behind. A machine's
 * node is 0000 and its address of IPv4. What is for all goes to each peer that the configuration names, and nobody else is heard. In the
 * gateway packets go in frames of the machines' nodes, as on any other cable. The socket is the cable's. */
#ifndef RFC1234_H
#define RFC1234_H

#include <stdbool.h>
#include <stddef.h>
#include <stdint.h>

#include "configuration/settings.h"
#include "links/remote.h"
#include "monitoring/counts.h"
#include "systems/datagram.h"

/* Somebody whom the configuration names. */
typedef struct rfc1234_peer {
    char host[HOST_ROOM]; /* his name, or "": then it is the address, */
    address at;           /* whose port it has in any case */
    remote remote;
    uint64_t heard;       /* milliseconds of the clock when something came from there last, or 0 */
} rfc1234_peer;

typedef struct rfc1234 {
    const network_setting *set;
    rfc1234_peer peers[MOST_PEERS];
    size_t count;
    size_t asking;              /* of their names so many are asked for now, */
    size_t turn;                /* and of whom one looks first */
    reason lost[MOST_TOGETHER]; /* why of the datagrams that came last some aren't heard, */
    size_t lost_count;          /* and how many */
} rfc1234;

/* What a link needs beside its socket; or NULL where there is no memory. Then the same by another configuration: peers that it names still are
 * where they were. */
rfc1234 *rfc1234_open(const network_setting *set);
void rfc1234_follow(rfc1234 *it, const network_setting *set);
void rfc1234_close(rfc1234 *it);

/* Looks for the addresses of names: where a name has another one, what goes to it goes there. */
void rfc1234_look(rfc1234 *it);

/* Makes frames of the datagrams that came. Only those are left that are heard, and of each other one it is kept why. */
void rfc1234_receive(rfc1234 *it, arrivals *in);

/* Sends the packet of a frame to the peer whose node it is for, or to all. Returns whether it is on its way to one of them. */
bool rfc1234_send(rfc1234 *it, int fd, const uint8_t *frame, size_t length);

#endif

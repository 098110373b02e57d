/* ipxr_tunnel.h: DOSBox's IPX tunnel as a value, for C and for whatever can call C. It belongs to ipxr.h and is in the same
 * library.
 *
 * A tunnel is the server of what DOSBox calls IPXNET: clients register with it over UDP, and their packets come and go in
 * datagrams. It takes events (a datagram that arrived, a second, a packet that the router sends) and says who gets what. It has
 * no socket, no clock, no thread and no memory but its own. What each call does is proved from its code; docs/TUNNEL.md says what
 * a tunnel does, docs/LIBIPXR.md how far it is proved.
 *
 *     ipxr_tunnel tunnel = IPXR_TUNNEL_NONE;
 *     ipxr_tunnel_setting setting = {0x10, {0, 0, 0, 0, 0, 1}, 64, 16};
 *     if (ipxr_tunnel_make(&tunnel, &setting) < 0) ...;
 *     ...
 *     if (ipxr_tunnel_hear(&tunnel, &sender, bytes, length) >= 0)
 *         send_all(&tunnel, bytes);  -- each own datagram, then ipxr_tunnel_carried bytes to each receiver and, if heard, to the router
 *     ...
 *     ipxr_tunnel_free(&tunnel);
 *
 * PLACES. A place is where datagrams come from and go to: six bytes, the four of the IPv4 address and the two of the port, as
 * they lie on the wire. It is its client's node on the tunnel's network.
 *
 * COOKIES. A tunnel answers a stranger with a ping, and makes it a client only if its answer goes to the ping's source node, the
 * cookie of that place. So nobody becomes a client at a place where they don't receive, unless its address is trusted. Cookies
 * are yours to make: a keyed hash of the place and the minute, such as SipHash, so that nobody can guess one. No client's node
 * may have the same bytes. Give each datagram with the cookie of this minute and that of the last.
 *
 * WHAT C HAS TO PROMISE is what ipxr.h says, of this handle too. And:
 *
 * 11. The flag `is_trusted` is 0 or 1: any other byte there is no flag, and anything may happen.
 * 12. Cookies can't be guessed, and one place has one cookie a minute. If they can be guessed, a stranger may become a client at
 *     somebody else's place; if they change sooner, clients can't come in, or leave although they answer.
 *
 * Everything else is answered with a number: a handle without a tunnel, a second free, a datagram of any bytes, a record that
 * doesn't exist, a setting with too many clients, memory that is refused. ipxr_word has the words of the faults. */
#ifndef IPXR_TUNNEL_H
#define IPXR_TUNNEL_H

#include "ipxr.h"

#ifdef __cplusplus
extern "C" {
#endif

/* The most clients that one tunnel can have. */
#define IPXR_MOST_CLIENTS 4096

/* ---- What a datagram said: what ipxr_tunnel_hear returns. These numbers have no words. ---- */

#define IPXR_SAID_NOTHING 0 /* nothing that counts: it isn't a packet, or names a source other than its place on this network */
#define IPXR_REGISTERS 1    /* that it wants to be a client */
#define IPXR_ANSWERS 2      /* that it heard its ping: it names one of its cookies */
#define IPXR_SPEAKS 3       /* something to others; of one who is no client nobody gets it */

/* ---- Faults: below 0. The call did nothing. ---- */

#define IPXR_NO_TUNNEL (-7)     /* the handle has no tunnel */
/* of ipxr_tunnel_make alone: */
#define IPXR_MANY_CLIENTS (-18) /* it would have more than IPXR_MOST_CLIENTS */

/* ---- Values ---- */

/* A tunnel, or none. Begin with IPXR_TUNNEL_NONE, pass its address to the calls, and don't look inside. */
typedef struct ipxr_tunnel {
    ipxr_flag made;
    void *at;
} ipxr_tunnel;

/* A handle without a tunnel, to begin with: ipxr_tunnel tunnel = IPXR_TUNNEL_NONE; */
#define IPXR_TUNNEL_NONE {0, NULL}

/* What a tunnel is made from. */
typedef struct ipxr_tunnel_setting {
    uint32_t network;  /* the number of its network, as the router's port there has it */
    uint8_t node[6];   /* the server's node there, which is the router's too: no place of a client */
    uint16_t capacity; /* how many clients it takes: at most IPXR_MOST_CLIENTS. 0 takes none */
    uint16_t share;    /* how many of them may have one IPv4 address. 0 takes none */
} ipxr_tunnel_setting;

/* Where a datagram came from. */
typedef struct ipxr_sender {
    uint8_t place[6];     /* the place */
    uint8_t current[6];   /* its cookie of this minute */
    uint8_t previous[6];  /* its cookie of the last minute, whose answer counts too */
    ipxr_flag is_trusted; /* whether its address is one of a network of yours, so that it is a client without an answer: 0 or 1 */
} ipxr_sender;

/* A datagram of the tunnel's own: an answer or a ping. */
typedef struct ipxr_own {
    uint8_t place[6];  /* where it goes */
    uint8_t bytes[30]; /* its bytes */
} ipxr_own;

/* A client. */
typedef struct ipxr_client {
    uint8_t place[6];
    uint8_t seconds_left; /* how many seconds longer it stays, unless it answers a ping (if it is trusted: says anything) */
} ipxr_client;

/* ---- Making and freeing ---- */

/* Makes a tunnel with that setting, which is copied. It has no clients, and no results of an event. A tunnel that the handle had
 * is freed, but only if the new one could be made. Returns 0; or IPXR_MANY_CLIENTS or IPXR_OUT_OF_MEMORY, and then the handle is
 * as it was. */
IPXR_CALL int32_t ipxr_tunnel_make(ipxr_tunnel *tunnel, const ipxr_tunnel_setting *setting);

/* Frees the tunnel, if there is one; the handle then has none. Its clients are forgotten, and get no message. */
IPXR_CALL void ipxr_tunnel_free(ipxr_tunnel *tunnel);

/* ---- Events ----
 * The calls below them read the results of an event, until the next event. No event takes memory. IPXR_NO_TUNNEL: nothing was
 * done. */

/* A datagram arrived. `bytes` is what it held, any bytes at all; they are only read, and only during the call. Don't give one
 * with a packet longer than your network carries: it would be carried. Clear the packet's transport control (byte 4) first:
 * DOSBox leaves there what its program left, and a router drops what has crossed sixteen. Returns what it said. */
IPXR_CALL int32_t ipxr_tunnel_hear(ipxr_tunnel *tunnel, const ipxr_sender *sender, const uint8_t *bytes, size_t length);

/* A second has passed: clients that have not answered for five seconds, or ten, .. are pinged, and those whose time is over
 * leave. Returns 0. Call it once for each second of your clock, at most once for each turn of your loop: after a stall, clients
 * shouldn't all be counted out at once. */
IPXR_CALL int32_t ipxr_tunnel_second(ipxr_tunnel *tunnel);

/* The router sends a packet on the tunnel's network to that node, or to all: ipxr_packet_sent has it. The receivers get its
 * bytes, which the tunnel doesn't need. Returns 0. */
IPXR_CALL int32_t ipxr_tunnel_send(ipxr_tunnel *tunnel, const uint8_t node[6]);

/* ---- What came of the last event ----
 * For each there is a count, 0 without a tunnel, and a call that copies number `index`, counted from 0. That call returns 0; with
 * IPXR_NO_TUNNEL and IPXR_NO_RECORD what you lent for it stays as it was. */

/* Datagrams of the tunnel's own: send them first. After a datagram there are at most two, after a second one for each silent
 * client. */
IPXR_CALL size_t ipxr_tunnel_owns(ipxr_tunnel *tunnel);
IPXR_CALL int32_t ipxr_tunnel_own(ipxr_tunnel *tunnel, size_t index, ipxr_own *own);

/* The places that get the packet: of a datagram that was heard, or of what the router sends. */
IPXR_CALL size_t ipxr_tunnel_receivers(ipxr_tunnel *tunnel);
IPXR_CALL int32_t ipxr_tunnel_receiver(ipxr_tunnel *tunnel, size_t index, uint8_t place[6]);

/* How many bytes of the datagram, from its first on, are the packet; what follows isn't carried. 0 if the event was no datagram,
 * or one without a packet. */
IPXR_CALL size_t ipxr_tunnel_carried(ipxr_tunnel *tunnel);

/* 1 if the router hears the packet of the datagram, else 0: give these bytes to ipxr_packet then. */
IPXR_CALL uint8_t ipxr_tunnel_is_heard(ipxr_tunnel *tunnel);

/* The places of the clients that left in the second. */
IPXR_CALL size_t ipxr_tunnel_leavers(ipxr_tunnel *tunnel);
IPXR_CALL int32_t ipxr_tunnel_leaver(ipxr_tunnel *tunnel, size_t index, uint8_t place[6]);

/* ---- Its clients, in the order in which they came ---- */

IPXR_CALL size_t ipxr_tunnel_clients(ipxr_tunnel *tunnel);
IPXR_CALL int32_t ipxr_tunnel_client(ipxr_tunnel *tunnel, size_t index, ipxr_client *client);

/* ---- Broadcasts for other networks ----
 * Games look for each other by broadcasts on their own network, and routers keep those there. If two networks name the same
 * sockets, a server may copy such a broadcast from one to the other. This call needs no tunnel, and serves any network. */

/* Whether a packet that came on the network of that number is copied: it is a broadcast there to one of the `count` sockets, its
 * source names the network, and it isn't of the type that routers propagate (20). If so, its bytes become those of the copy for
 * the network `to`: they differ in the destination's network alone. Send the copy there as a packet to all; the call returns 1.
 * Otherwise they stay as they were, and it returns 0. A copy isn't copied again, on any network and by any sockets, if `to` is a
 * network other than `network`, and neither 0 nor FFFFFFFFh. Ask only about what the router hears, with the bytes that were
 * carried. */
IPXR_CALL uint8_t ipxr_tunnel_extend(uint32_t network, const uint16_t *sockets, size_t count, uint32_t to, uint8_t *bytes, size_t length);

#ifdef __cplusplus
}
#endif

#endif

/* ipxr_keyed.h: DOSBox's IPX tunnel with keyed nodes as a value, for C and for whatever can call C. It belongs to ipxr.h and is in the
 * same library.
 *
 * This is the server of what DOSBox calls IPXNET, as ipxr_tunnel.h has it, with one difference: a client's node isn't the address it
 * comes from, but one that you make for that place, a keyed hash, and that the answer to its registration hands out. So whoever names
 * it has received the answer, and a node tells nobody where its client is. It takes events (a datagram that arrived, a second, a packet
 * that the router sends) and says who gets what. It has no socket, no clock, no thread and no memory but its own. What each call does
 * is proved from its code; docs/KEYED.md says what such a tunnel does, docs/LIBIPXR.md how far it is proved.
 *
 *     ipxr_keyed tunnel = IPXR_KEYED_NONE;
 *     ipxr_keyed_setting setting = {0x10, {0, 0, 0, 0, 0, 1}, 64, 16, 1024, 64};
 *     if (ipxr_keyed_make(&tunnel, &setting) < 0) ...;
 *     ...
 *     if (ipxr_keyed_hear(&tunnel, &sender, bytes, length) >= 0)
 *         send_all(&tunnel, bytes);  -- each own datagram, then ipxr_keyed_carried bytes to each receiver and, if heard, to the router
 *     ...
 *     ipxr_keyed_free(&tunnel);
 *
 * PLACES. A place is where datagrams come from and go to: six bytes, the four of the IPv4 address and the two of the port, as
 * they lie on the wire.
 *
 * NODES. Each place has one node, which you make: 02 and five bytes of a keyed hash of the place, such as SipHash, so that nobody can
 * guess one. Keep the key when your program starts again, or clients have to connect again. A place may have a former node as well, such
 * as the one by the key before, or the six bytes of the place, which ipxr_tunnel.h hands out. Whoever names that is pinged, and comes in
 * once he answers. A place without a former node has its node there, too.
 *
 * COOKIES. A ping's source node is the cookie of its place, and whoever answers it receives there. Cookies are yours to make, as nodes
 * are, of the place and the minute, by another key or in another form: no cookie may be a node. Give each datagram with the cookie of
 * this minute and that of the last.
 *
 * CLIENTS. A registration alone makes no client. A place becomes one by the first packet that names the node handed to it in the last
 * nine seconds, or by the answer to a ping, the first of which is sent in the seventh second. Until then no packet goes there, and
 * ipxr_keyed_send has no receiver for its node: ipxr_keyed_waiters counts it, and ipxr_keyed_clients doesn't.
 *
 * WHAT C HAS TO PROMISE is what ipxr.h says, of this handle too. And:
 *
 * 11. The flags `is_trusted` and `may_register` are 0 or 1: any other byte there is no flag, and anything may happen.
 * 12. Cookies and nodes can't be guessed, and one place has one cookie a minute, and one node. If they can be guessed, a stranger may
 *     become a client at somebody else's place; if they change sooner, clients can't come in, or leave although they answer.
 *
 * Everything else is answered with a number: a handle without a tunnel, a second free, a datagram of any bytes, a record that
 * doesn't exist, a setting with too many clients, memory that is refused. ipxr_word has the words of the faults. What a datagram said,
 * and the datagrams of the tunnel's own, are those of ipxr_tunnel.h, and so is ipxr_tunnel_extend, which serves this tunnel, too. */
#ifndef IPXR_KEYED_H
#define IPXR_KEYED_H

#include "ipxr_tunnel.h"

#ifdef __cplusplus
extern "C" {
#endif

/* ---- Faults: below 0. The call did nothing. They are those of ipxr_tunnel.h: IPXR_NO_TUNNEL, where the handle has no tunnel; and of
 * ipxr_keyed_make alone IPXR_MANY_CLIENTS, where it would have, or remember, more than IPXR_MOST_CLIENTS. ---- */

/* ---- Values ---- */

/* A tunnel, or none. Begin with IPXR_KEYED_NONE, pass its address to the calls, and don't look inside. */
typedef struct ipxr_keyed {
    ipxr_flag made;
    void *at;
} ipxr_keyed;

/* A handle without a tunnel, to begin with: ipxr_keyed tunnel = IPXR_KEYED_NONE; */
#define IPXR_KEYED_NONE {0, NULL}

/* What a tunnel is made from. */
typedef struct ipxr_keyed_setting {
    uint32_t network;          /* the number of its network, as the router's port there has it */
    uint8_t node[6];           /* the server's node there, which is the router's too: no node of a client */
    uint16_t capacity;         /* how many clients it takes: at most IPXR_MOST_CLIENTS. 0 takes none */
    uint16_t share;            /* how many of them may have one IPv4 address. 0 takes none */
    uint16_t remembered;       /* how many registrations it remembers, each for nine seconds: at most IPXR_MOST_CLIENTS */
    uint16_t remembered_share; /* how many of them may have one IPv4 address */
} ipxr_keyed_setting;

/* Where a datagram came from, and what you know of that place. */
typedef struct ipxr_keyed_sender {
    uint8_t place[6];       /* the place */
    uint8_t node[6];        /* its node */
    uint8_t former[6];      /* its former node, or its node again */
    uint8_t current[6];     /* its cookie of this minute */
    uint8_t previous[6];    /* its cookie of the last minute, whose answer counts too */
    ipxr_flag is_trusted;   /* whether its address is one of a network of yours, so that its first word makes it a client: 0 or 1 */
    ipxr_flag may_register; /* whether a registration counts now, which may bring it up to four datagrams: 0 or 1 */
} ipxr_keyed_sender;

/* A client, or somebody who registered and is remembered. */
typedef struct ipxr_keyed_member {
    uint8_t place[6];
    uint8_t node[6];
    uint8_t seconds_left; /* how many seconds longer it stays, unless it answers a ping (if it is trusted: says anything) */
} ipxr_keyed_member;

/* ---- Making and freeing ---- */

/* Makes a tunnel with that setting, which is copied. It has no clients, and no results of an event. A tunnel that the handle had
 * is freed, but only if the new one could be made. Returns 0; or IPXR_MANY_CLIENTS or IPXR_OUT_OF_MEMORY, and then the handle
 * is as it was. */
IPXR_CALL int32_t ipxr_keyed_make(ipxr_keyed *tunnel, const ipxr_keyed_setting *setting);

/* Frees the tunnel, if there is one; the handle then has none. Its clients are forgotten, and get no message. */
IPXR_CALL void ipxr_keyed_free(ipxr_keyed *tunnel);

/* ---- Events ----
 * The calls below them read the results of an event, until the next event. No event takes memory. IPXR_NO_TUNNEL: nothing was
 * done. */

/* A datagram arrived. `bytes` is what it held, any bytes at all; they are only read, and only during the call. Don't give one
 * with a packet longer than your network carries: it would be carried. Clear the packet's transport control (byte 4) first:
 * DOSBox leaves there what its program left, and a router drops what has crossed sixteen. Returns what it said: IPXR_SAID_NOTHING,
 * IPXR_REGISTERS, IPXR_ANSWERS or IPXR_SPEAKS. */
IPXR_CALL int32_t ipxr_keyed_hear(ipxr_keyed *tunnel, const ipxr_keyed_sender *sender, const uint8_t *bytes, size_t length);

/* A second has passed: clients that have not answered for five seconds, or ten, .. are pinged, and those whose time is over
 * leave; who registered is answered again, and pinged in the seventh second and in the ninth. Returns 0. Call it once for each second of
 * your clock, at most once for each turn of your loop: after a stall, clients shouldn't all be counted out at once. */
IPXR_CALL int32_t ipxr_keyed_second(ipxr_keyed *tunnel);

/* The router sends a packet on the tunnel's network to that node, or to all: ipxr_packet_sent has it. The receivers, who are
 * clients, get its bytes, which the tunnel doesn't need. Returns 0. */
IPXR_CALL int32_t ipxr_keyed_send(ipxr_keyed *tunnel, const uint8_t node[6]);

/* ---- What came of the last event ----
 * For each there is a count, 0 without a tunnel, and a call that copies number `index`, counted from 0. That call returns 0; with
 * IPXR_NO_TUNNEL and IPXR_NO_RECORD what you lent for it stays as it was. */

/* Datagrams of the tunnel's own: send them first. After a datagram there is at most one; after a second one for each silent client, and
 * behind these one for each remembered place that is answered again or pinged. */
IPXR_CALL size_t ipxr_keyed_owns(ipxr_keyed *tunnel);
IPXR_CALL int32_t ipxr_keyed_own(ipxr_keyed *tunnel, size_t index, ipxr_own *own);

/* How many of them, the first ones, are pings of clients after a second. */
IPXR_CALL size_t ipxr_keyed_pings(ipxr_keyed *tunnel);

/* The places that get the packet: of a datagram that was heard, or of what the router sends. */
IPXR_CALL size_t ipxr_keyed_receivers(ipxr_keyed *tunnel);
IPXR_CALL int32_t ipxr_keyed_receiver(ipxr_keyed *tunnel, size_t index, uint8_t place[6]);

/* How many bytes of the datagram, from its first on, are the packet; what follows isn't carried. 0 if the event was no datagram,
 * or one without a packet. */
IPXR_CALL size_t ipxr_keyed_carried(ipxr_keyed *tunnel);

/* 1 if the router hears the packet of the datagram, else 0: give these bytes to ipxr_packet then. */
IPXR_CALL uint8_t ipxr_keyed_is_heard(ipxr_keyed *tunnel);

/* The clients that left in the second. */
IPXR_CALL size_t ipxr_keyed_leavers(ipxr_keyed *tunnel);
IPXR_CALL int32_t ipxr_keyed_leaver(ipxr_keyed *tunnel, size_t index, ipxr_keyed_member *member);

/* ---- Its clients, and whoever registered and is remembered, in the order in which they came ---- */

IPXR_CALL size_t ipxr_keyed_clients(ipxr_keyed *tunnel);
IPXR_CALL int32_t ipxr_keyed_client(ipxr_keyed *tunnel, size_t index, ipxr_keyed_member *member);

IPXR_CALL size_t ipxr_keyed_waiters(ipxr_keyed *tunnel);
IPXR_CALL int32_t ipxr_keyed_waiter(ipxr_keyed *tunnel, size_t index, ipxr_keyed_member *member);

#ifdef __cplusplus
}
#endif

#endif

/* ipxr.h: an IPX router as a value, for C and for whatever can call C.
 *
 * A router takes events (a start, seconds, packets that arrived) and says which packets it sends. It has no socket, no
 * clock, no thread and no memory but its own. What each call does is proved from its code; docs/LIBIPXR.md says how far.
 *
 *     ipxr router = IPXR_NONE;
 *     ipxr_port ports[2] = {
 *         {0x10, {0, 0, 0, 0, 0, 1}, 1, 576, IPXR_NO_LIMIT, IPXR_NO_LIMIT},
 *         {0x20, {0, 0, 0, 0, 0, 2}, 1, 1500, IPXR_NO_LIMIT, IPXR_NO_LIMIT},
 *     };
 *     if (ipxr_make(&router, ports, 2) < 0) ...;
 *     ipxr_start(&router);
 *     send_all(&router);           -- ipxr_sent, ipxr_get for each, ipxr_clear
 *     ...
 *     ipxr_free(&router);
 *
 * All numbers are in the machine's own byte order; packets and nodes are bytes as they lie on the wire.
 *
 * WHAT C HAS TO PROMISE. Nothing checks it. If a promise is broken, anything may happen, unless stated otherwise.
 *
 *  1. A handle begins as IPXR_NONE, or with all bytes 0, and is changed by these calls alone. Anything else in it is taken for a
 *     pointer.
 *  2. A handle is never copied. Two copies are one router: freed by both, it is freed twice.
 *  3. A handle's router is freed before the handle is discarded. Otherwise its memory is lost.
 *  4. One call at a time for one handle. It may move to another thread between calls, ordered by a lock, or by what
 *     starts or joins the threads. Different handles share nothing.
 *  5. No pointer is NULL, not even with a length of 0. A NULL handle is dereferenced.
 *  6. Each pointer leads to as many values as its length says, aligned for their type. If a buffer is
 *     shorter than its length says, the call writes past its end.
 *  7. No two arguments of one call overlap, and no other code writes there during the call.
 *  8. malloc, realloc and free, or what takes their place, belong to one allocator, which is not changed while a router exists.
 *  9. No call from a signal handler, nor in the child of a fork of a process with threads.
 * 10. The stack has room for a call, as that of a thread with IPXR_STACK bytes has. Without room, a call overruns the stack.
 *
 * Everything else is answered with a number: a handle without a router, a second free, a port, a packet or a record that
 * doesn't exist, a buffer too short for a packet, ports from which no router can be made, memory that is refused.
 *
 * WHERE IT RUNS. The library is built for 64-bit Linux on x86-64 and on aarch64 and for 64-bit Windows on x86-64, and there is one
 * file of C, libipxr.c, for any other system of 32 or 64 bits: docs/LIBIPXR.md says how each is made. It is called like any C there.
 * The header is plain C, from C89 on, and plain C++, from C++98 on, if the compiler has stdint.h and stdbool.h.
 */
#ifndef IPXR_H
#define IPXR_H

#include <stdbool.h>
#include <stddef.h>
#include <stdint.h>

/* What precedes each call, if anything: for anyone who wants __declspec(dllimport), which Windows' DLL doesn't need. */
#ifndef IPXR_CALL
#define IPXR_CALL
#endif

#ifdef __cplusplus
extern "C" {
#endif

/* The most that one router can have. A full table learns no further network or service. */
#define IPXR_MOST_PORTS 32
#define IPXR_MOST_ROUTES 2048
#define IPXR_MOST_SERVICES 1024

/* For how many seconds a router believes what a neighbour told it, if nothing more is heard of it. */
#define IPXR_LIFETIME 180

/* The broadcast node is six bytes of this. */
#define IPXR_BROADCAST_BYTE 0xFF

/* A share that limits nothing. */
#define IPXR_NO_LIMIT 65535

/* Bytes enough for the words of any answer, with the 0 after them. */
#define IPXR_MOST_WORD 32

/* Bytes of stack for a thread that makes these calls. ipxr_make needs the most: before a router's tables are in their block, it
 * holds them on the stack up to three times, 17 bytes a route and 77 a service. So it is 384 KB as delivered, and 64 KB for small
 * tables. All other calls take less than 16 KB, whatever the tables. */
#define IPXR_STACK (((17 * IPXR_MOST_ROUTES + 77 * IPXR_MOST_SERVICES) * 3 + 16384 + 65535) / 65536 * 65536)

/* ---- What became of an event: 0 and above. ipxr_word gives the words of each. ---- */

#define IPXR_STARTED 0          /* the router runs from now on */
#define IPXR_ALREADY_RUNNING 1  /* it was running; nothing was done */
#define IPXR_STOPPED 2          /* it is stopped, and forgot what it learned */
#define IPXR_TICKED 3           /* a second passed */
#define IPXR_LEARNED 4          /* a response was accepted, even if it taught nothing: worse or unreachable offers, own networks, no room */
#define IPXR_ANSWERED 5         /* a request or a query was heard; also if nothing is sent */
#define IPXR_FORWARDED 6        /* the packet goes on towards its network */
#define IPXR_PROPAGATED 7       /* the packet goes on to each other network that is up, uncrossed and allows its length, if any */
#define IPXR_WENT_DOWN 8        /* the port is down from now on */
#define IPXR_CAME_UP 9          /* the port is up from now on */
#define IPXR_ALREADY_DOWN 10    /* the port was down; nothing was done */
#define IPXR_ALREADY_UP 11      /* the port was up; nothing was done */

/* ---- Why an event was dropped: nothing was done, nothing is sent. Each reason has a hundred of its own, which it keeps: a new
 * one gets the next that is free, wherever its check stands among those of docs/ROUTER.md, so that numbers don't tell the order of
 * the checks. The rest, 0 to 9, says what was wrong with the bytes. ---- */

#define IPXR_DROPPED(answer) ((answer) >= 100)

#define IPXR_NOT_RUNNING 100          /* the router is stopped */
#define IPXR_MALFORMED_SHORT 201      /* under 30 bytes */
#define IPXR_MALFORMED_LENGTH_SMALL 202  /* a length under 30 */
#define IPXR_MALFORMED_LENGTH_BEYOND 203 /* a length beyond the bytes */
#define IPXR_OWN_ECHO 300             /* from the port itself */
#define IPXR_BAD_SOURCE 400           /* from the broadcast node */
#define IPXR_CROSSED_SHORT 500        /* propagated, no room for the networks crossed */
#define IPXR_CROSSED_FULL 600         /* propagated, has crossed eight or more networks */
#define IPXR_CROSSED_SEEN 700         /* propagated, has crossed the port's network */
#define IPXR_ELSEWHERE 800            /* for another node of the port's network */
#define IPXR_OTHER_SOCKET 900         /* for a socket that the router doesn't serve */
#define IPXR_NOT_NEIGHBOUR 1000       /* for the router, from another network */
#define IPXR_BAD_RIP_SHORT 1101       /* RIP: under 2 bytes */
#define IPXR_BAD_RIP_OPERATION 1102   /* RIP: neither a request nor a response */
#define IPXR_BAD_RIP_NO_ENTRY 1103    /* RIP: no entry */
#define IPXR_BAD_RIP_TOO_MANY 1104    /* RIP: over 50 entries */
#define IPXR_BAD_SAP_SHORT 1201       /* SAP: under 2 bytes, or a query under 4 */
#define IPXR_BAD_SAP_OPERATION 1202   /* SAP: neither a query nor a response */
#define IPXR_BAD_SAP_NO_ENTRY 1203    /* SAP: no entry */
#define IPXR_BAD_SAP_TOO_MANY 1204    /* SAP: over 7 entries */
#define IPXR_NEAREST_REPLY 1300       /* an answer to a query for the nearest service, which routers don't ask */
#define IPXR_TOO_MANY_ROUTERS 1400    /* came through sixteen routers or more */
#define IPXR_FAR_SIDE 1500            /* for another port of this router */
#define IPXR_NO_ROUTE 1600            /* for a network to which there is no route */
#define IPXR_TOO_LONG 1700            /* to be forwarded, and longer than the outgoing port allows */
#define IPXR_DOWN_PORT 1800           /* came on a port that is down */
#define IPXR_LAST_DROP IPXR_DOWN_PORT /* no drop of this version has a higher number */

/* ---- Faults: below 0. The call did nothing. ---- */

#define IPXR_NO_ROUTER (-1)     /* the handle has no router */
#define IPXR_NO_PORT (-2)       /* there is no port of that number */
#define IPXR_NO_PACKET (-3)     /* there is no packet of that number */
#define IPXR_NO_RECORD (-4)     /* there is no route or service of that number */
#define IPXR_SHORT_BUFFER (-5)  /* the packet is longer than the buffer; ipxr_get gives its length */
#define IPXR_OUT_OF_MEMORY (-6) /* the allocator refused; the call can be made again */
/* of ipxr_make alone: */
#define IPXR_BAD_LONGEST (-11)  /* a port's longest packet is under 576 bytes */
#define IPXR_BAD_COST (-12)     /* a port's cost is 0 */
#define IPXR_BAD_NETWORK (-13)  /* a port's network is 0, FFFFFFFEh or FFFFFFFFh */
#define IPXR_BAD_NODE (-14)     /* a port's node is the broadcast */
#define IPXR_NO_PORTS (-15)     /* there are no ports */
#define IPXR_MANY_PORTS (-16)   /* there are more than IPXR_MOST_PORTS */
#define IPXR_SAME_NETWORK (-17) /* two ports are on one network */
/* of the calls that write packets alone: */
#define IPXR_BAD_OPERATION (-21) /* neither a request nor a response */
#define IPXR_NO_ENTRIES (-22)    /* there is no route or service to write */
#define IPXR_MANY_ENTRIES (-23)  /* there are more routes or services than a packet may have */
#define IPXR_BAD_NAME (-24)      /* a service's name is empty, or has no 0 behind it */
#define IPXR_LONG_PACKET (-25)   /* with its data the packet would have more than 65,535 bytes */

/* ---- Values ---- */

/* Yes or no, in a byte: C before 1999 has no bool. */
#if defined(__cplusplus) || (defined(__STDC_VERSION__) && __STDC_VERSION__ >= 199901L)
typedef bool ipxr_flag;
#else
typedef unsigned char ipxr_flag;
#endif

/* A router, or none. Begin with IPXR_NONE, pass its address to the calls, and don't look inside. */
typedef struct ipxr {
    ipxr_flag made;
    void *at;
} ipxr;

/* A handle without a router, to begin with: ipxr router = IPXR_NONE; */
#define IPXR_NONE {0, NULL}

/* A port, as it is given to ipxr_make. */
typedef struct ipxr_port {
    uint32_t network;  /* the number of its network: not 0, not FFFFFFFEh, not FFFFFFFFh */
    uint8_t node[6];   /* its node there: not the broadcast */
    uint16_t cost;     /* ticks (eighteenths of a second) that a packet takes to cross the network: at least 1 */
    uint16_t longest;  /* bytes of the longest packet that may leave there, its 30 header bytes included: at least 576 */
    uint16_t routes;   /* the most routes in the table that came by it: IPXR_NO_LIMIT for any number. 0 learns none */
    uint16_t services; /* the most services, likewise */
} ipxr_port;

/* A packet to be sent, without its bytes. */
typedef struct ipxr_packet_sent {
    size_t length;   /* how many bytes it has */
    uint8_t port;    /* the number of the port on which it leaves, from 0 */
    uint8_t node[6]; /* the node of the next hop on that port's network, or the broadcast */
} ipxr_packet_sent;

/* A route that was learned. */
typedef struct ipxr_route_record {
    uint32_t network; /* where it leads */
    uint16_t hops;    /* routers on the way, as the neighbour advertised it: under 16 */
    uint16_t ticks;   /* ticks for the way, likewise */
    uint8_t node[6];  /* the neighbour that advertised it */
    uint8_t port;     /* the port by which it came */
    uint8_t age;      /* seconds since it was advertised last: under IPXR_LIFETIME */
} ipxr_route_record;

/* A service that was learned. */
typedef struct ipxr_service_record {
    uint8_t name[48];  /* its name, 1 to 47 bytes, and zeros behind */
    uint32_t network;  /* where it is offered: network, node and socket */
    uint8_t node[6];
    uint16_t socket;
    uint16_t type;     /* its type, such as 4 for a file server */
    uint16_t hops;     /* routers on the way, as the neighbour advertised it: under 16 */
    uint8_t neighbour[6]; /* the neighbour that advertised it */
    uint8_t port;      /* the port by which it came */
    uint8_t age;       /* seconds since it was advertised last: under IPXR_LIFETIME */
} ipxr_service_record;

/* An address, of a packet that is written: a socket on a node of a network. */
typedef struct ipxr_address {
    uint32_t network; /* 0 is the network at hand */
    uint8_t node[6];  /* or the broadcast */
    uint16_t socket;
} ipxr_address;

/* A route of a packet that is written. */
typedef struct ipxr_route_entry {
    uint32_t network; /* where it leads, or, in a request, what is asked for: FFFFFFFFh is all */
    uint16_t hops;    /* routers on the way: 16 where it is unreachable, and FFFFh in a request */
    uint16_t ticks;   /* ticks for the way: FFFFh in a request */
} ipxr_route_entry;

/* A service of a packet that is written: its fields are the first of an ipxr_service_record. */
typedef struct ipxr_service_entry {
    uint8_t name[48]; /* its name, 1 to 47 bytes, and a 0 behind: the rest is written as zeros */
    uint32_t network; /* where it is offered: network, node and socket */
    uint8_t node[6];
    uint16_t socket;
    uint16_t type;    /* its type, such as 4 for a file server */
    uint16_t hops;    /* routers on the way: 1 of a server's own service, and 16 where it is unreachable */
} ipxr_service_entry;

/* ---- Making and freeing ---- */

/* Makes a router of `count` ports, which are numbered from 0. It is stopped, its tables are empty, and it has nothing to send.
 * The ports are copied. A router that the handle had is freed, but only if the new one could be made. Returns 0, or the first
 * fault: IPXR_NO_PORTS, IPXR_MANY_PORTS; of the first wrong port IPXR_BAD_LONGEST, IPXR_BAD_COST, IPXR_BAD_NETWORK or
 * IPXR_BAD_NODE, in this order; IPXR_SAME_NETWORK; IPXR_OUT_OF_MEMORY. Then the handle is as it was. */
IPXR_CALL int32_t ipxr_make(ipxr *router, const ipxr_port *ports, size_t count);

/* Frees the router, if there is one; the handle then has none. Packets that it still had to send are lost. */
IPXR_CALL void ipxr_free(ipxr *router);

/* ---- Events ----
 * Each returns what became of it. The packets that it sends are added after those that wait already: take them out with
 * ipxr_sent, ipxr_get and ipxr_clear. IPXR_OUT_OF_MEMORY: there was no memory for the packets that it may send, and nothing
 * happened; you can give the same event again. */

/* Starts it: IPXR_STARTED or IPXR_ALREADY_RUNNING. All ports are up. */
IPXR_CALL int32_t ipxr_start(ipxr *router);

/* Stops it: IPXR_STOPPED or IPXR_NOT_RUNNING. What it learned is forgotten, and advertised as unreachable. */
IPXR_CALL int32_t ipxr_stop(ipxr *router);

/* A second has passed: IPXR_TICKED or IPXR_NOT_RUNNING. Call it once for each second of your clock, late ones too. */
IPXR_CALL int32_t ipxr_second(ipxr *router);

/* A packet arrived on a port. `bytes` is the IPX packet from its checksum on, any bytes at all, without what carried it;
 * they are only read, and only during the call. */
IPXR_CALL int32_t ipxr_packet(ipxr *router, uint8_t port, const uint8_t *bytes, size_t length);

/* A port lost its link, or has it again: IPXR_WENT_DOWN or IPXR_ALREADY_DOWN, IPXR_CAME_UP or IPXR_ALREADY_UP; IPXR_NOT_RUNNING. */
IPXR_CALL int32_t ipxr_port_down(ipxr *router, uint8_t port);
IPXR_CALL int32_t ipxr_port_up(ipxr *router, uint8_t port);

/* ---- Packets to be sent ---- */

/* How many there are; 0 without a router. */
IPXR_CALL size_t ipxr_sent(ipxr *router);

/* Copies packet number `index`, counted from 0: its length, port and next hop into `sent`, its bytes to the front of `buffer`,
 * which has room for `room` bytes; the rest of the buffer stays as it was. Returns 0. With IPXR_SHORT_BUFFER `sent` is filled all
 * the same, and no byte is copied; with IPXR_NO_ROUTER and IPXR_NO_PACKET both stay as they were. A buffer as long as the longest
 * port allows, and no shorter than 576, is always long enough. */
IPXR_CALL int32_t ipxr_get(ipxr *router, size_t index, ipxr_packet_sent *sent, uint8_t *buffer, size_t room);

/* Removes all of them. Their memory is kept for the next ones. */
IPXR_CALL void ipxr_clear(ipxr *router);

/* ---- What it knows ---- */

/* 1 if it runs, 0 if it is stopped; IPXR_NO_ROUTER. */
IPXR_CALL int32_t ipxr_is_running(ipxr *router);

/* 1 if the router runs and the port is up, 0 if not; IPXR_NO_ROUTER, IPXR_NO_PORT. */
IPXR_CALL int32_t ipxr_is_up(ipxr *router, uint8_t port);

/* How many routes and services it has; 0 without a router. */
IPXR_CALL size_t ipxr_routes(ipxr *router);
IPXR_CALL size_t ipxr_services(ipxr *router);

/* Copies route number `index` by network, or service number `index` by type and name, each counted from 0. Returns 0; with
 * IPXR_NO_ROUTER and IPXR_NO_RECORD `record` stays as it was. */
IPXR_CALL int32_t ipxr_route(ipxr *router, size_t index, ipxr_route_record *record);
IPXR_CALL int32_t ipxr_service(ipxr *router, size_t index, ipxr_service_record *record);

/* ---- Frames of Ethernet ----
 * For links that carry frames: a card, a TAP, an emulator's network. They need no router and keep nothing. */

/* How a frame carries an IPX packet. */
#define IPXR_NO_FRAME 0        /* it carries none */
#define IPXR_FRAME_ETHERNET2 1 /* its type is 8137h */
#define IPXR_FRAME_RAW 2       /* behind a length: Novell's own kind, for packets without a checksum (FFFFh there) */
#define IPXR_FRAME_LLC 3       /* behind a length and the 802.2 header E0 E0 03 */
#define IPXR_FRAME_SNAP 4      /* behind a length and the 802.2 header AA AA 03 00 00 00 81 37 */
#define IPXR_FRAME_KINDS 4     /* how many kinds there are: their numbers are 1 to this one, which a new kind raises */

/* Bytes of the shortest and of the longest frame that is written, without the checksum that a card adds. */
#define IPXR_SHORTEST_FRAME 60
#define IPXR_LONGEST_FRAME 1514

/* Returns how the frame carries a packet, and puts into `front` how many bytes stand before the packet. Give ipxr_packet all
 * bytes from there to the frame's end: it finds by itself what is padding. With IPXR_NO_FRAME `front` stays as it was. A frame
 * begins with its six bytes of destination and six of source; check yourself that it is for you, and not your own. */
IPXR_CALL uint8_t ipxr_frame_read(const uint8_t *frame, size_t length, size_t *front);

/* Writes the frame in which a packet is sent to a node from a node: its type, or its length and header, the packet, and zeros up
 * to IPXR_SHORTEST_FRAME. Returns its length; the rest of the buffer stays as it was. Returns 0, and writes nothing, if `kind` is
 * none of these, header and packet are more than 1,500 bytes, the frame is longer than `room`, or a raw frame would carry a
 * packet with a checksum, since nobody would recognize it as IPX. */
IPXR_CALL size_t ipxr_frame_write(uint8_t kind, const uint8_t to[6], const uint8_t from[6], const uint8_t *packet, size_t length,
                                  uint8_t *frame, size_t room);

/* ---- Packets of your own ----
 * For what a program puts on its networks itself: a server or a client inside it, or a test. They need no router and keep
 * nothing. Each writes a whole packet, without a checksum (FFFFh), to the front of `buffer`, which has room for `room` bytes, and
 * returns its length; the rest of the buffer stays as it was. Or it returns the first of its faults, in the order in which they
 * are listed, and writes nothing. What was written is what ipxr_packet takes, ipxr_frame_write carries, and a router on the way
 * reads. */

/* The sockets to which routing information and service advertising go, and from which routers send them. */
#define IPXR_RIP_SOCKET 0x0453
#define IPXR_SAP_SOCKET 0x0452

/* The operations of routing information. */
#define IPXR_RIP_REQUEST 1
#define IPXR_RIP_RESPONSE 2

/* The most routes, and the most services, of one packet. 576 bytes are room enough for them. */
#define IPXR_PACKET_ROUTES 50
#define IPXR_PACKET_SERVICES 7

/* Writes a request or a response of routing information, with `count` routes: 32 bytes, and 8 for each. IPXR_BAD_OPERATION,
 * IPXR_NO_ENTRIES, IPXR_MANY_ENTRIES, IPXR_SHORT_BUFFER. */
IPXR_CALL int32_t ipxr_write_rip(const ipxr_address *from, const ipxr_address *to, uint16_t operation, const ipxr_route_entry *routes,
                                 size_t count, uint8_t *buffer, size_t room);

/* Writes a query for the services of a type, or of every type, which is FFFFh: for all of them if `nearest` is 0, otherwise for
 * the nearest one. It has 34 bytes. IPXR_SHORT_BUFFER. */
IPXR_CALL int32_t ipxr_write_query(const ipxr_address *from, const ipxr_address *to, uint8_t nearest, uint16_t type, uint8_t *buffer,
                                   size_t room);

/* Writes a response of `count` services: a general one if `nearest` is 0, otherwise an answer to a query for the nearest service.
 * It has 32 bytes, and 64 for each. IPXR_NO_ENTRIES, IPXR_MANY_ENTRIES, IPXR_BAD_NAME, IPXR_SHORT_BUFFER. */
IPXR_CALL int32_t ipxr_write_sap(const ipxr_address *from, const ipxr_address *to, uint8_t nearest, const ipxr_service_entry *services,
                                 size_t count, uint8_t *buffer, size_t room);

/* Writes a packet of any type: 30 bytes, and its data. `control` is how many routers it came through: 0 for a new packet. The
 * data of type 20, NetBIOS, begin with 32 bytes of room for the networks crossed: the first `control` places have one each. In a
 * new packet all are zeros. IPXR_LONG_PACKET, IPXR_SHORT_BUFFER. */
IPXR_CALL int32_t ipxr_write_packet(const ipxr_address *from, const ipxr_address *to, uint8_t type, uint8_t control, const uint8_t *data,
                                    size_t length, uint8_t *buffer, size_t room);

/* ---- Words ---- */

/* Copies the words of an answer into `buffer`, which has room for `room` bytes, with a 0 after them: for an event its outcome,
 * such as "forwarded"; for a drop what `ipxr replay` prints, such as "drop NoRoute" or "drop Malformed:Short"; for a fault what
 * it is, such as "no such port". Returns their length without the 0. If words and 0 don't fit, nothing is copied. A number that
 * isn't in this header has no words: it returns 0. IPXR_MOST_WORD bytes are always enough. */
IPXR_CALL size_t ipxr_word(int32_t answer, uint8_t *buffer, size_t room);

/* The same, into a text. */
static __inline size_t ipxr_text(int32_t answer, char *text, size_t room)
{
    return ipxr_word(answer, (uint8_t *)text, room);
}

/* The release that this header is from: its first two numbers are the version of this interface. */
#define IPXR_RELEASE "1.2.0"

/* The version of this interface: its major number times 65536, plus its minor number. This header is of IPXR_VERSION. */
#define IPXR_VERSION 65538
IPXR_CALL uint32_t ipxr_version(void);

#ifdef __cplusplus
}
#endif

#endif

/* ipxr_edge.h: what a packet passes between a cable and the router's port on it, for C and for whatever can call C. It belongs to ipxr.h
 * and is in the same library.
 *
 * A station that doesn't know its network's number says 0 for it, and nobody elsewhere can answer it. And a router believes what
 * comes for RIP and SAP, though a host elsewhere may have sent it through other routers. These calls fill the numbers in, and hold what
 * only a neighbour may say. They also filter packets, routes and services by rules, tell of neighbours that number the cable otherwise, and
 * write routes in the name of a neighbour that says none. docs/EDGE.md explains all of this. They keep nothing: the packet is changed where
 * it lies.
 *
 *     size_t passes;
 *     if (ipxr_edge_enter(&ports[port], bytes, length) == 1 &&        -- of each packet that comes from a cable
 *         ipxr_edge_filter(IPXR_WAY_IN, &ports[port], rules, count, bytes, length, &passes) == 1)
 *         ipxr_packet(&router, port, bytes, passes);
 *
 * WHAT C HAS TO PROMISE is what ipxr.h says of bytes and of a port's values: they are yours, and stay during the call. Any values may be given
 * for a rule: those that are none are answered with a fault. */
#ifndef IPXR_EDGE_H
#define IPXR_EDGE_H

#include "ipxr.h"

#ifdef __cplusplus
extern "C" {
#endif

/* ---- Faults, of ipxr_edge_filter alone ---- */

#define IPXR_BAD_WAY (-26)    /* a way that is neither in nor out */
#define IPXR_MANY_RULES (-27) /* there are more than IPXR_MOST_RULES */
#define IPXR_BAD_RULE (-28)   /* values that are no rule: ipxr_rule says which are */

/* ---- Rules of a filter ---- */

/* The most rules that one filter has. */
#define IPXR_MOST_RULES 64

/* The way of a packet. These numbers have no words, nor have those below. */
#define IPXR_WAY_IN 1  /* from a cable to the router */
#define IPXR_WAY_OUT 2 /* from the router to a cable */

/* What a rule names. */
#define IPXR_RULE_TYPE 1     /* packets of a type, in and out; 20 are NetBIOS broadcasts */
#define IPXR_RULE_SOCKET 2   /* packets from a socket or to it, in and out */
#define IPXR_RULE_NEAREST 3  /* queries for the nearest service that come in */
#define IPXR_RULE_ROUTES 4   /* routes to the networks of a range, that come in or go out */
#define IPXR_RULE_SERVICES 5 /* services of a type with certain names, that come in or go out */

/* Which names. A service without a name is among all of them alone. */
#define IPXR_NAMES_ALL 0   /* all */
#define IPXR_NAMES_IS 1    /* one */
#define IPXR_NAMES_BEGIN 2 /* those that begin so */

/* A rule. What it names says which of the values behind `what` count; the others may be anything. It is no rule where `permits` is neither
 * 1 nor 0, where `what` or a number that counts is none of those above, where a type of packets is above 255, or where a name that counts
 * is empty or has no 0 behind it. All bytes 0 are no rule. */
typedef struct ipxr_rule {
    uint8_t permits;  /* 1 if it permits what it names, 0 if it denies it */
    uint8_t what;     /* IPXR_RULE_TYPE and so on */
    uint8_t way;      /* of routes and services: IPXR_WAY_IN or IPXR_WAY_OUT */
    uint8_t names;    /* of services: IPXR_NAMES_ALL and so on */
    uint16_t type;    /* of packets, or of services: FFFFh for every type */
    uint16_t socket;  /* of packets from a socket or to it */
    uint32_t from;    /* of routes: the first network of the range, */
    uint32_t to;      /* and the last one */
    uint8_t name[48]; /* of services: the name, or what it begins with, and a 0 behind */
} ipxr_rule;

/* ---- Calls ---- */

/* Each call takes the port that ipxr_make was given, and most take the bytes of a packet, or any others. Below 0 is the fault of a port
 * (IPXR_BAD_LONGEST and so on), or another one that the call names: then whatever you lent stays as it was. */

/* Whether a packet comes in from a cable. Returns 1, and its numbers are filled in; or 0, where it is held, and stays as it was. */
IPXR_CALL int32_t ipxr_edge_enter(const ipxr_port *port, uint8_t *bytes, size_t length);

/* Whether it is held, 1 or 0: it is for RIP or SAP on the port's network, and came through a router. */
IPXR_CALL int32_t ipxr_edge_is_held(const ipxr_port *port, const uint8_t *bytes, size_t length);

/* Fills in the port's network in the place of 0, held or not. Returns 0. */
IPXR_CALL int32_t ipxr_edge_number(const ipxr_port *port, uint8_t *bytes, size_t length);

/* Filters a packet that comes in from the port's cable or goes out to it, by `count` rules: the first that names something decides, and what
 * none names is permitted. Returns 1 if anything passes: the first `*passes` bytes. A response of routes or services may have lost some;
 * all else passes whole. Returns 0 if nothing passes: `*passes` is 0 then, and the bytes stay as they were. The first fault of IPXR_BAD_WAY,
 * a port's, IPXR_MANY_RULES and IPXR_BAD_RULE: bytes and `*passes` stay as they were. */
IPXR_CALL int32_t ipxr_edge_filter(uint8_t way, const ipxr_port *port, const ipxr_rule *rules, size_t count, uint8_t *bytes, size_t length,
                                   size_t *passes);

/* Whether a neighbour claims another number for the cable than the port's, by a packet that came from there. Returns 1, and `*network` is
 * that number; or 0, and it is 0. */
IPXR_CALL int32_t ipxr_edge_claim(const ipxr_port *port, const uint8_t *bytes, size_t length, uint32_t *network);

/* Whether a packet that goes out on the port is the router's answer to a query for the nearest service, and names none that is nearer than
 * `hops`: 1 or 0. If a server of that type was heard on this port from the cable itself, which is 1 hop, give 1, and leave it out. */
IPXR_CALL int32_t ipxr_edge_is_needless(const ipxr_port *port, uint16_t hops, const uint8_t *bytes, size_t length);

/* Writes a response of `count` routes as if the node had sent it to all routers on the port's network, 32 bytes and 8 for each: hand it to
 * the router each minute as a packet that came there. Returns how many bytes were written. The first fault of a port's, IPXR_NO_ENTRIES,
 * IPXR_MANY_ENTRIES and IPXR_SHORT_BUFFER. */
IPXR_CALL int32_t ipxr_edge_write_routes(const ipxr_port *port, const uint8_t node[6], const ipxr_route_entry *routes, size_t count,
                                         uint8_t *buffer, size_t room);

/* The same of services, to all servers and routers there, 32 bytes and 64 for each. The first fault of a port's, IPXR_NO_ENTRIES,
 * IPXR_MANY_ENTRIES, IPXR_BAD_NAME and IPXR_SHORT_BUFFER. */
IPXR_CALL int32_t ipxr_edge_write_services(const ipxr_port *port, const uint8_t node[6], const ipxr_service_entry *services, size_t count,
                                           uint8_t *buffer, size_t room);

#ifdef __cplusplus
}
#endif

#endif

/* A router in the plain manner, beside which dev/plain_speed measures the proved one: sorted lists, binary search, and packets written
 * straight into one buffer. It does what docs/ROUTER.md says, but it can't be stopped, its ports don't go down, and they have no shares of
 * the tables. Nothing of it is proved. If memory is refused, the program ends. */
#ifndef PLAIN_H
#define PLAIN_H

#include <stdbool.h>
#include <stddef.h>
#include <stdint.h>

/* The broadcast node. A node is a number of six bytes. */
#define PLAIN_BROADCAST UINT64_C(0xFFFFFFFFFFFF)

typedef struct plain_port {
    uint64_t node;
    uint32_t network;
    uint16_t cost, longest;
} plain_port;

/* A packet to be sent: where its bytes stand in the outbox, the port on which it leaves, and the next hop there. */
typedef struct plain_sent {
    uint64_t link;
    size_t start, length;
    uint8_t port;
} plain_sent;

typedef struct plain_outbox {
    uint8_t *bytes;
    size_t used, room;
    plain_sent *sent;
    size_t count, most;
} plain_outbox;

/* A route, as a neighbour advertised it. */
typedef struct plain_route {
    uint64_t node;
    uint32_t network;
    uint16_t hops, ticks;
    uint8_t port;
} plain_route;

/* The routes, by network, and their ages in a list beside. */
typedef struct plain_routes {
    plain_route *records;
    uint8_t *ages;
    size_t count, most;
} plain_routes;

/* What an event changed, by network: what is to be advertised, and what was there before. */
typedef struct plain_route_changes {
    plain_route *told, *was;
    size_t count;
} plain_route_changes;

enum { PLAIN_ENTRY = 64 };

/* A service, as a neighbour advertised it: the packet's entry, with zeros behind the name. */
typedef struct plain_service {
    uint8_t entry[PLAIN_ENTRY];
    uint64_t node;
    uint16_t hops;
    uint8_t port;
} plain_service;

/* The services, by type and name. */
typedef struct plain_services {
    plain_service *records;
    uint8_t *ages;
    size_t count, most;
} plain_services;

typedef struct plain_service_changes {
    plain_service *told, *was;
    size_t count;
} plain_service_changes;

/* The network of a port, in the list of them by network. */
typedef struct plain_direct {
    uint32_t network;
    uint16_t cost;
    uint8_t port;
} plain_direct;

typedef struct plain_router {
    plain_port *ports;
    plain_direct *direct;
    size_t port_count;
    plain_routes routes;
    plain_services services;
    plain_route_changes route_changes;
    plain_service_changes service_changes;
    uint64_t *entries; /* room to list routes */
    plain_outbox out;
    uint32_t seconds;
    bool is_running;
} plain_router;

/* Makes a router with room for this many routes and services. It is stopped. */
void plain_make(plain_router *router, const plain_port *ports, size_t count, size_t routes, size_t services);
void plain_free(plain_router *router);

/* What became of a packet: from PLAIN_NOT_RUNNING on it was dropped. */
typedef enum plain_outcome {
    PLAIN_LEARNED, PLAIN_ANSWERED, PLAIN_FORWARDED, PLAIN_PROPAGATED, PLAIN_NOT_RUNNING, PLAIN_MALFORMED, PLAIN_OWN_ECHO,
    PLAIN_BAD_SOURCE, PLAIN_CROSSED_SHORT, PLAIN_CROSSED_FULL, PLAIN_CROSSED_SEEN, PLAIN_ELSEWHERE, PLAIN_OTHER_SOCKET,
    PLAIN_NOT_NEIGHBOUR, PLAIN_BAD_RIP, PLAIN_BAD_SAP, PLAIN_NEAREST_REPLY, PLAIN_TOO_MANY_ROUTERS, PLAIN_FAR_SIDE, PLAIN_NO_ROUTE,
    PLAIN_TOO_LONG
} plain_outcome;

/* Events. Each empties the outbox first. */
void plain_start(plain_router *router);
void plain_second(plain_router *router);
plain_outcome plain_packet(plain_router *router, uint8_t port, const uint8_t *bytes, size_t length);

#endif

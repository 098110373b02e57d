/* An internet of plain routers: what they send is copied for each port that receives it, and waits. */
#ifndef INTERNET_H
#define INTERNET_H

#include "plain.h"

/* A port of a router. */
typedef struct internet_port {
    uint64_t node;
    uint32_t network;
    size_t router;
    uint8_t port;
} internet_port;

/* A packet that comes to a router: where its bytes are, which one before it caused it, and what became of it. */
typedef struct delivery {
    size_t router, cause, start, length;
    plain_outcome outcome;
    uint8_t port;
} delivery;

typedef struct deliveries {
    delivery *list;
    size_t count, most;
    uint8_t *bytes;
    size_t used, room;
} deliveries;

typedef struct internet {
    plain_router *routers;
    size_t count;
    internet_port *ports; /* by network, and on each by router */
    size_t port_count;
    deliveries waiting, trace;
} internet;

/* Adds a router with room for this many routes and services. */
void internet_add(internet *it, const plain_port *ports, size_t count, size_t routes, size_t services);
void internet_free(internet *it);

/* Events of a router. What it sends waits until it is delivered. */
void internet_start(internet *it, size_t router);
void internet_second(internet *it, size_t router);
void internet_packet(internet *it, size_t router, uint8_t port, const uint8_t *bytes, size_t length);

/* Delivers until nothing waits. */
void internet_settle(internet *it);

/* Sends on a packet that came to a router, wherever it gets to. Returns how often it is received. */
size_t internet_trace(internet *it, size_t router, uint8_t port, const uint8_t *bytes, size_t length);

#endif

/* A station, or the router on the way to a network, is asked something, and how long its answer takes is measured. It is no business of the
 * router's: these packets are the gateway's own. */
#ifndef PROBE_H
#define PROBE_H

#include "gateway.h"

/* The socket at which DOSBox answers pings, and that of NetWare's diagnostics. */
#define PING_SOCKET 0x0002
#define DIAGNOSTIC_SOCKET 0x0456

typedef struct probe {
    bool is_trace;      /* a router is asked for its way to the network; else a station is */
    ipxr_address to;    /* what is asked for: of a trace the network alone */
    bool has_socket;    /* whether it was said which socket */
    ipxr_address asked; /* who was asked last, */
    ipxr_address from;  /* and from where */
    int count, answered;
    bool is_awaited;    /* the answer to the last one */
    uint64_t began;     /* nanoseconds of the clock when that was sent */
} probe;

struct viewer;

/* Begins what somebody wanted: to ask NETWORK.NODE or NETWORK.NODE.SOCKET, or to trace a network. `number` tells his sockets from those of
 * others. He is told how it goes, and what is wrong with the words. */
void probe_ping(gateway *it, struct viewer *v, const char *word, unsigned number);
void probe_trace(gateway *it, struct viewer *v, const char *word, unsigned number);

/* A second has passed. */
void probe_second(gateway *it, struct viewer *v);

/* Whether a packet is the answer; he is told. */
bool probe_hears(struct viewer *v, const uint8_t *packet, size_t length);

#endif

/* The packets that come to a router of eight ports: its tables are filled by them, and events are made of them. */
#ifndef TRAFFIC_H
#define TRAFFIC_H

#include <stddef.h>
#include <stdint.h>

/* The ports, and how many routes and services the packets offer. */
enum { PORTS = 8, ROUTES = 256, SERVICES = 64 };

/* How many responses offer them all; the last ones offer some again. */
enum { ROUTE_RESPONSES = 6, SERVICE_RESPONSES = 10 };

/* The bytes of packets, and how many there are to choose from. */
enum { UNICAST = 62, ASKING = 40, QUERY = 34, ROUTES_HEARD = 432, SERVICES_HEARD = 480, UNICASTS = 256, ROUND = 16 };

/* What is done with a router. */
typedef enum kind {
    FORWARD, UNCHANGED, CHANGED, ALL_ROUTES_ASKED, SERVICES_UNCHANGED, SERVICES_CHANGED, ALL_SERVICES_ASKED, NEAREST_ASKED, PROPAGATE,
    QUIET_SECOND, ADVERTISE, KINDS
} kind;

/* A packet that comes on a port. */
typedef struct coming {
    const uint8_t *bytes;
    size_t length;
    uint8_t port;
} coming;

void traffic_make(void);

/* The number of the network of a port. */
uint32_t traffic_network(uint8_t port);

/* The packet of a turn. */
coming traffic_packet(kind of, uint32_t turn);

/* The responses by which tables are filled and refreshed. */
coming traffic_routes(uint32_t place);
coming traffic_services(uint32_t place);

#endif

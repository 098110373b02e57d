/* Unicast packets jump and the others go round, so that no turn knows the bytes of the next. */
#include "traffic.h"

#include <string.h>

#include "ipxr.h"

/* The ports' networks have numbers above those of all routes. */
enum { FIRST_NETWORK = 0x1000, PER_RESPONSE = 50, PER_SERVICES = 7 };

/* How many responses offer what no other one does. */
enum { OWN_RESPONSES = 5, OWN_SERVICES = 9 };

enum { NEAR = 2, FAR = 9, TICKS = 3, FILE_SERVER = 4, SERVER_SOCKET = 0x451, ANY = 0xFFFF };

static const uint8_t NEIGHBOUR[6] = {0, 0, 0, 0, 0, 0xAA}, ALL_NODES[6] = {0xFF, 0xFF, 0xFF, 0xFF, 0xFF, 0xFF};

static uint8_t unicasts[UNICASTS][UNICAST], propagated[ROUND][UNICAST], requests[ROUND][ASKING];
static uint8_t queries[ROUND][QUERY], nearest[ROUND][QUERY];

/* Each response, and the same with a tick or a hop more for each entry. */
static uint8_t routes[ROUTE_RESPONSES][2][ROUTES_HEARD], services[SERVICE_RESPONSES][2][SERVICES_HEARD];

uint32_t traffic_network(uint8_t port)
{
    return FIRST_NETWORK + port;
}

/* From a neighbour on a port's network, and to all its nodes. */
static ipxr_address end(uint8_t port, const uint8_t node[6], uint16_t socket)
{
    ipxr_address it = {.network = traffic_network(port), .socket = socket};
    memcpy(it.node, node, sizeof it.node);
    return it;
}

/* The port on which a response comes. */
static uint8_t port_of(uint32_t place)
{
    return (uint8_t)(place % ROUTE_RESPONSES + 1);
}

/* Each of the first five has fifty networks of its own; the sixth offers the six that are left and then, further away, those of the first. */
static void write_routes(uint32_t place, uint16_t ticks, uint8_t *packet)
{
    ipxr_address from = end(port_of(place), NEIGHBOUR, IPXR_RIP_SOCKET), to = end(port_of(place), ALL_NODES, IPXR_RIP_SOCKET);
    ipxr_route_entry entries[PER_RESPONSE];
    for (uint32_t k = 0; k < PER_RESPONSE; k++)
        entries[k] = (ipxr_route_entry){.network = (PER_RESPONSE * place + k) % ROUTES + 1,
                                        .hops = place < OWN_RESPONSES ? NEAR : FAR, .ticks = ticks};
    ipxr_write_rip(&from, &to, IPXR_RIP_RESPONSE, entries, PER_RESPONSE, packet, ROUTES_HEARD);
}

static ipxr_service_entry service(uint32_t number, uint16_t hops)
{
    ipxr_service_entry it = {.network = number + 1, .socket = SERVER_SOCKET, .type = FILE_SERVER, .hops = hops};
    memcpy(it.name, "SERVER-A", 8);
    it.name[8] = (uint8_t)('A' + number % 16);
    it.name[9] = (uint8_t)('A' + number / 16);
    memcpy(it.node, NEIGHBOUR, sizeof it.node);
    return it;
}

static void write_services(uint32_t place, uint16_t hops, uint8_t *packet)
{
    ipxr_address from = end(port_of(place), NEIGHBOUR, IPXR_SAP_SOCKET), to = end(port_of(place), ALL_NODES, IPXR_SAP_SOCKET);
    ipxr_service_entry entries[PER_SERVICES];
    for (uint32_t k = 0; k < PER_SERVICES; k++)
        entries[k] = service((PER_SERVICES * place + k) % SERVICES, hops);
    ipxr_write_sap(&from, &to, 0, entries, PER_SERVICES, packet, SERVICES_HEARD);
}

/* Packets of 62 bytes from port 0, one for the network of each route. */
static void write_unicasts(void)
{
    static const uint8_t data[UNICAST - 30] = {1,  2,  3,  4,  5,  6,  7,  8,  9,  10, 11, 12, 13, 14, 15, 16,
                                               17, 18, 19, 20, 21, 22, 23, 24, 25, 26, 27, 28, 29, 30, 31, 32};
    ipxr_address from = end(0, NEIGHBOUR, SERVER_SOCKET), to = {.node = {0, 0, 0, 0, 0, 0xBB}, .socket = SERVER_SOCKET};
    for (uint32_t k = 0; k < UNICASTS; k++) {
        to.network = k + 1;
        ipxr_write_packet(&from, &to, 17, 3, data, sizeof data, unicasts[k], UNICAST);
    }
}

/* The same packet from different nodes, on port 0. */
static void write_round(uint32_t k)
{
    ipxr_address rip = end(0, NEIGHBOUR, IPXR_RIP_SOCKET), sap = end(0, NEIGHBOUR, IPXR_SAP_SOCKET), host = end(0, NEIGHBOUR, 0x455);
    ipxr_address to_rip = end(0, ALL_NODES, IPXR_RIP_SOCKET), to_sap = end(0, ALL_NODES, IPXR_SAP_SOCKET), all = end(0, ALL_NODES, 0x455);
    const ipxr_route_entry every = {0xFFFFFFFF, 0xFFFF, 0xFFFF};
    static const uint8_t crossed[32] = {0, 0, 0x20, 0, 0, 0, 0x30, 0};
    rip.node[4] = sap.node[4] = host.node[4] = (uint8_t)k;
    ipxr_write_rip(&rip, &to_rip, IPXR_RIP_REQUEST, &every, 1, requests[k], ASKING);
    ipxr_write_query(&sap, &to_sap, 0, ANY, queries[k], QUERY);
    ipxr_write_query(&sap, &to_sap, 1, ANY, nearest[k], QUERY);
    ipxr_write_packet(&host, &all, 20, 2, crossed, sizeof crossed, propagated[k], UNICAST);
}

static void write_all_routes(void)
{
    for (uint32_t k = 0; k < 2 * ROUTE_RESPONSES; k++)
        write_routes(k / 2, (uint16_t)(TICKS + k % 2), routes[k / 2][k % 2]);
}

static void write_all_services(void)
{
    for (uint32_t k = 0; k < 2 * SERVICE_RESPONSES; k++)
        write_services(k / 2, (uint16_t)(NEAR + k % 2), services[k / 2][k % 2]);
}

void traffic_make(void)
{
    write_all_routes();
    write_all_services();
    write_unicasts();
    for (uint32_t k = 0; k < ROUND; k++)
        write_round(k);
}

/* ---- What comes ---- */

/* A place of 256, in an order whose jumps a processor doesn't learn: each 256 turns take another one, and miss some places. (the multiples
 * of the prime alone jump too, but a newer processor learns their order) */
static uint8_t place_at(uint32_t turn)
{
    static const uint32_t step = 0x9E3779B1;
    uint32_t once = turn * step, twice = (once ^ once >> 15) * step;
    return (uint8_t)((twice ^ twice >> 13) * step >> 24);
}

coming traffic_routes(uint32_t place)
{
    return (coming){routes[place][0], ROUTES_HEARD, port_of(place)};
}

coming traffic_services(uint32_t place)
{
    return (coming){services[place][0], SERVICES_HEARD, port_of(place)};
}

coming traffic_packet(kind of, uint32_t turn)
{
    uint32_t place = turn % OWN_RESPONSES, other = turn % OWN_SERVICES;
    switch (of) {
    case UNCHANGED:
        return traffic_routes(place);
    case CHANGED:
        return (coming){routes[place][turn / OWN_RESPONSES % 2 == 0], ROUTES_HEARD, port_of(place)};
    case SERVICES_UNCHANGED:
        return traffic_services(other);
    case SERVICES_CHANGED:
        return (coming){services[other][turn / OWN_SERVICES % 2 == 0], SERVICES_HEARD, port_of(other)};
    case ALL_ROUTES_ASKED:
        return (coming){requests[turn % ROUND], ASKING, 0};
    case ALL_SERVICES_ASKED:
        return (coming){queries[turn % ROUND], QUERY, 0};
    case NEAREST_ASKED:
        return (coming){nearest[turn % ROUND], QUERY, 0};
    case PROPAGATE:
        return (coming){propagated[turn % ROUND], UNICAST, 0};
    default:
        return (coming){unicasts[place_at(turn)], UNICAST, 0};
    }
}

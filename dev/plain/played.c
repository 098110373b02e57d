/* Plays an internet of 32 plain routers of up to 8 ports for 1,000 seconds, in which hosts send 16,000 packets and 9,000 packets are traced:
 * the plain half of dev/plain_speed internets. The other one is crates/bench/src/played.rt, which prints the same lines: how long it
 * took, and the routes that each router has in the end, with the number of its services. */
#include <inttypes.h>
#include <stdio.h>
#include <string.h>
#include <time.h>

#include "internet.h"
#include "ipxr.h"

enum { ROUTERS = 32, SECONDS = 1000, MOST_PORTS = 8, ROUTES = 128, SERVICES = 256, LONGEST = 1500 };

/* How many packets hosts send and how many are traced in a second, and in how many seconds each host announces its services once. */
enum { PACKETS = 16, TRACES = 9, ROUND = 64 };

/* Beside the ring there are chords. One begins at each router whose number is a multiple of `every`, and leads `length` routers on. The
 * networks of a kind of chords have numbers from OF_CHORDS on, and so do those of the next kind. */
enum { CHORDS = 3, OF_CHORDS = 0x100 };
static const struct { uint32_t every, length; } chords[CHORDS] = {{2, 6}, {4, 12}, {8, 16}};

/* The bytes of a packet of a host, and of a response with seven services. */
enum { PACKET = 62, HEADER = 30, ANNOUNCED = 7, RESPONSE = 480 };

/* The multiples of this prime jump. */
enum { STEP = 40503 };

static const uint8_t NEIGHBOUR[6] = {0, 0, 0, 0, 0, 0xAA}, ALL_NODES[6] = {0xFF, 0xFF, 0xFF, 0xFF, 0xFF, 0xFF};

/* The network between a router and the next one. Each router has a host on it. */
static uint32_t ring_network(uint32_t router)
{
    return router % ROUTERS + 1;
}

/* ---- The internet ---- */

static void add_network(plain_port *ports, size_t *count, uint32_t router, uint32_t network)
{
    uint64_t node = (uint64_t)2 << 40 | (uint64_t)router << 8 | *count;
    ports[(*count)++] = (plain_port){.node = node, .network = network, .cost = 1, .longest = LONGEST};
}

static void add_router(internet *it, uint32_t router)
{
    plain_port ports[MOST_PORTS];
    size_t count = 0;
    add_network(ports, &count, router, ring_network(router));
    add_network(ports, &count, router, ring_network(router + ROUTERS - 1));
    for (uint32_t k = 0; k < CHORDS; k++) {
        uint32_t first = (k + 1) * OF_CHORDS, other = (router + ROUTERS - chords[k].length) % ROUTERS;
        if (router % chords[k].every == 0)
            add_network(ports, &count, router, first + router);
        if (other % chords[k].every == 0)
            add_network(ports, &count, router, first + other);
    }
    internet_add(it, ports, count, ROUTES, SERVICES);
}

static void make(internet *it)
{
    for (uint32_t k = 0; k < ROUTERS; k++)
        add_router(it, k);
}

/* ---- What hosts send ---- */

static ipxr_address end(uint32_t network, const uint8_t node[6], uint16_t socket)
{
    ipxr_address it = {.network = network, .socket = socket};
    memcpy(it.node, node, sizeof it.node);
    return it;
}

static void announce(internet *it, uint32_t host)
{
    uint8_t packet[RESPONSE];
    ipxr_service_entry services[ANNOUNCED];
    ipxr_address from = end(ring_network(host), NEIGHBOUR, IPXR_SAP_SOCKET), to = end(ring_network(host), ALL_NODES, IPXR_SAP_SOCKET);
    for (uint32_t k = 0; k < ANNOUNCED; k++) {
        uint32_t number = (host * ANNOUNCED + k) % 256;
        services[k] = (ipxr_service_entry){.network = number + 1, .socket = 0x451, .type = 4, .hops = 1};
        memcpy(services[k].name, "SERVER-A", 8);
        services[k].name[8] = (uint8_t)('A' + number % 16);
        services[k].name[9] = (uint8_t)('A' + number / 16);
        memcpy(services[k].node, NEIGHBOUR, sizeof NEIGHBOUR);
    }
    ipxr_write_sap(&from, &to, 0, services, ANNOUNCED, packet, sizeof packet);
    internet_packet(it, host, 0, packet, sizeof packet);
}

/* A host writes to one beside another router. */
static void write_one(internet *it, uint32_t turn)
{
    static const uint8_t other[6] = {0, 0, 0, 0, 0, 0xBB};
    uint32_t from_router = turn % ROUTERS, to_router = turn * STEP / 7 % ROUTERS;
    uint8_t packet[PACKET], data[PACKET - HEADER];
    ipxr_address from = end(ring_network(from_router), NEIGHBOUR, 0x451), to = end(ring_network(to_router), other, 0x451);
    for (uint32_t k = 0; k < sizeof data; k++)
        data[k] = (uint8_t)(k + 1);
    ipxr_write_packet(&from, &to, 17, 3, data, sizeof data, packet, sizeof packet);
    internet_packet(it, from_router, 0, packet, sizeof packet);
}

/* In a second one host announces its services, or all write to others. */
static void send_packets(internet *it, uint32_t second)
{
    if (second % ROUND < ROUTERS)
        announce(it, second % ROUND);
    else
        write_one(it, second * PACKETS);
    for (uint32_t k = 1; k < PACKETS; k++)
        write_one(it, second * PACKETS + k);
    internet_settle(it);
}

static uint64_t trace_packets(internet *it, uint32_t second)
{
    static const uint8_t crossed[PACKET - HEADER];
    uint64_t receptions = 0;
    for (uint32_t k = 0; k < TRACES; k++) {
        uint32_t router = (second * TRACES + k) * STEP % ROUTERS;
        uint8_t packet[PACKET];
        ipxr_address from = end(ring_network(router), NEIGHBOUR, 0x455), to = end(ring_network(router), ALL_NODES, 0x455);
        ipxr_write_packet(&from, &to, 20, 0, crossed, sizeof crossed, packet, sizeof packet);
        receptions += internet_trace(it, router, 0, packet, sizeof packet);
    }
    return receptions;
}

/* ---- Playing ---- */

static void pass(internet *it)
{
    for (uint32_t k = 0; k < ROUTERS; k++)
        internet_second(it, k);
    internet_settle(it);
}

static void start(internet *it)
{
    for (uint32_t k = 0; k < ROUTERS; k++)
        internet_start(it, k);
    internet_settle(it);
}

static uint64_t play(internet *it)
{
    uint64_t receptions = 0;
    start(it);
    for (uint32_t second = 0; second < SECONDS; second++) {
        pass(it);
        send_packets(it, second);
        receptions += trace_packets(it, second);
    }
    return receptions;
}

static double now(void)
{
    struct timespec at;
    clock_gettime(CLOCK_MONOTONIC, &at);
    return (double)at.tv_sec * 1e9 + (double)at.tv_nsec;
}

static void print_router(const plain_router *it, uint32_t number)
{
    printf("router %" PRIu32 ": %zu services\n", number, it->services.count);
    for (size_t k = 0; k < it->routes.count; k++) {
        const plain_route *route = it->routes.records + k;
        printf("route %08" PRIX32 " %u %u %u %012" PRIX64 "\n", route->network, route->hops, route->ticks, route->port, route->node);
    }
}

static void print_routers(const internet *it)
{
    for (uint32_t k = 0; k < ROUTERS; k++)
        print_router(it->routers + k, k);
}

int main(void)
{
    internet it = {0};
    make(&it);
    double began = now();
    uint64_t receptions = play(&it);
    double took = now() - began;
    printf("play %d routers for %d seconds: %.1f ms, %" PRIu64 " receptions\n", ROUTERS, SECONDS, took / 1e6, receptions);
    print_routers(&it);
    internet_free(&it);
    return 0;
}

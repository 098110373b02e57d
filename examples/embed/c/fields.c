/* Gives each field of the header's structs, and each argument, a value of its own, and reads it back. Where fields or arguments
 * stand in another order than in the header, another value comes back. What fields.out has was given here, or follows from docs/ROUTER.md:
 * a route is advertised with the cost of the port on which it leaves. */
#include <inttypes.h>
#include <stdio.h>
#include <string.h>

#include "ipxr.h"
#include "packets.h"

enum { MOST = 1500 };

static const ipxr_port PORTS[2] = {
    {.network = 0x11121314, .node = {0x21, 0x22, 0x23, 0x24, 0x25, 0x26}, .cost = 0x0501, .longest = 700, .routes = 3, .services = 2},
    {.network = 0x31323334, .node = {0x41, 0x42, 0x43, 0x44, 0x45, 0x46}, .cost = 7, .longest = 1009, .routes = 2, .services = 1},
};

/* A neighbour on each port's network, and what is offered there. */
static const uint8_t NEIGHBOURS[2][6] = {{0x61, 0x62, 0x63, 0x64, 0x65, 0x66}, {0x71, 0x72, 0x73, 0x74, 0x75, 0x76}};
static const uint8_t SERVER[6] = {0x91, 0x92, 0x93, 0x94, 0x95, 0x96};
static const uint32_t FAR = 0x51525350, OFFERED = 0x81828384;
enum { TICKS = 0x0102, SOCKET = 0xA1A2, TYPE = 0x0B0C };

static void tell(const char *event, int32_t answer)
{
    uint8_t word[IPXR_MOST_WORD];
    ipxr_word(answer, word, sizeof word);
    printf("%s: %s\n", event, (const char *)word);
}

static void print_hex(const uint8_t *bytes, size_t length)
{
    for (size_t k = 0; k < length; k++)
        printf("%02X", bytes[k]);
}

/* The packet of that number is printed: what is told of it, and where its bytes say that it comes from. */
static void show_packet(ipxr *router, size_t index)
{
    ipxr_packet_sent sent;
    uint8_t bytes[MOST];
    if (ipxr_get(router, index, &sent, bytes, sizeof bytes) < 0)
        return;
    printf("packet %zu: length %zu, port %u, node ", index, sent.length, sent.port);
    print_hex(sent.node, sizeof sent.node);
    printf(", from network %08" PRIX32 ", node ", number_at(bytes + 18, 4));
    print_hex(bytes + 22, 6);
    printf("\n");
}

static int32_t learn_routes(ipxr *router, uint8_t port, uint8_t count)
{
    uint8_t bytes[MOST];
    uint8_t *at = put_response(bytes, RIP, count, PORTS[port].network, NEIGHBOURS[port]);
    for (uint8_t k = 0; k < count; k++)
        at = put_entry(at, FAR + 4u * port + k, 3 + port, TICKS);
    return ipxr_packet(router, port, bytes, (size_t)(at - bytes));
}

static int32_t learn_services(ipxr *router, uint8_t port, uint8_t count)
{
    struct address offered = {OFFERED, SERVER, SOCKET};
    char name[] = "FILES A";
    uint8_t bytes[MOST];
    uint8_t *at = put_response(bytes, SAP, count, PORTS[port].network, NEIGHBOURS[port]);
    for (uint8_t k = 0; k < count; k++) {
        name[sizeof name - 2] = (char)('A' + 4 * port + k);
        at = put_service(at, TYPE, name, offered, 5 + port);
    }
    return ipxr_packet(router, port, bytes, (size_t)(at - bytes));
}

/* How many ticks are added where the first of the packets to be sent, which is of routes, leaves. */
static unsigned cost_of_first(ipxr *router, uint8_t *port)
{
    ipxr_packet_sent sent;
    uint8_t bytes[MOST];
    if (ipxr_get(router, 0, &sent, bytes, sizeof bytes) < 0)
        return 0;
    *port = sent.port;
    return number_at(bytes + HEADER + 2 + 6, 2) - TICKS;
}

/* Each port hears of more than its shares. */
static void learn(ipxr *router)
{
    for (uint8_t port = 0; port < 2; port++) {
        uint8_t out = 0;
        ipxr_clear(router);
        tell("four routes", learn_routes(router, port, 4));
        unsigned cost = cost_of_first(router, &out);
        printf("cost of port %u: %u\n", out, cost);
        tell("a second", ipxr_second(router));
        tell("three services", learn_services(router, port, 3));
    }
}

static void show_routes(ipxr *router)
{
    ipxr_route_record route;
    for (size_t k = 0; ipxr_route(router, k, &route) == 0; k++) {
        printf("route %zu of %zu: network %08" PRIX32 ", hops %u, ticks %u, node ", k, ipxr_routes(router), route.network, route.hops,
               route.ticks);
        print_hex(route.node, sizeof route.node);
        printf(", port %u, age %u\n", route.port, route.age);
    }
}

static void show_services(ipxr *router)
{
    ipxr_service_record service;
    for (size_t k = 0; ipxr_service(router, k, &service) == 0; k++) {
        printf("service %zu of %zu: name %.48s, network %08" PRIX32 ", node ", k, ipxr_services(router), (const char *)service.name,
               service.network);
        print_hex(service.node, sizeof service.node);
        printf(", socket %04X, type %04X, hops %u, neighbour ", service.socket, service.type, service.hops);
        print_hex(service.neighbour, sizeof service.neighbour);
        printf(", port %u, age %u\n", service.port, service.age);
    }
}

/* A packet from a neighbour on the other port to the server on this one. */
static int32_t send_through(ipxr *router, uint8_t port, size_t length)
{
    uint8_t from = 1 - port;
    struct address to = {PORTS[port].network, SERVER, SOCKET};
    struct address source = {PORTS[from].network, NEIGHBOURS[from], SOCKET};
    uint8_t bytes[MOST] = {0};
    put_header(bytes, length, 0, to, source);
    return ipxr_packet(router, from, bytes, length);
}

/* How long a packet may be that leaves on a port; and one that leaves there. */
static void show_longest(ipxr *router, uint8_t port)
{
    size_t longest = 0;
    for (size_t length = HEADER; length <= MOST; length++)
        if (send_through(router, port, length) == IPXR_FORWARDED)
            longest = length;
    printf("longest on port %u: %zu\n", port, longest);
    ipxr_clear(router);
    tell("333 bytes", send_through(router, port, 333));
    show_packet(router, 0);
}

/* The numbers among the arguments. */
static void show_arguments(ipxr *router)
{
    uint8_t bytes[HEADER] = {0};
    tell("29 bytes of 30", ipxr_packet(router, 0, bytes, HEADER - 1));
    tell("30 bytes, a length of 0", ipxr_packet(router, 0, bytes, HEADER));
    tell("port 1 goes down", ipxr_port_down(router, 1));
    printf("up: port 0 %d, port 1 %d\n", (int)ipxr_is_up(router, 0), (int)ipxr_is_up(router, 1));
    tell("port 1 comes up", ipxr_port_up(router, 1));
}

/* ---- Packets that are written ---- */

static const ipxr_address FROM = {.network = 0xB1B2B3B4, .node = {0xB5, 0xB6, 0xB7, 0xB8, 0xB9, 0xBA}, .socket = 0xBBBC};
static const ipxr_address TO = {.network = 0xC1C2C3C4, .node = {0xC5, 0xC6, 0xC7, 0xC8, 0xC9, 0xCA}, .socket = 0xCBCC};

static const ipxr_route_entry WAYS[2] = {
    {.network = 0xD1D2D3D4, .hops = 0xD5D6, .ticks = 0xD7D8},
    {.network = 0xE1E2E3E4, .hops = 0xE5E6, .ticks = 0xE7E8},
};

static const ipxr_service_entry OFFERS[2] = {
    {.name = "FILES", .network = 0x01020304, .node = {5, 6, 7, 8, 9, 10}, .socket = 0x0B0C, .type = 0x0D0E, .hops = 0x0F10},
    {.name = "PRINT", .network = 0x11121314, .node = {21, 22, 23, 24, 25, 26}, .socket = 0x1B1C, .type = 0x1D1E, .hops = 0x1F20},
};

/* The packet, and whether behind it the buffer is as it was. */
static void show_written(const char *what, const uint8_t *bytes, int32_t length)
{
    printf("%s: ", what);
    if (length < 0)
        printf("%d", (int)length);
    else
        print_hex(bytes, (size_t)length);
    printf("%s\n", length < 0 || bytes[length] == 0xA5 ? "" : " and more");
}

static void write_packets(void)
{
    static const uint8_t DATA[3] = {0xF1, 0xF2, 0xF3};
    uint8_t bytes[IPXR_LONGEST_FRAME];
    memset(bytes, 0xA5, sizeof bytes);
    show_written("a request", bytes, ipxr_write_rip(&FROM, &TO, IPXR_RIP_REQUEST, WAYS, 1, bytes, sizeof bytes));
    memset(bytes, 0xA5, sizeof bytes);
    show_written("a response", bytes, ipxr_write_rip(&FROM, &TO, IPXR_RIP_RESPONSE, WAYS, 2, bytes, sizeof bytes));
    memset(bytes, 0xA5, sizeof bytes);
    show_written("a query", bytes, ipxr_write_query(&FROM, &TO, 0, 0xA1A2, bytes, sizeof bytes));
    show_written("for the nearest", bytes, ipxr_write_query(&FROM, &TO, 1, 0xA1A2, bytes, sizeof bytes));
    memset(bytes, 0xA5, sizeof bytes);
    show_written("a service", bytes, ipxr_write_sap(&FROM, &TO, 1, OFFERS, 1, bytes, sizeof bytes));
    memset(bytes, 0xA5, sizeof bytes);
    show_written("two services", bytes, ipxr_write_sap(&FROM, &TO, 0, OFFERS, 2, bytes, sizeof bytes));
    memset(bytes, 0xA5, sizeof bytes);
    show_written("data", bytes, ipxr_write_packet(&FROM, &TO, 0xA3, 0xA4, DATA, sizeof DATA, bytes, sizeof bytes));
}

int main(void)
{
    ipxr router = {0};
    if (ipxr_make(&router, PORTS, 2) < 0)
        return 1;
    tell("start", ipxr_start(&router));
    for (size_t k = 0; k < ipxr_sent(&router); k++)
        show_packet(&router, k);
    learn(&router);
    show_routes(&router);
    show_services(&router);
    show_longest(&router, 0);
    show_longest(&router, 1);
    show_arguments(&router);
    write_packets();
    ipxr_free(&router);
    return 0;
}

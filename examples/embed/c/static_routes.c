/* A router with two networks, of which one has an old machine: it leads to a third network, where a server is, and says nothing of either. A
 * response in its name teaches the router both, and the other network hears of them. */
#include <stdio.h>

#include "ipxr_edge.h"

enum { HALL, CELLAR, PORTS };

static const ipxr_port ON[PORTS] = {
    {.network = 0x10, .node = {0, 0, 0, 0, 0, 1}, .cost = 1, .longest = 1500, .routes = IPXR_NO_LIMIT, .services = IPXR_NO_LIMIT},
    {.network = 0x20, .node = {0, 0, 0, 0, 0, 2}, .cost = 1, .longest = 1500, .routes = IPXR_NO_LIMIT, .services = IPXR_NO_LIMIT},
};
static const uint8_t OLD_MACHINE[6] = {0, 0, 0, 0, 0, 0xAA};

/* What the router sends, port by port. */
static void show_sent(ipxr *router)
{
    ipxr_packet_sent sent;
    uint8_t bytes[1500];
    for (size_t k = 0; ipxr_get(router, k, &sent, bytes, sizeof bytes) == 0; k++)
        printf("  it sends %zu bytes to the %s\n", sent.length, sent.port == HALL ? "hall" : "cellar");
    ipxr_clear(router);
}

static void hand(ipxr *router, const char *what, const uint8_t *bytes, int32_t length)
{
    char words[IPXR_MOST_WORD];
    if (length < 0)
        return;
    ipxr_text(ipxr_packet(router, CELLAR, bytes, (size_t)length), words, sizeof words);
    printf("%s: %s\n", what, words);
    show_sent(router);
}

static void show_tables(ipxr *router)
{
    ipxr_route_record route;
    ipxr_service_record service;
    for (size_t k = 0; ipxr_route(router, k, &route) == 0; k++)
        printf("route to %X: hops %u, by node %02X\n", (unsigned)route.network, (unsigned)route.hops, (unsigned)route.node[5]);
    for (size_t k = 0; ipxr_service(router, k, &service) == 0; k++)
        printf("service %s: on network %X\n", (const char *)service.name, (unsigned)service.network);
    printf("routes: %zu, services: %zu\n", ipxr_routes(router), ipxr_services(router));
}

int main(void)
{
    ipxr_route_entry route = {.network = 0x30, .hops = 1, .ticks = 2};
    const ipxr_service_entry service = {.name = "FILES", .network = 0x30, .node = {1}, .socket = 0x0451, .type = 4, .hops = 2};
    ipxr router = IPXR_NONE;
    uint8_t bytes[96];
    if (ipxr_make(&router, ON, PORTS) < 0 || ipxr_start(&router) < 0)
        return 1;
    ipxr_clear(&router);
    hand(&router, "a route", bytes, ipxr_edge_write_routes(&ON[CELLAR], OLD_MACHINE, &route, 1, bytes, sizeof bytes));
    hand(&router, "a service", bytes, ipxr_edge_write_services(&ON[CELLAR], OLD_MACHINE, &service, 1, bytes, sizeof bytes));
    show_tables(&router);
    route.hops = 16;
    hand(&router, "it is withdrawn", bytes, ipxr_edge_write_routes(&ON[CELLAR], OLD_MACHINE, &route, 1, bytes, sizeof bytes));
    show_tables(&router);
    ipxr_free(&router);
    return 0;
}

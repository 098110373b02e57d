/* What each call answers where there is nothing to do for it: a number, and everything stays as it was. */
#include <stdio.h>
#include <string.h>

#include "ipxr.h"

static void tell(const char *call, int32_t answer)
{
    uint8_t word[IPXR_MOST_WORD];
    ipxr_word(answer, word, sizeof word);
    printf("%s: %s %d\n", call, (const char *)word, (int)answer);
}

/* The same of a call that is no event: what it answers otherwise has no word. */
static void tell_number(const char *call, int32_t answer)
{
    if (answer < 0)
        tell(call, answer);
    else
        printf("%s: %d\n", call, (int)answer);
}

/* Ports that make a router, to be spoiled one way at a time. */
static const ipxr_port PORTS[2] = {
    {0x10, {0, 0, 0, 0, 0, 1}, 1, 576, IPXR_NO_LIMIT, IPXR_NO_LIMIT},
    {0x20, {0, 0, 0, 0, 0, 2}, 1, 576, IPXR_NO_LIMIT, IPXR_NO_LIMIT},
};

static void without_a_router(void)
{
    ipxr router = {0};
    ipxr_packet_sent sent;
    ipxr_route_record route;
    ipxr_service_record service;
    uint8_t bytes[576];

    printf("an empty handle\n");
    ipxr_free(&router);
    ipxr_clear(&router);
    tell("start", ipxr_start(&router));
    tell("stop", ipxr_stop(&router));
    tell("second", ipxr_second(&router));
    tell("packet", ipxr_packet(&router, 0, bytes, 0));
    tell("port_down", ipxr_port_down(&router, 0));
    tell("port_up", ipxr_port_up(&router, 0));
    tell_number("get", ipxr_get(&router, 0, &sent, bytes, sizeof bytes));
    tell_number("is_running", ipxr_is_running(&router));
    tell_number("is_up", ipxr_is_up(&router, 0));
    tell_number("route", ipxr_route(&router, 0, &route));
    tell_number("service", ipxr_service(&router, 0, &service));
    printf("sent %zu, routes %zu, services %zu\n", ipxr_sent(&router), ipxr_routes(&router), ipxr_services(&router));
}

static void spoiled(ipxr *router, const char *what, ipxr_port port)
{
    ipxr_port ports[2] = {PORTS[0], port};
    tell_number(what, ipxr_make(router, ports, 2));
}

static void bad_ports(ipxr *router)
{
    ipxr_port many[IPXR_MOST_PORTS + 1] = {{0}};
    ipxr_port port = PORTS[1];

    printf("ports that make no router; the old one stays\n");
    tell_number("no ports", ipxr_make(router, PORTS, 0));
    tell_number("33 ports", ipxr_make(router, many, IPXR_MOST_PORTS + 1));
    port.longest = 575;
    spoiled(router, "575 bytes", port);
    port = PORTS[1];
    port.cost = 0;
    spoiled(router, "no cost", port);
    port = PORTS[1];
    port.network = 0xFFFFFFFE;
    spoiled(router, "the default route's network", port);
    port = PORTS[1];
    memset(port.node, IPXR_BROADCAST_BYTE, sizeof port.node);
    spoiled(router, "the broadcast", port);
    spoiled(router, "the same network", PORTS[0]);
    tell_number("is_running", ipxr_is_running(router));
}

static void with_a_router(ipxr *router)
{
    ipxr_packet_sent sent;
    ipxr_route_record route;
    ipxr_service_record service;
    uint8_t bytes[576] = {0};

    printf("a router of two ports\n");
    tell("stop", ipxr_stop(router));
    tell("start", ipxr_start(router));
    tell("start again", ipxr_start(router));
    tell("packet on port 2", ipxr_packet(router, 2, bytes, 0));
    tell("port_down 2", ipxr_port_down(router, 2));
    tell_number("is_up 2", ipxr_is_up(router, 2));
    tell_number("get 6", ipxr_get(router, 6, &sent, bytes, sizeof bytes));
    tell_number("get into 39 bytes", ipxr_get(router, 0, &sent, bytes, 39));
    printf("told: %zu bytes on port %u; the buffer begins %02X\n", sent.length, sent.port, bytes[0]);
    tell_number("get into 40 bytes", ipxr_get(router, 0, &sent, bytes, 40));
    printf("the buffer begins %02X\n", bytes[0]);
    tell_number("route 0", ipxr_route(router, 0, &route));
    tell_number("service 0", ipxr_service(router, 0, &service));
    bad_ports(router);
    tell_number("made over the old one", ipxr_make(router, PORTS, 2));
    printf("sent %zu\n", ipxr_sent(router));
    tell_number("is_running", ipxr_is_running(router));
}

/* A buffer that is untouched where nothing is written. */
static void packets_that_are_not_written(void)
{
    static const ipxr_address here = {0x10, {0, 0, 0, 0, 0, 2}, IPXR_SAP_SOCKET};
    static const ipxr_route_entry routes[IPXR_PACKET_ROUTES + 1] = {{0x20, 1, 2}};
    ipxr_service_entry services[IPXR_PACKET_SERVICES + 1] = {{"A", 0x20, {0, 0, 0, 0, 0, 1}, 0x451, 4, 1}};
    static const uint8_t data[65536];
    static uint8_t bytes[65536];

    printf("packets\n");
    tell_number("operation 3", ipxr_write_rip(&here, &here, 3, routes, 0, bytes, 0));
    tell_number("no route", ipxr_write_rip(&here, &here, IPXR_RIP_REQUEST, routes, 0, bytes, 0));
    tell_number("51 routes", ipxr_write_rip(&here, &here, IPXR_RIP_RESPONSE, routes, IPXR_PACKET_ROUTES + 1, bytes, 0));
    tell_number("one route into 39 bytes", ipxr_write_rip(&here, &here, IPXR_RIP_RESPONSE, routes, 1, bytes, 39));
    tell_number("a query into 33 bytes", ipxr_write_query(&here, &here, 0, 4, bytes, 33));
    tell_number("no service", ipxr_write_sap(&here, &here, 0, services, 0, bytes, 0));
    tell_number("8 services", ipxr_write_sap(&here, &here, 0, services, IPXR_PACKET_SERVICES + 1, bytes, 0));
    tell_number("a second name that is empty", ipxr_write_sap(&here, &here, 0, services, 2, bytes, 0));
    memset(services[0].name, 'A', sizeof services[0].name);
    tell_number("a name of 48 bytes", ipxr_write_sap(&here, &here, 0, services, 1, bytes, sizeof bytes));
    services[0].name[47] = 0;
    tell_number("of 47 bytes, into 95 bytes", ipxr_write_sap(&here, &here, 0, services, 1, bytes, 95));
    tell_number("65,506 bytes of data", ipxr_write_packet(&here, &here, 0, 0, data, 65506, bytes, sizeof bytes));
    tell_number("65,505 into 65,534 bytes", ipxr_write_packet(&here, &here, 0, 0, data, 65505, bytes, 65534));
    printf("the buffer begins %02X\n", bytes[0]);
    tell_number("50 routes", ipxr_write_rip(&here, &here, IPXR_RIP_RESPONSE, routes, IPXR_PACKET_ROUTES, bytes, 432));
    tell_number("a service", ipxr_write_sap(&here, &here, 0, services, 1, bytes, 96));
    tell_number("65,505 bytes of data", ipxr_write_packet(&here, &here, 0, 0, data, 65505, bytes, 65535));
    printf("the buffer begins %02X\n", bytes[0]);
}

static void words(void)
{
    uint8_t word[8] = "as was";

    printf("words\n");
    printf("%zu of a short buffer, which is %s\n", ipxr_word(IPXR_MALFORMED_SHORT, word, 15 - 8), (const char *)word);
    printf("%zu of no number: \"%s\"\n", ipxr_word(99, word, sizeof word), (const char *)word);
    printf("version %s\n", ipxr_version() == IPXR_VERSION ? "as in the header" : "of another header");
}

int main(void)
{
    ipxr router = {0};

    without_a_router();
    tell_number("make", ipxr_make(&router, PORTS, 2));
    with_a_router(&router);
    packets_that_are_not_written();
    words();
    ipxr_free(&router);
    ipxr_free(&router);
    tell("freed twice; start", ipxr_start(&router));
    return 0;
}

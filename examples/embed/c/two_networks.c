/* Joins two networks, plays a few packets to the router, and prints what it sends.
 *
 *    AA ---- network 10 ---- [port 0  router  port 1] ---- network 20 ---- BB ---- network 30
 *
 * The lines are those of `ipxr replay examples/two-segments.script`, with the outcome of each event before them. */
#include <inttypes.h>
#include <stdio.h>
#include <string.h>

#include "ipxr.h"

/* Ports of 576 bytes send no longer packets. */
enum { LONGEST = 576 };

static void print_hex(const uint8_t *bytes, size_t length)
{
    for (size_t k = 0; k < length; k++)
        printf("%02X", bytes[k]);
}

/* Prints what became of an event, then the packets that are to be sent, and takes them out. */
static void show(ipxr *router, const char *event, int32_t answer)
{
    uint8_t word[IPXR_MOST_WORD];
    ipxr_word(answer, word, sizeof word);
    printf("%s: %s\n", event, (const char *)word);

    for (size_t k = 0; k < ipxr_sent(router); k++) {
        ipxr_packet_sent sent;
        uint8_t bytes[LONGEST];
        if (ipxr_get(router, k, &sent, bytes, sizeof bytes) < 0)
            continue;
        printf("out %u ", sent.port);
        print_hex(sent.node, sizeof sent.node);
        printf(" ");
        print_hex(bytes, sent.length);
        printf("\n");
    }
    ipxr_clear(router);
}

static size_t from_hex(const char *text, uint8_t *bytes)
{
    size_t length = strlen(text) / 2;
    for (size_t k = 0; k < length; k++)
        sscanf(text + 2 * k, "%2" SCNx8, &bytes[k]);
    return length;
}

static void receive(ipxr *router, const char *what, uint8_t port, const char *text)
{
    uint8_t bytes[LONGEST];
    size_t length = from_hex(text, bytes);
    show(router, what, ipxr_packet(router, port, bytes, length));
}

static void show_routes(ipxr *router)
{
    for (size_t k = 0; k < ipxr_routes(router); k++) {
        ipxr_route_record route;
        if (ipxr_route(router, k, &route) < 0)
            continue;
        printf("route %08" PRIX32 " %u %u %u ", route.network, route.hops, route.ticks, route.port);
        print_hex(route.node, sizeof route.node);
        printf(" %u\n", route.age);
    }
}

static int play(ipxr *router)
{
    const ipxr_port ports[] = {
        {0x10, {0, 0, 0, 0, 0, 1}, 1, LONGEST, IPXR_NO_LIMIT, IPXR_NO_LIMIT},
        {0x20, {0, 0, 0, 0, 0, 2}, 1, LONGEST, IPXR_NO_LIMIT, IPXR_NO_LIMIT},
    };
    int32_t made = ipxr_make(router, ports, 2);
    if (made < 0)
        return made;

    show(router, "start", ipxr_start(router));
    receive(router, "BB advertises network 30", 1,
            "FFFF0028000100000020FFFFFFFFFFFF0453000000200000000000BB045300020000003000010002");
    receive(router, "AA asks for all routes", 0,
            "FFFF0028000100000010FFFFFFFFFFFF0453000000100000000000AA04530001FFFFFFFFFFFFFFFF");
    receive(router, "AA writes to CC on network 20", 0,
            "FFFF001E0000000000200000000000CC4003000000100000000000AA4003");
    receive(router, "AA writes to network 99", 0,
            "FFFF001E0000000000990000000000CC4003000000100000000000AA4003");
    receive(router, "29 bytes come", 0, "0000000000000000000000000000000000000000000000000000000000");
    show_routes(router);
    show(router, "second", ipxr_second(router));
    show(router, "port 1 goes down", ipxr_port_down(router, 1));
    show(router, "stop", ipxr_stop(router));
    return 0;
}

int main(void)
{
    ipxr router = {0};
    int failed = play(&router);
    if (failed)
        fprintf(stderr, "two_networks: no router: %d\n", failed);
    ipxr_free(&router);
    return failed != 0;
}

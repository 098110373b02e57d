/* How long it takes to forward a packet through the calls of ipxr.h: packet, sent, get and clear. Prints nanoseconds a packet,
 * for a router of two ports with a few routes. `crates/embed_bench` does the same in Rattle.
 *
 * It makes TURNS rounds of a few packets for different networks, and tells the fastest of several runs, since other programs may
 * run on the machine. */
#include <stdio.h>
#include <string.h>
#include <time.h>

#include "ipxr.h"

enum { ROUTES = 16, RUNS = 9, TURNS = 50000, HEADER = 30, ENTRY = 8, LONGEST = 576 };

/* The first far network; the others follow it. */
enum { FAR = 0x1000 };

/* The bytes of a packet without data, from AA on network 10 to CC on a far network. */
static const uint8_t TO_FAR[HEADER] = {
    0xFF, 0xFF, 0, HEADER, 0, 0, 0, 0, 0, 0, 0, 0, 0, 0, 0, 0xCC, 0x40, 0x03,
    0, 0, 0, 0x10, 0, 0, 0, 0, 0, 0xAA, 0x40, 0x03,
};

static void put_network(uint8_t *at, uint32_t network)
{
    for (int k = 0; k < 4; k++)
        at[k] = (uint8_t)(network >> (24 - 8 * k));
}

/* BB on network 20 advertises the far networks: one hop, two ticks. */
static int32_t learn(ipxr *router)
{
    static const uint8_t head[HEADER + 2] = {
        0xFF, 0xFF, 0, HEADER + 2 + ENTRY * ROUTES, 0, 1, 0, 0, 0, 0x20, 0xFF, 0xFF, 0xFF, 0xFF, 0xFF, 0xFF, 0x04, 0x53,
        0, 0, 0, 0x20, 0, 0, 0, 0, 0, 0xBB, 0x04, 0x53, 0, 2,
    };
    uint8_t packet[HEADER + 2 + ENTRY * ROUTES];
    memcpy(packet, head, sizeof head);
    for (int k = 0; k < ROUTES; k++) {
        uint8_t *entry = packet + sizeof head + ENTRY * k;
        put_network(entry, FAR + k);
        memcpy(entry + 4, (uint8_t[]){0, 1, 0, 2}, 4);
    }
    return ipxr_packet(router, 1, packet, sizeof packet);
}

static double now(void)
{
    struct timespec at;
    clock_gettime(CLOCK_MONOTONIC, &at);
    return at.tv_sec * 1e9 + at.tv_nsec;
}

/* Forwards TURNS rounds, and adds up the lengths of what is sent. */
static size_t forward(ipxr *router, uint8_t packets[ROUTES][HEADER])
{
    size_t length = 0;
    for (int turn = 0; turn < TURNS; turn++) {
        for (int k = 0; k < ROUTES; k++) {
            ipxr_packet_sent sent;
            uint8_t bytes[LONGEST];
            ipxr_packet(router, 0, packets[k], HEADER);
            size_t count = ipxr_sent(router);
            for (size_t i = 0; i < count; i++)
                if (ipxr_get(router, i, &sent, bytes, sizeof bytes) == 0)
                    length += sent.length;
            ipxr_clear(router);
        }
    }
    return length;
}

int main(void)
{
    ipxr router = {0};
    const ipxr_port ports[] = {
        {0x10, {0, 0, 0, 0, 0, 1}, 1, LONGEST, IPXR_NO_LIMIT, IPXR_NO_LIMIT},
        {0x20, {0, 0, 0, 0, 0, 2}, 1, LONGEST, IPXR_NO_LIMIT, IPXR_NO_LIMIT},
    };
    if (ipxr_make(&router, ports, 2) < 0 || ipxr_start(&router) < 0 || learn(&router) != IPXR_LEARNED)
        return 1;
    ipxr_clear(&router);

    uint8_t packets[ROUTES][HEADER];
    for (int k = 0; k < ROUTES; k++) {
        memcpy(packets[k], TO_FAR, HEADER);
        put_network(packets[k] + 6, FAR + k);
    }
    double least = 0;
    size_t length = 0;
    for (int run = 0; run < RUNS; run++) {
        double began = now();
        length = forward(&router, packets);
        double took = (now() - began) / ((double)TURNS * ROUTES);
        if (run == 0 || took < least)
            least = took;
    }
    printf("forward a packet through the C calls: %.1f ns a packet (%zu)\n", least, length % 10);
    ipxr_free(&router);
    return 0;
}

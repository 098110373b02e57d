/* One network over three links, without their sockets: a card, a PC in QEMU and a tunnel of DOSBox clients. A call goes to all, its answer
 * to the caller alone, a stranger can't take a client's name, a PC is carried to another link, and time passes. */
#include <stdio.h>

#include "ipxr_segment.h"
#include "packets.h"

enum { CARD, QEMU, TUNNEL, LINKS };

static const char *const NAMES[LINKS] = {"card", "qemu", "tunnel"};

static const uint8_t ROUTER[6] = {0, 0, 0, 0, 0, 1}, OLD_PC[6] = {0, 0, 0, 0, 0, 0xAA}, GUEST[6] = {0, 0, 0, 0, 0, 0xBB},
                     ANNA[6] = {10, 0, 0, 1, 0x08, 0x52};

static void print_node(const uint8_t *node)
{
    for (size_t k = 0; k < 6; k++)
        printf("%02X", node[k]);
}

/* Where the packet of the last event goes. */
static void show_links(ipxr_segment *segment)
{
    uint8_t link;
    for (size_t k = 0; ipxr_segment_receiver(segment, k, &link) == 0; k++)
        printf("%s %s", k == 0 ? "" : ",", NAMES[link]);
    printf("%s\n", ipxr_segment_receivers(segment) == 0 ? " nowhere" : "");
}

static void hear(ipxr_segment *segment, const char *what, uint8_t link, const uint8_t *from, const uint8_t *to)
{
    int32_t heard = ipxr_segment_hear(segment, link, from, to);
    printf("%s:%s", what, heard == 1 ? " router," : "");
    show_links(segment);
}

static void show_stations(ipxr_segment *segment)
{
    ipxr_station station;
    printf("stations: %zu\n", ipxr_segment_stations(segment));
    for (size_t k = 0; ipxr_segment_station(segment, k, &station) == 0; k++) {
        printf("  ");
        print_node(station.node);
        printf(" at %s, ", NAMES[station.link]);
        if (station.is_sure)
            printf("until it leaves\n");
        else
            printf("for %u seconds\n", station.seconds_left);
    }
}

static void pass(ipxr_segment *segment, int seconds)
{
    printf("%d seconds pass\n", seconds);
    for (; seconds > 0; seconds--)
        ipxr_segment_second(segment);
}

/* A packet without a frame, for that network. */
static void show_next(ipxr_segment *segment, uint32_t network)
{
    const ipxr_address destination = {network, {0, 0, 0, 0, 0, 0xAA}, 0x4545};
    uint8_t node[6];
    ipxr_segment_next_node(segment, &destination, node);
    printf("for network %X it goes to node ", (unsigned)network);
    print_node(node);
    printf("\n");
}

int main(void)
{
    const ipxr_segment_setting setting = {0x10, {0, 0, 0, 0, 0, 1}, LINKS, 1024};
    const ipxr_link wire = {IPXR_LINK_CABLE, 256}, tunnel = {IPXR_LINK_SURE, 512}, down = {IPXR_LINK_DOWN, 0};
    ipxr_segment segment = IPXR_SEGMENT_NONE;
    if (ipxr_segment_make(&segment, &setting) < 0)
        return 1;
    ipxr_segment_change(&segment, CARD, &wire);
    ipxr_segment_change(&segment, QEMU, &wire);
    ipxr_segment_change(&segment, TUNNEL, &tunnel);
    ipxr_segment_come(&segment, TUNNEL, ANNA);
    hear(&segment, "the old PC calls all", CARD, OLD_PC, EVERYONE);
    hear(&segment, "Anna answers it", TUNNEL, ANNA, OLD_PC);
    hear(&segment, "Anna speaks to the guest, who wasn't heard yet", TUNNEL, ANNA, GUEST);
    hear(&segment, "the guest speaks to the router", QEMU, GUEST, ROUTER);
    hear(&segment, "somebody at the card in Anna's name", CARD, ANNA, EVERYONE);
    hear(&segment, "the old PC to the guest", CARD, OLD_PC, GUEST);
    printf("the router sends to the old PC:");
    ipxr_segment_send(&segment, OLD_PC);
    show_links(&segment);
    pass(&segment, 100);
    hear(&segment, "the old PC from behind QEMU", QEMU, OLD_PC, EVERYONE);
    show_stations(&segment);
    show_next(&segment, 0x10);
    show_next(&segment, 0x20);
    pass(&segment, 200);
    ipxr_segment_change(&segment, CARD, &down);
    hear(&segment, "Anna to the guest, who is forgotten", TUNNEL, ANNA, GUEST);
    ipxr_segment_leave(&segment, TUNNEL, ANNA);
    show_stations(&segment);
    ipxr_segment_free(&segment);
    return 0;
}

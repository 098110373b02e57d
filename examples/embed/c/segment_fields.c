/* Gives each field of the structs of ipxr_segment.h, and each argument, a value of its own, and reads it back. Where fields or arguments
 * stand in another order than in the header, another value comes back. */
#include <stdio.h>

#include "ipxr_segment.h"
#include "packets.h"

enum { FIRST, SECOND, THIRD, LINKS };

static const ipxr_segment_setting SETTING = {
    .network = 0x11121314, .node = {0x21, 0x22, 0x23, 0x24, 0x25, 0x26}, .links = LINKS, .capacity = 4};

static const ipxr_link WIRE = {.kind = IPXR_LINK_CABLE, .share = 2}, TUNNEL = {.kind = IPXR_LINK_SURE, .share = 3},
                       DOWN = {.kind = IPXR_LINK_DOWN, .share = 5};

static const uint8_t ONE[6] = {0x51, 0x52, 0x53, 0x54, 0x55, 0x56}, TWO[6] = {0x61, 0x62, 0x63, 0x64, 0x65, 0x66};

static void print_hex(const uint8_t *bytes, size_t length)
{
    for (size_t k = 0; k < length; k++)
        printf("%02X", bytes[k]);
}

static void tell(const char *event, int32_t answer)
{
    char word[IPXR_MOST_WORD] = "";
    if (answer < 0)
        ipxr_text(answer, word, sizeof word);
    printf("%s: %d%s%s\n", event, (int)answer, answer < 0 ? " " : "", word);
}

static void show_receivers(ipxr_segment *segment)
{
    uint8_t link = 0xEE;
    for (size_t k = 0; ipxr_segment_receiver(segment, k, &link) == 0; k++)
        printf("receiver %zu of %zu: %u\n", k, ipxr_segment_receivers(segment), link);
    tell("the receiver behind the last", ipxr_segment_receiver(segment, ipxr_segment_receivers(segment), &link));
}

static void show_stations(ipxr_segment *segment)
{
    ipxr_station station;
    for (size_t k = 0; ipxr_segment_station(segment, k, &station) == 0; k++) {
        printf("station %zu of %zu: node ", k, ipxr_segment_stations(segment));
        print_hex(station.node, sizeof station.node);
        printf(", link %u, sure %d, seconds left %u\n", station.link, station.is_sure, station.seconds_left);
    }
    tell("the station behind the last", ipxr_segment_station(segment, ipxr_segment_stations(segment), &station));
}

static void show_links(ipxr_segment *segment)
{
    ipxr_link link = {0xEE, 0xEEEE};
    for (uint8_t k = 0; ipxr_segment_link(segment, k, &link) == 0; k++)
        printf("link %u: kind %u, share %u\n", k, link.kind, link.share);
}

/* Nodes are heard at a link of share 2, and at others, until there is room for none. */
static void fill(ipxr_segment *segment)
{
    for (uint8_t k = 1; k <= 6; k++) {
        const uint8_t node[6] = {0x71, 0, 0, 0, 0, k};
        size_t before = ipxr_segment_stations(segment);
        ipxr_segment_hear(segment, k <= 3 ? FIRST : THIRD, node, EVERYONE);
        size_t now = ipxr_segment_stations(segment);
        printf("node %u: %s, stations: %zu\n", k, now > before ? "learned" : "not learned", now);
    }
}

/* A destination on the segment's network, and one elsewhere. */
static void show_next(ipxr_segment *segment, uint32_t network)
{
    const ipxr_address to = {.network = network, .node = {0x81, 0x82, 0x83, 0x84, 0x85, 0x86}, .socket = 0x9192};
    uint8_t node[6] = {0};
    tell("the next node", ipxr_segment_next_node(segment, &to, node));
    print_hex(node, sizeof node);
    printf("\n");
}

static void show_bad_arguments(ipxr_segment *segment)
{
    const ipxr_link odd = {.kind = IPXR_LINK_SURE + 1, .share = IPXR_LINK_CABLE};
    ipxr_link link;
    tell("a link of no kind", ipxr_segment_change(segment, THIRD, &odd));
    tell("a link of no kind that there is not", ipxr_segment_change(segment, LINKS, &odd));
    tell("heard at a link that there is not", ipxr_segment_hear(segment, LINKS, ONE, TWO));
    tell("comes to a link that there is not", ipxr_segment_come(segment, LINKS, ONE));
    tell("leaves a link that there is not", ipxr_segment_leave(segment, LINKS, ONE));
    tell("a link that there is not is read", ipxr_segment_link(segment, LINKS, &link));
}

static void show_faults(ipxr_segment *segment)
{
    const ipxr_segment_setting wide = {1, {0}, IPXR_MOST_LINKS + 1, IPXR_MOST_STATIONS + 1}, large = {1, {0}, 1, IPXR_MOST_STATIONS + 1};
    const ipxr_address to = {1, {0}, 1};
    ipxr_station station;
    ipxr_link values;
    uint8_t link, node[6];
    tell("made with a link too many", ipxr_segment_make(segment, &wide));
    tell("made with a station too many", ipxr_segment_make(segment, &large));
    tell("changed without a segment", ipxr_segment_change(segment, FIRST, &WIRE));
    tell("heard without a segment", ipxr_segment_hear(segment, FIRST, ONE, TWO));
    tell("come without a segment", ipxr_segment_come(segment, FIRST, ONE));
    tell("left without a segment", ipxr_segment_leave(segment, FIRST, ONE));
    tell("a second without a segment", ipxr_segment_second(segment));
    tell("sent without a segment", ipxr_segment_send(segment, ONE));
    tell("a receiver without a segment", ipxr_segment_receiver(segment, 0, &link));
    tell("a station without a segment", ipxr_segment_station(segment, 0, &station));
    tell("a link without a segment", ipxr_segment_link(segment, FIRST, &values));
    tell("the next node without a segment", ipxr_segment_next_node(segment, &to, node));
    printf("counts: %zu\n", ipxr_segment_receivers(segment) + ipxr_segment_stations(segment));
}

int main(void)
{
    ipxr_segment segment = {0};
    if (ipxr_segment_make(&segment, &SETTING) < 0)
        return 1;
    tell("the first link is a cable", ipxr_segment_change(&segment, FIRST, &WIRE));
    tell("the second is sure", ipxr_segment_change(&segment, SECOND, &TUNNEL));
    tell("the third is down", ipxr_segment_change(&segment, THIRD, &DOWN));
    show_links(&segment);
    tell("one comes to the second", ipxr_segment_come(&segment, SECOND, ONE));
    tell("two is heard at the first by all", ipxr_segment_hear(&segment, FIRST, TWO, EVERYONE));
    show_receivers(&segment);
    tell("two is heard by the router", ipxr_segment_hear(&segment, FIRST, TWO, SETTING.node));
    show_receivers(&segment);
    tell("a second passes", ipxr_segment_second(&segment));
    show_stations(&segment);
    tell("one is heard by two", ipxr_segment_hear(&segment, SECOND, ONE, TWO));
    show_receivers(&segment);
    tell("the router sends to one", ipxr_segment_send(&segment, ONE));
    show_receivers(&segment);
    show_next(&segment, SETTING.network);
    show_next(&segment, 0x31323334);
    show_bad_arguments(&segment);
    tell("two leaves the second", ipxr_segment_leave(&segment, SECOND, TWO));
    tell("one leaves it", ipxr_segment_leave(&segment, SECOND, ONE));
    tell("the third is a cable", ipxr_segment_change(&segment, THIRD, &WIRE));
    fill(&segment);
    ipxr_segment_free(&segment);
    ipxr_segment_free(&segment);
    show_faults(&segment);
    return 0;
}

/* An allocator of the embedder's own in the place of include/heap.c: a segment takes one block, events take none, and where that block is
 * refused the handle is as it was. */
#include <stdbool.h>
#include <stdio.h>

#include "counted.h"
#include "ipxr_segment.h"
#include "packets.h"

static int32_t make(ipxr_segment *segment, bool is_refused_now)
{
    const ipxr_segment_setting setting = {0x10, {0, 0, 0, 0, 0, 1}, IPXR_MOST_LINKS, IPXR_MOST_STATIONS};
    until_refused = is_refused_now;
    return ipxr_segment_make(segment, &setting);
}

/* All links go up, as many stations are heard as there is room for, and one more; the router speaks to all. */
static void fill(ipxr_segment *segment)
{
    const ipxr_link wire = {IPXR_LINK_CABLE, IPXR_MOST_STATIONS};
    uint8_t node[6] = {2};
    for (uint8_t link = 0; link < IPXR_MOST_LINKS; link++)
        ipxr_segment_change(segment, link, &wire);
    for (uint32_t k = 0; k <= IPXR_MOST_STATIONS; k++) {
        put_number(node + 2, 4, k);
        ipxr_segment_hear(segment, (uint8_t)(k % IPXR_MOST_LINKS), node, EVERYONE);
    }
    printf("stations: %zu, receivers: %zu\n", ipxr_segment_stations(segment), ipxr_segment_receivers(segment));
    ipxr_segment_send(segment, EVERYONE);
    printf("receivers of what the router sends: %zu\n", ipxr_segment_receivers(segment));
}

/* Until all are forgotten; says after how many seconds. */
static void pass(ipxr_segment *segment)
{
    int seconds = 0;
    for (; ipxr_segment_stations(segment) > 0; seconds++)
        ipxr_segment_second(segment);
    printf("forgotten after: %d\n", seconds);
}

int main(void)
{
    ipxr_segment segment = IPXR_SEGMENT_NONE;
    int32_t answer = make(&segment, true);
    printf("refused: %d, then a second: %d\n", (int)answer, (int)ipxr_segment_second(&segment));
    answer = make(&segment, false);
    printf("made: %d, blocks in use: %ld\n", (int)answer, in_use);
    long before = requests;
    fill(&segment);
    printf("requests of the events: %ld\n", requests - before);
    answer = make(&segment, true);
    printf("refused in its place: %d, and the stations are there: %zu\n", (int)answer, ipxr_segment_stations(&segment));
    before = requests;
    pass(&segment);
    printf("requests of the seconds: %ld\n", requests - before);
    answer = make(&segment, false);
    printf("made in its place: %d, blocks in use: %ld\n", (int)answer, in_use);
    ipxr_segment_free(&segment);
    printf("blocks that weren't freed: %ld\n", in_use);
    return 0;
}

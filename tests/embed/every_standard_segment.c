/* Uses what the header of segments has, in the C of 1989, which is also the C++ of 1998: it is read by each standard of both without a
 * warning. Run, it ends with 0 where a handle that begins as IPXR_SEGMENT_NONE has no segment, and one that is made has no stations. */
#include "ipxr_segment.h"

static const ipxr_segment_setting SETTING = {0x10, {0, 0, 0, 0, 0, 1}, 2, 64};
static const ipxr_link WIRE = {IPXR_LINK_CABLE, 16};
static const ipxr_address FAR_AWAY = {0x20, {0, 0, 0, 0, 0, 2}, 0x4545};
static const uint8_t NODE[6] = {0, 0, 0, 0, 0, 2};

static int has_none(ipxr_segment *segment)
{
    ipxr_station station;
    ipxr_link values;
    uint8_t link;
    uint8_t node[6];
    return ipxr_segment_change(segment, 0, &WIRE) == IPXR_NO_SEGMENT && ipxr_segment_hear(segment, 0, NODE, NODE) == IPXR_NO_SEGMENT &&
           ipxr_segment_come(segment, 0, NODE) == IPXR_NO_SEGMENT && ipxr_segment_leave(segment, 0, NODE) == IPXR_NO_SEGMENT &&
           ipxr_segment_second(segment) == IPXR_NO_SEGMENT && ipxr_segment_send(segment, NODE) == IPXR_NO_SEGMENT &&
           ipxr_segment_receiver(segment, 0, &link) == IPXR_NO_SEGMENT && ipxr_segment_station(segment, 0, &station) == IPXR_NO_SEGMENT &&
           ipxr_segment_link(segment, 0, &values) == IPXR_NO_SEGMENT &&
           ipxr_segment_next_node(segment, &FAR_AWAY, node) == IPXR_NO_SEGMENT &&
           ipxr_segment_receivers(segment) + ipxr_segment_stations(segment) == 0;
}

int main(void)
{
    uint8_t node[6];
    ipxr_link values;
    ipxr_segment segment = IPXR_SEGMENT_NONE;
    int is_right = has_none(&segment) && ipxr_segment_make(&segment, &SETTING) == 0 && ipxr_segment_stations(&segment) == 0;
    is_right = is_right && ipxr_segment_link(&segment, 1, &values) == 0 && values.kind == IPXR_LINK_DOWN;
    is_right = is_right && ipxr_segment_change(&segment, 2, &WIRE) == IPXR_NO_LINK;
    is_right = is_right && ipxr_segment_next_node(&segment, &FAR_AWAY, node) == 0 && node[5] == 1;
    ipxr_segment_free(&segment);
    return is_right && has_none(&segment) ? 0 : 1;
}

/* Uses what the header of edges has, in the C of 1989, which is also the C++ of 1998: it is read by each standard of both without a
 * warning. Run, it ends with 0 where a packet without a source network gets the port's, one that a router carried to RIP's socket is
 * held, one of a type that is denied doesn't pass, and a route in a neighbour's name claims no other number for the cable. */
#include "ipxr_edge.h"

static const ipxr_port PORT = {0x10, {0, 0, 0, 0, 0, 1}, 1, 576, 0, 0};
static const ipxr_rule RULE = {0, IPXR_RULE_TYPE, 0, IPXR_NAMES_ALL, 0, 0, 0, 0, {0}};
static const ipxr_route_entry ROUTE = {0x30, 1, 2};
static const uint8_t NODE[6] = {0, 0, 0, 0, 0, 2};
static const uint8_t PACKET[30] = {255, 255, 0, 30, 1, 0, 0, 0, 0, 0, 255, 255, 255, 255, 255, 255,
                                   4, 83, 0, 0, 0, 0, 0, 0, 0, 0, 0, 2, 4, 83};

int main(void)
{
    uint8_t bytes[30], written[40];
    size_t passes = 1;
    uint32_t network = 1;
    int is_right, k;
    for (k = 0; k < 30; k++)
        bytes[k] = PACKET[k];
    is_right = ipxr_edge_is_held(&PORT, bytes, sizeof bytes) == 1 && ipxr_edge_enter(&PORT, bytes, sizeof bytes) == 0 && bytes[21] == 0;
    bytes[4] = 0;
    is_right = is_right && ipxr_edge_enter(&PORT, bytes, sizeof bytes) == 1 && bytes[21] == 0x10;
    is_right = is_right && ipxr_edge_filter(IPXR_WAY_IN, &PORT, &RULE, 1, bytes, sizeof bytes, &passes) == 0 && passes == 0;
    is_right = is_right && ipxr_edge_write_routes(&PORT, NODE, &ROUTE, 1, written, sizeof written) == 40;
    is_right = is_right && ipxr_edge_claim(&PORT, written, sizeof written, &network) == 0 && network == 0;
    is_right = is_right && ipxr_edge_is_needless(&PORT, 1, written, sizeof written) == 0;
    is_right = is_right && ipxr_edge_write_services(&PORT, NODE, 0, 0, written, sizeof written) == IPXR_NO_ENTRIES;
    return is_right && ipxr_edge_number(&PORT, bytes, 0) == 0 ? 0 : 1;
}

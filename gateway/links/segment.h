/* Networks of several links: which of them get a packet, the library says. The router is one station among those of all links. */
#ifndef SEGMENT_H
#define SEGMENT_H

#include "gateway.h"

/* Makes the segment of a network of several links, which stand one behind the other, with the gateway's node there. Returns 0, or the
 * library's fault. */
int32_t segment_make(ipxr_segment *made, const network_setting *links, size_t count, const uint8_t node[6]);
void segment_close(port *router_port);

/* The links of a port, which has its segment, join that as they are: those that are up, with their clients. */
void segment_begin(gateway *it, port *router_port);

/* A link went up or down. */
void segment_change(network *on);

/* A client with that node came to a tunnel that is a link, or left it. */
void segment_client(network *on, const uint8_t node[6], bool comes);

/* What came of a packet that was heard at a link. */
typedef struct heard {
    bool by_router;  /* it is for the router's node, or for all */
    size_t links;    /* how many it was put on */
} heard;

/* A packet was heard at a link, from a node for a node or for all, and is put on the links that get it. Its bytes stay where they are until
 * gateway_flush. */
heard segment_hear(gateway *it, network *on, const origin *by, const uint8_t *from, const uint8_t *to, const uint8_t *packet,
    size_t length);

/* A packet for all came in a frame from the gateway's own node, and isn't its own: it is put on the other links with frames, and nobody is
 * learned by it. Returns how many these are. */
size_t segment_repeat(gateway *it, network *on, const origin *by, const uint8_t *packet, size_t length);

/* The router sends a packet to a node or to all. */
void segment_send(gateway *it, port *router_port, const origin *by, const uint8_t *node, const uint8_t *packet, size_t length);

/* The node that a client's packet goes to on its network. */
void segment_next(network *on, const uint8_t *packet, uint8_t node[6]);

/* A second has passed. */
void segments_second(gateway *it);

/* Says a line for each station of a network that has several links, or whose link is of any kind. */
void stations_show(gateway *it, port *router_port);

#endif

/* The gateway's node on a network. */
#ifndef NODE_H
#define NODE_H

#include "configuration/settings.h"

/* Of the tunnel one that no datagram comes from; of an interface its own address; by RFC 1234 the one of the link's address; else what the line says, also where a network has several
 * links. Where none of these is known, it is made of the machine, the network and its one link: so it stays from start to start, and two
 * gateways on a network have two. The card's address is zeros where there is none, or it isn't known. */
void node_choose(const network_setting *set, const uint8_t card[6], uint8_t node[6]);

/* The node of a machine by RFC 1234: 0000 and its address of IPv4. */
void node_of_address(const uint8_t host[4], uint8_t node[6]);

/* The port of the router by which a network is reached, whose first link is that, with the gateway's node there. */
ipxr_port node_port(const network_setting *first, const uint8_t card[6]);

/* Adds the port of the router's own network behind so many, where there is that. Returns how many there are then. */
size_t internal_port_add(const internal_setting *internal, ipxr_port ports[IPXR_MOST_PORTS], size_t count);

#endif

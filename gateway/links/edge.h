/* What a packet passes between its network and the router's port there (ipxr_edge.h, docs/EDGE.md): numbers that its sender didn't know are
 * filled in; what only neighbours may say to the router, but another router carried there, is held; and rules say what passes. A router that
 * has another number for a cable is told. Who asks for the nearest service gets no answer that a server on his own cable makes needless. */
#ifndef EDGE_H
#define EDGE_H

#include "gateway.h"

/* The router's port on a network, as far as the edge asks for it. */
ipxr_port edge_port(const network *on);

/* Whether a packet is held: no limit counts it, since no neighbour sent it. */
bool edge_holds(const network *on, const uint8_t *packet, size_t length);

/* Why a packet doesn't come in that isn't held; REASONS where it does. Then the packet that the router hears has its numbers: it may lie
 * elsewhere, until the next one comes. */
reason edge_lets_in(gateway *it, arrived *what);

/* What goes out of a packet that the router sends on a network: so many bytes of it, 0 where it doesn't. A response may lose entries. */
size_t edge_lets_out(gateway *it, network *on, uint8_t *packet, size_t length);

#endif

/* A tunnel with other rules for its clients: those who are there, and still may be, stay. */
#ifndef READMIT_H
#define READMIT_H

#include "gateway.h"

/* A network takes the tunnel that was made for its settings of now, which nobody else has any more. Clients who may not stay, or for whom
 * there is no room any more, leave; the others stay in their order and with their nodes, as if they had just answered. Who registered lately is
 * remembered, too. (none of this takes memory) */
void tunnel_again(const gateway *it, network *on, const network *made);

/* The new tunnel of a network hears a packet without data from somebody, who names a node and says it to another. */
void readmit(network *on, const ipxr_keyed_sender *sender, const uint8_t node[6], const uint8_t to_node[6]);

/* All clients leave, and the tunnel ends. */
void tunnel_end(network *on);

#endif

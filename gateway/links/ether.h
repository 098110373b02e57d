/* Networks whose packets come in Ethernet frames. */
#ifndef ETHER_H
#define ETHER_H

#include "gateway.h"

/* A frame came on a cable; `length` is all that it had, of which the first MOST_RECEIVED bytes are there. */
void ether_hear(gateway *it, cable *carrier, const uint8_t *frame, size_t length);

/* The same of a frame that this machine sends there: of these the gateway hears its own that look for loops alone. */
void ether_hear_sent(gateway *it, cable *carrier, const uint8_t *frame, size_t length);

/* Sends a packet in a frame from a node to a node, or to all. On a link of any kind it goes to a node in the kind that this uses, and to
 * all, or to a node that isn't known, in each that was heard lately. What clients say goes there as far as the link receives it. What the
 * router itself says to all waits until it is due. */
void ether_send(network *on, const origin *by, const uint8_t *from, const uint8_t *node, const uint8_t *packet, size_t length);

/* The same without that limit, and nothing is counted. Returns whether it is on its way. */
bool ether_put(network *on, const uint8_t *from, const uint8_t *node, const uint8_t *packet, size_t length);

/* Sends of the router's packets for all, which go out one by one, those that are due; or all that wait. */
void ether_send_due(network *on);
void ether_send_waiting(network *on);

#endif

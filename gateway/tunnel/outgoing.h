/* What a network of DOSBox' tunnel sends. Copies of packets for its clients wait, and go out together; nothing overtakes them. */
#ifndef OUTGOING_H
#define OUTGOING_H

#include <stdbool.h>
#include <stddef.h>
#include <stdint.h>

#include "systems/datagram.h"

typedef struct outgoing {
    const uint8_t *packet; /* of which copies are made, with its length; */
    size_t length;
    bool begins; /* there is none yet */
    departure list[MOST_TOGETHER]; /* the copies that wait, in their order; */
    bool is_first[MOST_TOGETHER];  /* whether one is its packet's first */
    size_t count;
    bool is_counted; /* of the packet whose copy was sent last, one is on its way */
} outgoing;

struct network;

/* Begins the copies of a packet, whose bytes stay where they are until all is sent. It is counted once one is on its way. */
void outgoing_begin(struct network *on, const uint8_t *packet, size_t length);

/* A copy for the client at a place. It waits until it is sent with others. */
void outgoing_copy(struct network *on, const uint8_t place[6]);

/* Sends all copies that wait. What the system refuses is counted, to its client too. */
void outgoing_send(struct network *on);

/* Sends one of the gateway's own datagrams now, behind all that waits: to a client, or to someone who may not be there. */
void outgoing_own(struct network *on, const uint8_t place[6], const uint8_t *bytes, size_t length, bool is_client);

#endif

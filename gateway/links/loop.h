/* Two links of a network that are one cable behind the gateway's back, as by a bridge, would carry a broadcast round for ever. So the
 * gateway sends a packet of its own to all on each of them, each second. Where one comes back on another link, the later of the two is
 * shut, until none has come for some seconds: the library decides which, and for how long (ipxr_cable.h). */
#ifndef LOOP_H
#define LOOP_H

#include <stdbool.h>
#include <stddef.h>
#include <stdint.h>

#include "ipxr_cable.h"

enum { LOOP_WORDS = 120 /* bytes of why a link is shut, with the 0 behind */ };

typedef struct loop {
    ipxr_loop shut;       /* whether the link is, */
    char why[LOOP_WORDS]; /* why, */
    bool is_beneath;      /* and whether since all that goes out on the other goes out there too */
} loop;

static inline bool loop_is_shut(const loop *it)
{
    return it->shut.left > 0;
}

struct gateway;
struct network;

/* Where a card is beneath another link, as a card in the bridge that a TAP is in, this machine sends there what goes out on the other, and
 * nothing comes back. Then it is the card's link that is shut: who is on it is reached by the other. */

/* The links of networks are others now, or in another order: one that was shut is looked at anew, where no link before it is still the one
 * with which it is one cable. */
void loops_change(struct gateway *it);

/* A second has passed. */
void loops_second(struct gateway *it);

/* Sends such a packet on a link, where its network has another on which it might come back. */
void loop_ask(struct gateway *it, struct network *on);

/* Whether a packet is one of these, of the link's network. */
bool loop_sent(struct gateway *it, const struct network *on, const uint8_t *packet, size_t length);

/* Whether a packet of the gateway's own that came on a link is one of these; what follows of it is done. */
bool loop_hears(struct gateway *it, struct network *on, const uint8_t *packet, size_t length);

/* Whether a packet is one of another gateway's, though its frame is from this one's own node: both have one node, as two gateways of a machine
 * may. It is no frame of this gateway's: what the other looks for isn't found unless it is handed on. */
bool loop_is_of_twin(const struct gateway *it, const struct network *on, const uint8_t *packet, size_t length);

/* What follows of one that this machine sends on the link's card. */
void loop_hears_sent(struct gateway *it, struct network *on, const uint8_t *packet, size_t length);

#endif

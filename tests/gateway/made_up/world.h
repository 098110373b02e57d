/* The world around the gateway: what it hears of it, and what it does next. */
#ifndef WORLD_H
#define WORLD_H

#include "gateway.h"
#include "packets.h"

/* The gateway, once it has begun to open its links; NULL before. */
extern gateway *the_gate;

/* Something that happens: of what kinds, the mood says, which changes after a while. */
void world_begins(void);
void world_acts(void);

/* ---- What the world knows ---- */

/* The source of the ping that a place was sent last, and the node that a registration's answer told it last; NULL where there was none. */
const uint8_t *cookie_of(const uint8_t place[6]);
const uint8_t *node_of(const uint8_t place[6]);

/* The first network whose cable has a descriptor; NULL where none has. */
network *network_at(int fd);

/* What a player says on a network, at his place; and a frame of a station's there, whose length it returns. */
void make_word(made_packet *it, network *on, const uint8_t place[6]);
size_t make_frame(network *on, uint8_t frame[MOST_RECEIVED]);

/* A frame comes on a descriptor that carries frames. */
void frame_comes(int fd, const uint8_t *frame, size_t length);

/* The machine gets or loses an address; frames of one cable come on another, too, or do so no longer; all that goes out on a cable goes out on
 * a card, too, or does so no longer. */
void address_comes_or_goes(void);
void cables_are_joined_or_not(void);
void a_card_is_beneath_or_not(void);
void cables_are_apart(void);

#endif

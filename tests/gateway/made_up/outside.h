/* What is outside of the gateway, as the made-up system asks about it and tells it. */
#ifndef OUTSIDE_H
#define OUTSIDE_H

#include <stdbool.h>
#include <stddef.h>
#include <stdint.h>

#include "descriptors.h"
#include "packets.h"
#include "systems/datagram.h"

/* Whether the machine has an address now; else errno says that it hasn't. */
bool outside_has_address(const address *at);

/* Whether a card has a number still. */
bool outside_has_card(const char *name, unsigned index);

/* What the gateway sends: a datagram of the tunnel, a frame, bytes of a connection. */
void outside_hears_datagram(int fd, descriptor *on, const departure *what);
void outside_hears_frame(int fd, descriptor *on, const uint8_t *bytes, size_t length);
void outside_hears_stream(int fd, descriptor *on, const uint8_t *bytes, size_t length);

/* What a player at a place learns of what it is sent; and what it answers, if it does. */
void outside_learns(const network *on, const uint8_t place[6], const uint8_t *bytes, size_t length);
bool outside_answers(const network *on, const uint8_t place[6], made_packet *made, const uint8_t *bytes, size_t length);

/* The gateway waits, at most so many milliseconds: time may pass. */
void outside_waits(int milliseconds);

/* The text of the configuration, and its name. */
const char *outside_configuration(void);

/* A turn is over, and the next begins. Returns whether the gateway goes on. */
bool outside_goes_on(void);

#endif

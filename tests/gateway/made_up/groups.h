/* The groups of the made-up machine, and the card that they are on. */
#ifndef GROUPS_H
#define GROUPS_H

#include "descriptors.h"

/* The card is switched off or on, loses its carrier, or is another one. */
void group_card_changes(void);

/* A socket that hears what another one says, or -1. */
int group_of(const descriptor *speaker);

/* What a socket says comes to all that hear it: back to the gateway, too. */
void comes_to_group(const descriptor *speaker, const uint8_t *frame, size_t length);

#endif

/* The sockets of cards among all others: what is sent on one goes out by Npcap. */
#ifndef CARDS_H
#define CARDS_H

#include <stdbool.h>
#include <stddef.h>
#include <stdint.h>

/* Whether a socket is a card's. */
bool is_card(int fd);

/* Sends a frame on the card of such a socket. Returns whether it is on its way. */
bool card_send(int fd, const uint8_t *frame, size_t length);

/* A socket is about to be closed; where it is a card's, that isn't heard any more. */
void card_closed(int fd);

#endif

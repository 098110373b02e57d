/* Packets that stations and strangers might send, right and wrong ones. */
#ifndef PACKETS_H
#define PACKETS_H

#include "gateway.h"

enum { MOST_MADE = 1600, ALL_HOSTS = 12, PORTS_OF_HOST = 24, ALL_NODES = 40 };

typedef struct made_packet {
    size_t length;
    uint8_t bytes[MOST_MADE];
} made_packet;

/* Who sends it: his network as he names it, and his node. */
typedef struct station {
    uint32_t network;
    uint8_t node[6];
} station;

/* An address of a player's, of a few; and a node of a PC's, of a few. */
void any_place(uint8_t place[6]);
void any_node(uint8_t node[6]);

/* What a DOSBox says to come in, and by its node to answer a ping whose source is the cookie. */
void make_registration(made_packet *it);
void make_answer(made_packet *it, const uint8_t node[6], const uint8_t cookie[6]);

/* Anything that a station may say on a network; and the same with bytes altered, or cut. */
void make_any(made_packet *it, gateway *gate, const network *on, const station *from);
void spoil_packet(made_packet *it);

/* The answer to what the gateway asked: it goes back. Returns false where nobody would answer. */
bool make_reply(made_packet *it, const uint8_t *asked, size_t length);

#endif

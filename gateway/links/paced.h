/* The router's broadcasts on a link with frames, which go out one by one: those of a table may be 188, and the card of an old computer has room
 * for some two dozen until they are read. They keep their order, and none waits for longer than four seconds: the library says when they go
 * (ipxr_cable.h). */
#ifndef PACED_H
#define PACED_H

#include <stdbool.h>
#include <stddef.h>
#include <stdint.h>

#include "ipxr_cable.h"

/* Bytes of the longest packet that the router makes. */
enum { LONGEST_OWN = 480 };

/* A packet that waits. */
typedef struct paced_packet {
    uint8_t from[6]; /* the node of the frame's source */
    size_t length;
    uint8_t bytes[LONGEST_OWN];
    struct paced_packet *next;
} paced_packet;

/* Those of a link. All bytes 0, none waits. */
typedef struct paced {
    paced_packet *first, *last;
    size_t count;
    bool has_more; /* than when it was said how they go */
    ipxr_pace pace;
} paced;

/* A packet of the router's for all waits. Returns false where it is too long, or there is no room: all links have that in common. */
bool paced_add(paced *it, const uint8_t from[6], const uint8_t *packet, size_t length);

/* The next that may go now, which waits no more; NULL where there is none. It stays where it is until one is added. */
const paced_packet *paced_due(paced *it);

/* The first that waits, whenever it may go, which waits no more; or NULL. */
const paced_packet *paced_first(paced *it);

/* Milliseconds until the next may go, at most so many. */
int paced_patience(const paced *it, int most);

#endif

/* Pings of clients that are reached by a narrow line, which go out one by one: together they would fill it. They keep their order, and none
 * waits for longer than four seconds: the library says when they go (ipxr_cable.h). */
#ifndef PINGS_H
#define PINGS_H

#include <stdbool.h>
#include <stddef.h>
#include <stdint.h>

#include "ipxr_cable.h"
#include "ipxr_tunnel.h"

typedef struct pings {
    ipxr_own *list; /* a ring */
    size_t room, first, count;
    ipxr_pace pace; /* when the first may go, and how far apart they go */
} pings;

/* Makes it for as many pings as there may be clients; 0 where none wait. Returns false where there is no memory. */
bool pings_make(pings *it, size_t room);
void pings_free(pings *it);

/* A ping waits. Returns false where there is no room. */
bool pings_add(pings *it, const ipxr_own *ping);

/* All of a second wait: from now on they go so many nanoseconds apart, or closer together where else one would wait too long. */
void pings_pace(pings *it, uint64_t between);

/* The next that may go, which waits no more; NULL where there is none. It stays where it is until one is added. */
const ipxr_own *pings_due(pings *it);

/* The first that waits, whenever it may go, or NULL; and it waits no more. */
const ipxr_own *pings_first(const pings *it);
void pings_end_first(pings *it);

/* Milliseconds until the next may go, at most so many. */
int pings_patience(const pings *it, int most);

#endif

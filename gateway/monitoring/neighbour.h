/* What is noted of the neighbours of a trial: of each node that tells routes or services on a network. */
#ifndef NEIGHBOUR_H
#define NEIGHBOUR_H

#include <stdint.h>
#include <stdio.h>

#include "ipx.h"
#include "ipxr_fates.h"

enum { MOST_NEIGHBOURS = 128 };

/* What a neighbour tells: to all, or to who asked. */
typedef enum { TELLS_ROUTES, TELLS_SERVICES, ANSWERS_ROUTES, ANSWERS_NEAREST, TELLINGS } telling;

/* How often it told something. Packets that follow each other within some seconds are one round. */
typedef struct tally {
    uint64_t packets, rounds;
    uint64_t begun, last; /* milliseconds of the clock: when the last round began, and its last packet came */
    uint64_t least, most; /* milliseconds from one round to the next */
    uint64_t entries;     /* of this round, */
    uint64_t most_entries; /* and of the largest */
    uint64_t partial;     /* packets whose last entry isn't whole */
    uint64_t unread;      /* packets that weren't learned from, */
    char why[24];         /* and for what reason the last one wasn't */
} tally;

typedef struct neighbour {
    uint32_t network; /* where it was heard, */
    uint32_t claims;  /* and the number that it gives that network */
    uint8_t node[NODE];
    tally of[TELLINGS];
} neighbour;

typedef struct neighbours {
    neighbour list[MOST_NEIGHBOURS];
    size_t count;
    uint64_t missed; /* packets of others, for whom there was no room */
} neighbours;

/* The neighbour of that node on a network, from now on if it is new; NULL where there is no room. */
neighbour *neighbour_of(neighbours *it, uint32_t network, const uint8_t node[NODE]);

/* It told something at a time, in so many bytes of entries. */
void neighbour_tells(neighbour *it, telling what, size_t bytes, uint64_t now);

/* What the router made of it: its answer, or -1 where it didn't hear it, and the fate that it had then. */
void neighbour_became(neighbour *it, telling what, int32_t answer, const ipxr_course *way);

/* Writes what was noted on a network, where so many questions of each kind were asked. Returns of how many neighbours. */
size_t neighbours_write(const neighbours *it, FILE *file, uint32_t network, unsigned asked);

#endif

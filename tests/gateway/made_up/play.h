/* What is played: a seed, and the turn that the gateway is in. What a check or the made-up system finds ends it. */
#ifndef PLAY_H
#define PLAY_H

#include <stdbool.h>
#include <stdint.h>

typedef struct play {
    uint64_t seed;
    unsigned long turn, turns; /* the gateway's, of so many */
    unsigned starts;           /* how often it was started */
    bool tells;                /* each event is told on standard error */
} play;

extern play the_play;

/* Something is wrong: it is told with seed and turn, and the program ends with status 1. */
void wrong(const char *format, ...);

/* An event, where they are told. */
void told(const char *format, ...);

#endif

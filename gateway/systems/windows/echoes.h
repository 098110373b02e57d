/* Frames that were sent a moment ago, and may come back: each is known again once. */
#ifndef ECHOES_H
#define ECHOES_H

#include <stdbool.h>
#include <stddef.h>
#include <stdint.h>

enum { MOST_ECHOES = 512 };

/* A ring of them, by their hashes; 0 where one has come back. */
typedef struct echoes {
    uint64_t hashes[MOST_ECHOES], sent[MOST_ECHOES]; /* the second is milliseconds of the clock */
    size_t first, count;
} echoes;

/* A frame is sent. Where there are as many already, the oldest is forgotten. */
void echo_expected(echoes *it, const uint8_t *frame, size_t length, uint64_t now);

/* Whether a frame is one that was sent within a second; then it is forgotten. */
bool echo_came(echoes *it, const uint8_t *frame, size_t length, uint64_t now);

#endif

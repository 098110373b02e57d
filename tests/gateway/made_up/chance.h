/* Chance that follows from a seed: the same seed gives the same numbers, on each machine. */
#ifndef CHANCE_H
#define CHANCE_H

#include <stdbool.h>
#include <stddef.h>
#include <stdint.h>

void chance_begin(uint64_t seed);

/* A number below another one; between two, both with it; and whether one of so many came. */
uint32_t below(uint32_t count);
uint32_t between(uint32_t least, uint32_t most);
bool one_in(uint32_t count);

/* One of the places of a list with these weights, which are 1 together at least. */
size_t chance_weighted(const unsigned *weights, size_t count);

void chance_bytes(uint8_t *bytes, size_t count);

#endif

#include "chance.h"

static uint64_t state;

void chance_begin(uint64_t seed)
{
    state = seed;
}

/* (splitmix64) */
static uint64_t next(void)
{
    state += UINT64_C(0x9E3779B97F4A7C15);
    uint64_t it = state;
    it = (it ^ it >> 30) * UINT64_C(0xBF58476D1CE4E5B9);
    it = (it ^ it >> 27) * UINT64_C(0x94D049BB133111EB);
    return it ^ it >> 31;
}

uint32_t below(uint32_t count)
{
    return count > 0 ? (uint32_t)((next() >> 32) * count >> 32) : 0;
}

uint32_t between(uint32_t least, uint32_t most)
{
    return least + below(most - least + 1);
}

bool one_in(uint32_t count)
{
    return below(count) == 0;
}

size_t chance_weighted(const unsigned *weights, size_t count)
{
    unsigned sum = 0, at = 0;
    size_t k = 0;
    for (size_t j = 0; j < count; j++)
        sum += weights[j];
    for (at = below(sum); k + 1 < count && at >= weights[k]; k++)
        at -= weights[k];
    return k;
}

void chance_bytes(uint8_t *bytes, size_t count)
{
    for (size_t k = 0; k < count; k++)
        bytes[k] = (uint8_t)below(256);
}

#include "tunnel/asked.h"

#include "limits/meter.h"
#include "systems/clock.h"

/* How many moments were chosen, for all networks: else who is on two of them would see on one what comes on the other. */
static uint64_t count;

void asked_again(asked *it, asks *all, const uint8_t key[SIPHASH_KEY])
{
    uint8_t number[sizeof count];
    count++;
    for (size_t k = 0; k < sizeof number; k++)
        number[k] = (uint8_t)(count >> 8 * k);
    ipxr_asked_ask(&it->moment, &all->moments, limit_clock(), siphash(key, number, sizeof number));
}

void asked_ping(asked *it, asks *all, const uint8_t key[SIPHASH_KEY], const ipxr_own *ping)
{
    it->ping = *ping;
    asked_again(it, all, key);
}

bool asked_is_due(const asked *it, asks *all)
{
    return ipxr_asked_is_due(&it->moment, &all->moments, limit_clock());
}

bool asks_are_due(asks *it)
{
    return ipxr_asks_are_due(&it->moments, limit_clock());
}

/* (without anybody who is asked, no clock is read) */
int asks_patience(const asks *it, int most)
{
    return it->moments.next == 0 ? most : (int)ipxr_asks_patience(&it->moments, (uint64_t)most, clock_nanoseconds());
}

#include "systems/windows/echoes.h"

#include "siphash.h"

enum { LASTS = 1000 /* milliseconds */ };

/* (who makes two frames that have one hash is himself not heard once) */
static uint64_t hash_of(const uint8_t *frame, size_t length)
{
    static const uint8_t ANY[SIPHASH_KEY];
    uint64_t hash = siphash(ANY, frame, length);
    return hash != 0 ? hash : 1;
}

static size_t place(const echoes *it, size_t number)
{
    return (it->first + number) % MOST_ECHOES;
}

static void forget_first(echoes *it)
{
    it->first = place(it, 1);
    it->count--;
}

void echo_expected(echoes *it, const uint8_t *frame, size_t length, uint64_t now)
{
    if (it->count == MOST_ECHOES)
        forget_first(it);
    size_t last = place(it, it->count++);
    it->hashes[last] = hash_of(frame, length);
    it->sent[last] = now;
}

/* Those that are too old, or have come back. */
static void forget_old(echoes *it, uint64_t now)
{
    while (it->count > 0 && (it->hashes[it->first] == 0 || now - it->sent[it->first] > LASTS))
        forget_first(it);
}

bool echo_came(echoes *it, const uint8_t *frame, size_t length, uint64_t now)
{
    size_t k = 0;
    forget_old(it, now);
    uint64_t hash = it->count > 0 ? hash_of(frame, length) : 0;
    while (k < it->count && it->hashes[place(it, k)] != hash)
        k++;
    if (k == it->count)
        return false;
    it->hashes[place(it, k)] = 0;
    return true;
}

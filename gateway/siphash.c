#include "siphash.h"

enum { WORD = 8 /* bytes of a word */, ROUNDS = 2 /* for each word */, LAST_ROUNDS = 4 };

/* What the four words of a state begin with: the letters "somepseudorandomlygeneratedbytes". */
#define FIRST 0x736F6D6570736575u
#define SECOND 0x646F72616E646F6Du
#define THIRD 0x6C7967656E657261u
#define FOURTH 0x7465646279746573u

/* The end of the text changes the third word by this. */
#define END 0xFFu

typedef struct state {
    uint64_t a, b, c, d;
} state;

static uint64_t turned(uint64_t word, int bits)
{
    return word << bits | word >> (64 - bits);
}

/* A word of at most eight bytes, the lowest first. */
static uint64_t word_at(const uint8_t *bytes, size_t count)
{
    uint64_t word = 0;
    for (size_t k = 0; k < count; k++)
        word |= (uint64_t)bytes[k] << 8 * k;
    return word;
}

static void mix(state *it, int rounds)
{
    for (int k = 0; k < rounds; k++) {
        it->a += it->b;
        it->c += it->d;
        it->b = turned(it->b, 13) ^ it->a;
        it->d = turned(it->d, 16) ^ it->c;
        it->a = turned(it->a, 32) + it->d;
        it->c += it->b;
        it->d = turned(it->d, 21) ^ it->a;
        it->b = turned(it->b, 17) ^ it->c;
        it->c = turned(it->c, 32);
    }
}

static void take(state *it, uint64_t word)
{
    it->d ^= word;
    mix(it, ROUNDS);
    it->a ^= word;
}

uint64_t siphash(const uint8_t key[SIPHASH_KEY], const uint8_t *bytes, size_t length)
{
    uint64_t low = word_at(key, WORD), high = word_at(key + WORD, WORD);
    state it = {low ^ FIRST, high ^ SECOND, low ^ THIRD, high ^ FOURTH};
    size_t whole = length / WORD * WORD;
    for (size_t k = 0; k < whole; k += WORD)
        take(&it, word_at(bytes + k, WORD));
    /* (the last word has what is left, and at its top how long the text is) */
    take(&it, word_at(bytes + whole, length - whole) | (uint64_t)length << 56);
    it.c ^= END;
    mix(&it, LAST_ROUNDS);
    return it.a ^ it.b ^ it.c ^ it.d;
}

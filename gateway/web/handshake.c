/* The answer is a hash of the key and of a text that is the same for all: it shows that a server speaks WebSocket, and is no secret. SHA-1 is as
 * FIPS 180-4 has it, base64 as RFC 4648 has it; for nothing else are they used here. */
#include "web/handshake.h"

#include <stdint.h>
#include <string.h>

#include "ipx.h"

static const char FOR_ALL[] = "258EAFA5-E914-47DA-95CA-C5AB0DC85B11";
static const char LETTERS[] = "ABCDEFGHIJKLMNOPQRSTUVWXYZabcdefghijklmnopqrstuvwxyz0123456789+/";

enum {
    KEY_LETTERS = 24,
    BLOCK = 64,   /* bytes of a block of SHA-1 */
    ROUNDS = 80,
    STATE = 5,    /* numbers of its state */
    HASH = 4 * STATE,
    TEXT = KEY_LETTERS + sizeof FOR_ALL - 1,
};

/* ---- SHA-1 ---- */

static uint32_t turned(uint32_t number, unsigned bits)
{
    return number << bits | number >> (32 - bits);
}

/* What a round adds, by the twenty to which it belongs. */
static uint32_t chosen(unsigned round, uint32_t b, uint32_t c, uint32_t d)
{
    switch (round / 20) {
    case 0:
        return ((b & c) | (~b & d)) + 0x5A827999u;
    case 1:
        return (b ^ c ^ d) + 0x6ED9EBA1u;
    case 2:
        return ((b & c) | (b & d) | (c & d)) + 0x8F1BBCDCu;
    default:
        return (b ^ c ^ d) + 0xCA62C1D6u;
    }
}

/* The number of a round: the first are the block's own. */
static uint32_t word_of(uint32_t words[ROUNDS], const uint8_t *block, unsigned round)
{
    words[round] = round < 16 ? get32(block + 4 * round)
                              : turned(words[round - 3] ^ words[round - 8] ^ words[round - 14] ^ words[round - 16], 1);
    return words[round];
}

static void hash_block(uint32_t state[STATE], const uint8_t *block)
{
    uint32_t words[ROUNDS], a = state[0], b = state[1], c = state[2], d = state[3], e = state[4];
    for (unsigned k = 0; k < ROUNDS; k++) {
        uint32_t next = turned(a, 5) + chosen(k, b, c, d) + e + word_of(words, block, k);
        e = d;
        d = c;
        c = turned(b, 30);
        b = a;
        a = next;
    }
    state[0] += a;
    state[1] += b;
    state[2] += c;
    state[3] += d;
    state[4] += e;
}

/* The hash of the text, which has two blocks with what is to be behind it: a bit, and how many bits it has. */
static void hash_text(const uint8_t text[TEXT], uint8_t hash[HASH])
{
    uint32_t state[STATE] = {0x67452301u, 0xEFCDAB89u, 0x98BADCFEu, 0x10325476u, 0xC3D2E1F0u};
    uint8_t blocks[2 * BLOCK] = {0};
    memcpy(blocks, text, TEXT);
    blocks[TEXT] = 0x80;
    put16(blocks + sizeof blocks - 2, 8 * TEXT);
    hash_block(state, blocks);
    hash_block(state, blocks + BLOCK);
    for (size_t k = 0; k < STATE; k++)
        put32(hash + 4 * k, state[k]);
}

/* ---- base64 ---- */

static void put_letters(const uint8_t hash[HASH], char accept[ACCEPT_ROOM])
{
    uint8_t whole[HASH + 1] = {0}; /* (three bytes are four letters: one is missing at the end) */
    memcpy(whole, hash, HASH);
    for (size_t k = 0; k < sizeof whole / 3; k++) {
        uint32_t three = (uint32_t)whole[3 * k] << 16 | (uint32_t)whole[3 * k + 1] << 8 | whole[3 * k + 2];
        accept[4 * k] = LETTERS[three >> 18];
        accept[4 * k + 1] = LETTERS[three >> 12 & 63];
        accept[4 * k + 2] = LETTERS[three >> 6 & 63];
        accept[4 * k + 3] = LETTERS[three & 63];
    }
    accept[ACCEPT_ROOM - 2] = '=';
    accept[ACCEPT_ROOM - 1] = '\0';
}

/* Whether a key has the letters of sixteen bytes. (of the last one only two bits are theirs) */
static bool is_key(const piece *key)
{
    size_t k = 0;
    while (k < KEY_LETTERS - 2 && k < key->length && key->text[k] != '\0' && strchr(LETTERS, key->text[k]) != NULL)
        k++;
    return key->length == KEY_LETTERS && k == KEY_LETTERS - 2 && memcmp(key->text + k, "==", 2) == 0;
}

bool handshake_accept(const piece *key, char accept[ACCEPT_ROOM])
{
    uint8_t text[TEXT], hash[HASH];
    if (!is_key(key))
        return false;
    memcpy(text, key->text, KEY_LETTERS);
    memcpy(text + KEY_LETTERS, FOR_ALL, sizeof FOR_ALL - 1);
    hash_text(text, hash);
    put_letters(hash, accept);
    return true;
}

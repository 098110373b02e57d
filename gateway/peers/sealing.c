#include "peers/sealing.h"

#include <string.h>

#include "systems/sodium.h"

/* ---- libsodium ---- */

typedef unsigned long long count;

/* Its calls, by prototypes of our own: their types are what its manual says. */
typedef struct sodium_calls {
    int (*begin)(void);
    int (*seal)(unsigned char *sealed, count *sealed_length, const unsigned char *bytes, count length, const unsigned char *beside,
        count beside_length, const unsigned char *unused, const unsigned char *once, const unsigned char *key);
    int (*open)(unsigned char *bytes, count *length, unsigned char *unused, const unsigned char *sealed, count sealed_length,
        const unsigned char *beside, count beside_length, const unsigned char *once, const unsigned char *key);
    void (*wipe)(void *bytes, size_t length);
} sodium_calls;

static const char *const NAMES[] = {"sodium_init", "crypto_aead_xchacha20poly1305_ietf_encrypt",
                                    "crypto_aead_xchacha20poly1305_ietf_decrypt", "sodium_memzero"};
enum { BEGIN, SEAL, OPEN, WIPE, CALLS };

typedef char has_name_for_each[sizeof NAMES / sizeof *NAMES == CALLS ? 1 : -1];

const sodium_calls *sealing_begin(const char **lacks)
{
    static sodium_calls calls;
    static bool is_there;
    sodium_call found[CALLS];
    if (is_there)
        return &calls;
    if (!sodium_load(NAMES, found, CALLS, lacks))
        return NULL;
    memcpy(&calls.begin, &found[BEGIN], sizeof calls.begin);
    memcpy(&calls.seal, &found[SEAL], sizeof calls.seal);
    memcpy(&calls.open, &found[OPEN], sizeof calls.open);
    memcpy(&calls.wipe, &found[WIPE], sizeof calls.wipe);
    is_there = calls.begin() >= 0;
    *lacks = "libsodium can't begin";
    return is_there ? &calls : NULL;
}

/* ---- Datagrams ---- */

static void put_number(uint8_t *bytes, uint64_t number)
{
    for (size_t k = 0; k < NUMBERED; k++)
        bytes[k] = (uint8_t)(number >> 8 * (NUMBERED - 1 - k));
}

static uint64_t number_at(const uint8_t *bytes)
{
    uint64_t number = 0;
    for (size_t k = 0; k < NUMBERED; k++)
        number = number << 8 | bytes[k];
    return number;
}

size_t sealing_seal(const sealing *it, const uint8_t session[SESSION], uint64_t number, const uint8_t echo[SESSION], const uint8_t *frame,
    size_t length, uint8_t *sealed)
{
    uint8_t plain[SESSION + IPXR_LONGEST_FRAME];
    memcpy(sealed, session, SESSION);
    put_number(sealed + SESSION, number);
    memcpy(plain, echo, SESSION);
    if (length > 0)
        memcpy(plain + SESSION, frame, length);
    (void)it->by->seal(sealed + ONCE, NULL, plain, SESSION + length, NULL, 0, NULL, sealed, it->key);
    return SEALED_MORE + length;
}

bool sealing_open(const sealing *it, const uint8_t *sealed, size_t length, unsealed *what)
{
    uint8_t plain[SESSION + IPXR_LONGEST_FRAME];
    if (length < SEALED_MORE || length > LONGEST_SEALED)
        return false;
    if (it->by->open(plain, NULL, NULL, sealed + ONCE, length - ONCE, NULL, 0, sealed, it->key) != 0)
        return false;
    memcpy(what->session, sealed, SESSION);
    what->number = number_at(sealed + SESSION);
    memcpy(what->echo, plain, SESSION);
    what->length = length - SEALED_MORE;
    memcpy(what->frame, plain + SESSION, what->length);
    return true;
}

void sealing_forget(sealing *it)
{
    if (it->by != NULL)
        it->by->wipe(it->key, sizeof it->key);
}

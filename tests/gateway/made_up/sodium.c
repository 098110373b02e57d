/* sodium.h of a made-up system: a seal is a sum of the key, of what is used but once, and of the bytes. It proves nothing to anybody but a test. */
#include "systems/sodium.h"

#include <stdint.h>
#include <string.h>

#include "peers/sealing.h"
#include "places.h"
#include "play.h"
#include "weather.h"

static const int OF_LOADING[] = {1, 0};

static uint64_t sum(uint64_t from, const unsigned char *bytes, size_t count)
{
    for (size_t k = 0; k < count; k++)
        from = (from ^ bytes[k]) * UINT64_C(0x100000001B3);
    return from;
}

static void prove(unsigned char proof[PROOF], const unsigned char *bytes, size_t count, const unsigned char *once, const unsigned char *key)
{
    uint64_t from = sum(sum(sum(UINT64_C(0xCBF29CE484222325), key, KEY), once, ONCE), bytes, count);
    for (size_t k = 0; k < PROOF; k++)
        proof[k] = (unsigned char)((k < 8 ? from : sum(from, proof, 8)) >> 8 * (k % 8));
}

static int begin(void)
{
    return 0;
}

static int seal(unsigned char *sealed, unsigned long long *length, const unsigned char *bytes, unsigned long long count,
    const unsigned char *beside, unsigned long long beside_count, const unsigned char *unused, const unsigned char *once,
    const unsigned char *key)
{
    if (length != NULL || beside != NULL || beside_count != 0 || unused != NULL)
        wrong("something is sealed beside a datagram");
    for (size_t k = 0; k < count; k++)
        sealed[k] = (unsigned char)(bytes[k] ^ key[k % KEY]);
    prove(sealed + count, bytes, (size_t)count, once, key);
    return 0;
}

static int open(unsigned char *bytes, unsigned long long *length, unsigned char *unused, const unsigned char *sealed, unsigned long long count,
    const unsigned char *beside, unsigned long long beside_count, const unsigned char *once, const unsigned char *key)
{
    unsigned char proof[PROOF];
    if (length != NULL || beside != NULL || beside_count != 0 || unused != NULL)
        wrong("something is opened beside a datagram");
    if (count < PROOF)
        return -1;
    for (size_t k = 0; k < count - PROOF; k++)
        bytes[k] = (unsigned char)(sealed[k] ^ key[k % KEY]);
    prove(proof, bytes, (size_t)count - PROOF, once, key);
    return memcmp(proof, sealed + count - PROOF, PROOF) == 0 ? 0 : -1;
}

static void wipe(void *bytes, size_t count)
{
    memset(bytes, 0, count);
}

bool sodium_load(const char *const *names, sodium_call *calls, size_t count, const char **lacks)
{
    static const struct {
        const char *name;
        sodium_call call;
    } CALLS[] = {{"sodium_init", (sodium_call)begin},
                 {"crypto_aead_xchacha20poly1305_ietf_encrypt", (sodium_call)seal},
                 {"crypto_aead_xchacha20poly1305_ietf_decrypt", (sodium_call)open},
                 {"sodium_memzero", (sodium_call)wipe}};
    *lacks = "there is none today";
    if (fails(OF_LOADING))
        return false;
    for (size_t k = 0; k < count; k++) {
        size_t at = 0;
        while (at < sizeof CALLS / sizeof *CALLS && strcmp(CALLS[at].name, names[k]) != 0)
            at++;
        if (at == sizeof CALLS / sizeof *CALLS)
            wrong("libsodium hasn't %s", names[k]);
        else
            calls[k] = CALLS[at].call;
    }
    return true;
}

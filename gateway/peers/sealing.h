/* Datagrams between places. Each is sealed by the key that all places share: whoever hasn't the key can neither read one nor make one.
 *
 *     24 bytes  the sender's session, 16, and the datagram's number in it, 8: never used again with the key
 *               sealed by XChaCha20-Poly1305 (draft-irtf-cfrg-xchacha), from here on:
 *     16 bytes  the receiver's session as the sender knows it; zeros where he doesn't
 *               a frame of Ethernet, or nothing
 *     16 bytes  what proves that all of it is the sender's
 */
#ifndef SEALING_H
#define SEALING_H

#include <stdbool.h>
#include <stddef.h>
#include <stdint.h>

#include "ipxr.h"

enum {
    KEY = 32,      /* bytes of a key, */
    SESSION = 16,  /* of a session, */
    NUMBERED = 8,  /* and of a number, whose highest byte is the first */
    ONCE = SESSION + NUMBERED,
    PROOF = 16,
    SEALED_MORE = ONCE + SESSION + PROOF, /* bytes that a datagram has beside its frame */
    LONGEST_SEALED = SEALED_MORE + IPXR_LONGEST_FRAME,
};

/* libsodium's calls, once it has begun; or NULL where it can't be had: then `lacks` is told why, in words that stay. */
struct sodium_calls;
const struct sodium_calls *sealing_begin(const char **lacks);

/* What seals: the calls, and a key. */
typedef struct sealing {
    const struct sodium_calls *by;
    uint8_t key[KEY];
} sealing;

/* What a datagram says. */
typedef struct unsealed {
    uint8_t session[SESSION], echo[SESSION];
    uint64_t number;
    size_t length; /* of the frame */
    uint8_t frame[IPXR_LONGEST_FRAME];
} unsealed;

/* Seals a frame, which is no longer than one may be, into LONGEST_SEALED bytes. Returns its length then. */
size_t sealing_seal(const sealing *it, const uint8_t session[SESSION], uint64_t number, const uint8_t echo[SESSION], const uint8_t *frame,
    size_t length, uint8_t *sealed);

/* Opens a datagram. Returns false where it wasn't sealed by the key, or isn't whole, or is too long for a frame. */
bool sealing_open(const sealing *it, const uint8_t *sealed, size_t length, unsealed *what);

/* Nothing of the key stays in memory. */
void sealing_forget(sealing *it);

#endif

/* SipHash-2-4: a hash with a key, by Aumasson and Bernstein ("SipHash: a fast short-input PRF", 2012). Whoever doesn't have the key can
 * neither tell a hash beforehand nor make two texts that have the same one. */
#ifndef SIPHASH_H
#define SIPHASH_H

#include <stddef.h>
#include <stdint.h>

enum { SIPHASH_KEY = 16 /* bytes of a key */ };

/* The hash of some bytes: 64 bits, as a number. */
uint64_t siphash(const uint8_t key[SIPHASH_KEY], const uint8_t *bytes, size_t length);

#endif

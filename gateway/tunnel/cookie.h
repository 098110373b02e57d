/* What only who hears at a place can know: the source node of the pings that go there. */
#ifndef COOKIE_H
#define COOKIE_H

#include <stdint.h>

#include "siphash.h"

/* The cookie of a place in a minute: a node, of which 40 bits are a hash with the gateway's own key. */
void cookie_make(const uint8_t key[SIPHASH_KEY], const uint8_t place[6], uint64_t minute, uint8_t cookie[6]);

#endif

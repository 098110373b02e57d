/* The kinds of frames of a link on which a station may use any: which of them each station uses, and in which a broadcast goes out. The
 * library decides that (ipxr_cable.h); here are the hash of a node, and words. All zeros, it has heard nobody. */
#ifndef KINDS_H
#define KINDS_H

#include <stdbool.h>
#include <stddef.h>
#include <stdint.h>

#include "ipxr_cable.h"
#include "siphash.h"

enum {
    ANY_KIND = IPXR_FRAME_KINDS + 1, /* of such a link, where others have the number of their one kind */
    ALL_KINDS = (1 << ANY_KIND) - 2, /* of each kind the bit 1 << kind */
};

/* The bits of the kinds that a link of a kind, or of any, speaks. */
static inline unsigned kind_bits(uint8_t kind)
{
    return kind == ANY_KIND ? ALL_KINDS : 1u << kind;
}

/* The key of the hash that finds a node's bucket, which nobody else may know. */
void kinds_key(const uint8_t key[SIPHASH_KEY]);

void kinds_forget_all(ipxr_kinds *it);

/* A station says a packet in a kind, to a node or to all. Returns false where it is for all and comes in another kind than what the station
 * said a moment ago: a copy, or somebody else with its node. */
bool kinds_hear(ipxr_kinds *it, uint8_t kind, const uint8_t node[6], bool is_for_all);

/* The kinds in which a packet goes to a node, or to all: of each the bit 1 << kind. At least one is set. */
unsigned kinds_for(const ipxr_kinds *it, const uint8_t node[6]);

/* The station's kind, or IPXR_NO_FRAME where it isn't known. */
uint8_t kinds_of(const ipxr_kinds *it, const uint8_t node[6]);

/* The next station that is known, from one place of the table on; `at` goes behind it. Returns NULL where there is none. */
const ipxr_kind_station *kinds_next(const ipxr_kinds *it, size_t *index);

/* How many are known. */
size_t kinds_stations(const ipxr_kinds *it);

/* Bytes of a kind's word, and of the words of all kinds, each with a comma or the 0 behind. */
enum { KIND_ROOM = 10, KINDS_ROOM = IPXR_FRAME_KINDS * KIND_ROOM };

/* The words of the kinds in which a packet goes to all, a comma between two. */
const char *kinds_words(const ipxr_kinds *it, char words[KINDS_ROOM]);

#endif

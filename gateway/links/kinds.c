#include "links/kinds.h"

#include <string.h>

#include "configuration/settings.h"
#include "ipx.h"

static uint8_t own_key[SIPHASH_KEY];

void kinds_key(const uint8_t key[SIPHASH_KEY])
{
    memcpy(own_key, key, sizeof own_key);
}

static uint64_t hash_of(const uint8_t node[6])
{
    return siphash(own_key, node, NODE);
}

void kinds_forget_all(ipxr_kinds *it)
{
    memset(it, 0, sizeof *it);
}

bool kinds_hear(ipxr_kinds *it, uint8_t kind, const uint8_t node[6], bool is_for_all)
{
    return ipxr_kinds_hear(it, hash_of(node), node, kind, is_for_all);
}

uint8_t kinds_of(const ipxr_kinds *it, const uint8_t node[6])
{
    return ipxr_kinds_of(it, hash_of(node), node);
}

/* (it goes through the buckets) */
const ipxr_kind_station *kinds_next(const ipxr_kinds *it, size_t *index)
{
    enum { BUCKETS = sizeof it->buckets / sizeof *it->buckets, EACH = sizeof it->buckets->stations / sizeof *it->buckets->stations };
    while (*index < BUCKETS * EACH) {
        const ipxr_kind_station *next = &it->buckets[*index / EACH].stations[*index % EACH];
        ++*index;
        if (next->left > 0)
            return next;
    }
    return NULL;
}

size_t kinds_stations(const ipxr_kinds *it)
{
    size_t count = 0;
    for (size_t index = 0; kinds_next(it, &index) != NULL;)
        count++;
    return count;
}

unsigned kinds_for(const ipxr_kinds *it, const uint8_t node[6])
{
    uint64_t hash = hash_of(node);
    unsigned kinds = 0;
    for (uint8_t kind = IPXR_FRAME_ETHERNET2; kind < ANY_KIND; kind++)
        kinds |= ipxr_kinds_speaks(it, hash, node, kind) ? 1u << kind : 0;
    return kinds;
}

const char *kinds_words(const ipxr_kinds *it, char words[KINDS_ROOM])
{
    static const uint8_t ALL[NODE] = {0xFF, 0xFF, 0xFF, 0xFF, 0xFF, 0xFF};
    unsigned used = kinds_for(it, ALL);
    words[0] = '\0';
    for (uint8_t kind = IPXR_FRAME_ETHERNET2; kind < ANY_KIND; kind++)
        if ((used & 1u << kind) != 0) {
            strcat(words, words[0] != '\0' ? "," : "");
            strcat(words, kind_word(kind));
        }
    return words;
}

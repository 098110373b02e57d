#include "tunnel/cookie.h"

#include <string.h>

#include "ipx.h"

enum { MINUTE = 8 /* bytes of a minute's number */ };

void cookie_make(const uint8_t key[SIPHASH_KEY], const uint8_t place[6], uint64_t minute, uint8_t cookie[6])
{
    uint8_t text[NODE + MINUTE];
    memcpy(text, place, NODE);
    put32(text + NODE, (uint32_t)(minute >> 32));
    put32(text + NODE + 4, (uint32_t)minute);
    uint64_t hash = siphash(key, text, sizeof text);
    cookie[0] = COOKIE_NODE;
    for (int k = 1; k < NODE; k++)
        cookie[k] = (uint8_t)(hash >> 8 * k);
}

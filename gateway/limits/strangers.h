/* What a tunnel sends to strangers, within a limit: so many datagrams a second to all, and of these a part at most to one address. Three quarters
 * are for registrations, and a quarter is for pings to those who speak: so neither who registers again and again nor who speaks on and never
 * answers uses up what the others need. */
#ifndef STRANGERS_H
#define STRANGERS_H

#include <stdbool.h>
#include <stdint.h>

#include "ipxr_limits.h"
#include "limits/meter.h"
#include "siphash.h"

enum { MOST_HOSTS = 4096 /* addresses that are told apart, by a hash that nobody can tell beforehand */ };

/* What a datagram to a stranger is for. */
typedef enum { FOR_REGISTRATIONS, FOR_WORDS, STRANGERS_PARTS } strangers_part;

typedef struct strangers {
    bool has_no_limit;
    uint8_t key[SIPHASH_KEY]; /* of that hash */
    ipxr_strangers_limits limits[STRANGERS_PARTS];
    meter sent[STRANGERS_PARTS];   /* to all */
    meter *hosts[STRANGERS_PARTS]; /* to the addresses */
} strangers;

/* Makes it for so many datagrams a second, 0 for any number, with a key of the system's random bytes. (of one a second each part has one)
 * Returns false where there is no memory. */
bool strangers_make(strangers *it, uint32_t rate, const uint8_t key[SIPHASH_KEY]);
void strangers_free(strangers *it);

/* Whether so many datagrams for something may go to a stranger now, or soon; they are counted then. */
bool strangers_let(strangers *it, strangers_part what, const uint8_t place[6], uint32_t count);

/* Of so much the part for something, at least one. */
uint32_t strangers_share(strangers_part what, uint32_t of);

#endif

#include "limits/strangers.h"

#include <stdlib.h>
#include <string.h>

/* Bytes of a place that are its address; and of what goes to strangers one part in so many is for those who speak. */
enum { HOST = 4, WORDS_PART = 4 };

uint32_t strangers_share(strangers_part what, uint32_t of)
{
    uint32_t of_words = of / WORDS_PART > 0 ? of / WORDS_PART : 1;
    return what == FOR_WORDS || of <= of_words ? of_words : of - of_words;
}

bool strangers_make(strangers *it, uint32_t rate, const uint8_t key[SIPHASH_KEY])
{
    memset(it, 0, sizeof *it);
    memcpy(it->key, key, sizeof it->key);
    it->has_no_limit = rate == 0;
    it->hosts[0] = calloc((size_t)STRANGERS_PARTS * MOST_HOSTS, sizeof **it->hosts);
    if (it->hosts[0] == NULL)
        return false;
    for (size_t k = 0; k < STRANGERS_PARTS; k++) {
        it->hosts[k] = it->hosts[0] + k * MOST_HOSTS;
        (void)ipxr_strangers_make(&it->limits[k], strangers_share((strangers_part)k, rate));
    }
    return true;
}

void strangers_free(strangers *it)
{
    free(it->hosts[0]);
    memset(it, 0, sizeof *it);
}

/* What an address has been sent. (with a hash that can be told beforehand somebody would choose an address that has a newcomer's) */
static ipxr_meter *of_host(strangers *it, strangers_part what, const uint8_t place[6])
{
    return meter_now(&it->hosts[what][siphash(it->key, place, HOST) % MOST_HOSTS]);
}

bool strangers_let(strangers *it, strangers_part what, const uint8_t place[6], uint32_t count)
{
    return it->has_no_limit ||
           ipxr_strangers_send(&it->limits[what], count, of_host(it, what, place), meter_now(&it->sent[what])) == IPXR_PASSES;
}

#include "links/among.h"

#include <string.h>

#include "ipx.h"
#include "siphash.h"
#include "systems/clock.h"

enum {
    GROUP = 1,         /* of a node's first byte: it is of many */
    STAYS = 5000,      /* milliseconds from a station's last word, in which nobody else takes its node */
    FIRST_QUEUE = 15,  /* the queue of the first of them is behind it */
};

static uint8_t the_key[SIPHASH_KEY];

void among_key(const uint8_t key[SIPHASH_KEY])
{
    memcpy(the_key, key, SIPHASH_KEY);
}

void among_follow(among *it, const network_setting *set)
{
    it->has_no_limit = !ipxr_limits_make(&it->limits, IPXR_LIMITS_FRAMES, set->rate, set->share, set->routes, set->services);
    if (!it->has_no_limit)
        receiver_set(&it->heard, &it->limits.received);
}

/* ---- Nodes ---- */

static owner *bucket(among *it, const uint8_t node[NODE])
{
    return &it->owners[siphash(the_key, node, NODE) % OWNERS];
}

/* Whose a node is. */
static uint8_t owner_of(among *it, const uint8_t node[NODE])
{
    const owner *found = bucket(it, node);
    if ((node[0] & GROUP) != 0)
        return OF_ALL;
    if (same_node(node, it->node))
        return OF_GATEWAY;
    return same_node(found->node, node) ? found->whose : OF_ALL;
}

/* A node was heard as the source of a frame. (of a station that spoke a moment ago it stays the node) */
static void learn(among *it, uint8_t who, const uint8_t node[NODE])
{
    owner *found = bucket(it, node);
    uint64_t now = clock_now();
    bool is_same = found->whose == who && same_node(found->node, node);
    if ((node[0] & GROUP) != 0 || same_node(node, it->node) || (!is_same && found->whose != OF_ALL && now - found->heard < STAYS))
        return;
    memcpy(found->node, node, NODE);
    found->whose = who;
    found->heard = now;
}

uint8_t among_says(among *it, uint8_t who, const uint8_t *frame)
{
    learn(it, who, frame + NODE);
    return owner_of(it, frame);
}

void among_forgets(among *it, uint8_t who)
{
    for (size_t k = 0; k < OWNERS; k++)
        if (it->owners[k].whose == who)
            it->owners[k].whose = OF_ALL;
}

/* ---- Parts ---- */

bool among_lets(const among *it, receiver *to, uint8_t by, size_t length)
{
    if (it->has_no_limit)
        return true;
    receiver_set(to, &it->limits.received);
    return ipxr_limits_receives(&it->limits, receiver_now(to), (uint8_t)(FIRST_QUEUE + by), length) == IPXR_PASSES;
}

#include "web/turns.h"

#include <string.h>

#include "tunnel/leaving.h"
#include "tunnel/place.h"

/* Whether a client's connection is there. */
static bool is_connected(const network *on, const uint8_t place[NODE])
{
    address from = address_of(place);
    return web_has(on->cable->web, &from);
}

/* What found no room counts for the first network on the link. */
static void count_lost(network *on, web *of)
{
    on->counts.refused += of->refused;
    for (; of->late > 0; of->late--)
        counts_lose(&on->counts, TOO_MUCH_FOR_LINK);
    for (; of->unsent > 0; of->unsent--)
        counts_lose(&on->counts, NOT_SENT);
    of->refused = 0;
}

static void settle(const gateway *it, network *on)
{
    web *of = on->cable->web;
    if (of == NULL)
        return;
    if (of->has_gone && has_tunnel(on->set))
        tunnel_lets_leave(it, on, is_connected);
    of->has_gone = false;
    memcpy(of->among.node, on->node, NODE);
    count_lost(on, of);
}

void web_turn(gateway *it)
{
    sites_forget();
    for (size_t k = 0; k < it->count; k++)
        settle(it, &it->networks[k]);
}

/* Which pages are clients. */
static void find_places(network *on)
{
    const web *of = on->cable->web;
    for (size_t k = 0; of != NULL && has_tunnel(on->set) && k < of->count; k++) {
        uint8_t place[NODE];
        place_of(&of->pages[k]->from, place);
        of->pages[k]->has_place = roster_find(&on->roster, place) != NULL;
    }
}

void web_second(gateway *it)
{
    sites_second();
    web_turn(it);
    for (size_t k = 0; k < it->count; k++)
        find_places(&it->networks[k]);
}

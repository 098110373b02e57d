#include "peers/turns.h"

#include <inttypes.h>
#include <string.h>

#include "configuration/words.h"
#include "gateway.h"
#include "ipx.h"
#include "monitoring/events.h"
#include "monitoring/note.h"
#include "peers/calling.h"
#include "systems/clock.h"

/* Milliseconds from one line about a datagram that wasn't sealed by the key to the next. */
enum { BETWEEN = 60000 };

void peers_push_all(gateway *it)
{
    for (size_t k = 0; k < it->cable_count; k++)
        if (it->cables[k].peers != NULL)
            peers_push(it->cables[k].peers, it->cables[k].fd);
}

/* ---- Counts ---- */

/* So many go no further. */
static void count(network *on, uint64_t *lost, reason why)
{
    for (; *lost > 0; --*lost)
        counts_lose(&on->counts, why);
}

/* Somebody has another key, or none: once a minute it is told. (he is told nothing) */
static void tell_unopened(const network *on, peers *of)
{
    char where[ADDRESS_ROOM];
    uint64_t now = clock_now();
    if (of->unopened == 0 || (of->stranger_told != 0 && now - of->stranger_told < BETWEEN))
        return;
    of->stranger_told = now;
    event("network %08" PRIX32 " hears something from %s that isn't sealed by its key", on->set->network, address_words(&of->stranger, where));
}

static void settle(network *on)
{
    peers *of = on->cable->peers;
    if (of == NULL)
        return;
    memcpy(of->among.node, on->node, NODE);
    tell_unopened(on, of);
    count(on, &of->unopened, NOT_SEALED);
    count(on, &of->repeated, REPEATED);
    count(on, &of->of_another, OTHER_SESSION);
    count(on, &of->refused, NO_ROOM);
    count(on, &of->late, TOO_MUCH_FOR_LINK);
    count(on, &of->unsent, NOT_SENT);
}

void peers_turn(gateway *it)
{
    for (size_t k = 0; k < it->count; k++)
        settle(&it->networks[k]);
}

/* ---- Who is there ---- */

/* Tells that a place comes, or leaves. */
static void tell_place(const network *on, const address *at, bool comes)
{
    char where[ADDRESS_ROOM];
    event("peer %s %s network %08" PRIX32, address_words(at, where), comes ? "comes to" : "leaves", on->set->network);
    events_place(on, at, comes ? PLACE_COMES : PLACE_LEAVES);
}

/* Tells that it has another address than before. */
static void tell_move(const network *on, const address *from, const address *at)
{
    char where[ADDRESS_ROOM], before[ADDRESS_ROOM];
    event("peer %s of network %08" PRIX32 " was at %s before", address_words(at, where), on->set->network, address_words(from, before));
    events_place(on, at, PLACE_MOVES);
}

/* Tells what is new about a place. */
static void look_at(const network *on, const peers *of, place *it, size_t number)
{
    address at;
    bool is_here = peers_where(of, number, &at);
    if (it->has_gone)
        tell_place(on, &it->at, false);
    it->is_here = it->is_here && !it->has_gone;
    it->has_gone = false;
    if (is_here != it->is_here)
        tell_place(on, is_here ? &at : &it->at, is_here);
    else if (is_here && !same_address(&at, &it->at))
        tell_move(on, &it->at, &at);
    it->is_here = is_here;
    if (is_here)
        it->at = at;
}

static void let_second_pass(network *on)
{
    peers *of = on->cable->peers;
    if (of == NULL || on->cable->fd < 0)
        return;
    ipxr_peers_second(&of->known);
    calling_second(of, on->cable->fd);
    for (size_t k = 0; k < IPXR_MOST_PEERS; k++)
        look_at(on, of, &of->places[k], k);
}

void peers_second(gateway *it)
{
    for (size_t k = 0; k < it->count; k++)
        let_second_pass(&it->networks[k]);
    peers_turn(it);
}

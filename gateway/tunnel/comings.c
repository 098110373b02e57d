/* Who comes and who leaves, and whose address isn't allowed: it is listed, and told. */
#include <inttypes.h>
#include <string.h>

#include "configuration/words.h"
#include "ipx.h"
#include "links/segment.h"
#include "monitoring/events.h"
#include "monitoring/note.h"
#include "systems/clock.h"
#include "tunnel/place.h"
#include "tunnel/tunnel.h"

/* Milliseconds from one line about an address that isn't allowed to the next, and to the next about the same. */
enum { BETWEEN = 1000, BETWEEN_SAME = 60000 };

void tunnel_list(network *on, const uint8_t place[NODE], const uint8_t node[NODE])
{
    address at = address_of(place);
    roster_add(&on->roster, place, node, ranges_have(&on->set->trusted, &at), on->set->kilobits > 0);
}

/* Tells that a client comes or leaves, with its address: by that the operator may refuse it. */
static void tell(network *on, const uint8_t place[NODE], const uint8_t node[NODE], bool comes)
{
    char words[WORDS], where[ADDRESS_ROOM];
    address at = address_of(place);
    event("client %s %s %08" PRIX32 ", %s", node_words(node, words), comes ? "comes to" : "leaves", on->set->network,
          address_words(&at, where));
    events_client(on, node, &at, comes);
}

void tunnel_note_registration(const gateway *it, network *on, member *client)
{
    ipxr_keyed_member waiter;
    for (size_t k = 0; ipxr_keyed_waiter(&on->tunnel, k, &waiter) == 0; k++)
        if (same_node(waiter.place, client->place))
            roster_registers(client, it->seconds, waiter.seconds_left);
}

/* The connection of a client may stay. */
static void tell_page(network *on, const uint8_t place[NODE])
{
    address from = address_of(place);
    web_admits(on->cable->web, &from);
}

void tunnel_tell_comes(const gateway *it, network *on)
{
    ipxr_keyed_member last;
    if (ipxr_keyed_client(&on->tunnel, ipxr_keyed_clients(&on->tunnel) - 1, &last) != 0)
        return;
    tunnel_list(on, last.place, last.node);
    if (on->cable->web != NULL)
        tell_page(on, last.place);
    member *listed = roster_find(&on->roster, last.place);
    if (listed != NULL)
        tunnel_note_registration(it, on, listed);
    segment_client(on, last.node, true);
    tell(on, last.place, last.node, true);
}

void tunnel_tell_leaves(network *on, const uint8_t place[NODE], const uint8_t node[NODE])
{
    roster_remove(&on->roster, place);
    segment_client(on, node, false);
    tell(on, place, node, false);
}

void tunnel_tell_refused(network *on, const address *from)
{
    char who[ADDRESS_ROOM];
    uint64_t now = clock_now();
    bool is_same = memcmp(on->refused, from->host, sizeof on->refused) == 0;
    if (on->refusal_told != 0 && now - on->refusal_told < (is_same ? BETWEEN_SAME : BETWEEN))
        return;
    memcpy(on->refused, from->host, sizeof on->refused);
    on->refusal_told = now;
    event("%s is refused on %08" PRIX32 ": %s", address_words(from, who), on->set->network, reason_words(NOT_ALLOWED));
}

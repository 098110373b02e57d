#include "configuration/change.h"

#include <inttypes.h>
#include <string.h>

#include "configuration/plan.h"
#include "configuration/readmit.h"
#include "configuration/words.h"
#include "links/ether.h"
#include "links/links.h"
#include "links/segment.h"
#include "links/statics.h"
#include "monitoring/events.h"
#include "monitoring/note.h"
#include "monitoring/output.h"
#include "monitoring/status.h"
#include "systems/system.h"

bool has_changed(const changed *it)
{
    return it->added + it->removed + it->reopened + it->clients + it->sockets + it->keys > 0 || it->is_new_router;
}

/* ---- What stays ---- */

/* The change that is made. */
static plan next;

/* The gateway as it was, while it is made what it is to be. */
static struct {
    network networks[MOST_LINKS];
    cable cables[MOST_LINKS];
    size_t count;
    cable *moved[MOST_LINKS]; /* where each cable is now, or NULL */
} before;

static void keep_before(gateway *it)
{
    memcpy(before.networks, it->networks, sizeof before.networks);
    memcpy(before.cables, it->cables, sizeof before.cables);
    memset(before.moved, 0, sizeof before.moved);
    before.count = it->count;
    for (size_t k = 0; k < before.count; k++)
        before.networks[k].cable = before.cables + (it->networks[k].cable - it->cables);
    memset(it->networks, 0, sizeof it->networks);
    memset(it->cables, 0, sizeof it->cables);
    it->count = it->cable_count = 0;
}

/* A network on a link as it was, or NULL. */
static network *network_before(size_t number)
{
    size_t was = next.origins[number].was;
    return was != IPXR_NO_ONE ? &before.networks[was] : NULL;
}

/* A cable that stays goes to its new place, once for all networks that it carries. */
static cable *move_cable(gateway *it, const cable *was, const network_setting *set)
{
    cable **moved = &before.moved[was - before.cables];
    if (*moved == NULL) {
        *moved = &it->cables[it->cable_count++];
        **moved = *was;
        cable_follow(*moved, set);
    }
    return *moved;
}

/* Each network that stays, with what it has counted and its clients; and each cable whose place a link has still. */
static void move_networks(gateway *it, const settings *set)
{
    for (size_t k = 0; k < set->count; k++) {
        network *on = &it->networks[it->count++], *was = network_before(k);
        if (was != NULL)
            *on = *was;
        on->segment = NULL;
        on->set = &set->networks[k];
        if (loop_is_shut(&on->loop))
            on->lacks = on->loop.why; /* (which has moved, too) */
        const ipxr_plan_origin *origin = &next.origins[k];
        on->cable = origin->is_kept ? move_cable(it, before.networks[origin->cable].cable, on->set) : NULL;
        memcpy(on->node, next.ports[on->set->port].node, sizeof on->node);
    }
}

/* The first link of a network by its number, or NULL. */
static network *first_of_network(gateway *it, uint32_t number)
{
    size_t k = 0;
    while (k < it->count && it->networks[k].set->network != number)
        k++;
    return k < it->count ? &it->networks[k] : NULL;
}

/* What was counted of links that are there no more goes on at another of their network: a network's counts only grow. */
static void count_on(gateway *it)
{
    for (size_t k = 0; k < before.count; k++) {
        const network *gone = &before.networks[k];
        network *on = next.fates[k].becomes == IPXR_NO_ONE ? first_of_network(it, gone->set->network) : NULL;
        if (on != NULL)
            counts_add(&on->counts, &gone->counts);
    }
}

static void close_cables(void)
{
    for (size_t k = 0; k < before.count; k++)
        if (next.fates[k].is_closed)
            cable_close(before.networks[k].cable);
}

/* ---- What is new ---- */

static cable *open_cable(gateway *it, const network_setting *set, changed *what)
{
    char words[LINK_ROOM];
    cable *made = &it->cables[it->cable_count++];
    const char *fault = cable_open(made, set);
    if (fault != NULL) {
        complain("ipxr-gateway: line %zu: %s: %s: %s", set->line, link_words(set, words), fault, fault_words());
        what->faults++;
    }
    return made;
}

/* A cable that isn't open is opened for the first network on it. */
static cable *new_cable(gateway *it, size_t number, changed *what)
{
    size_t first = next.origins[number].cable;
    return first == number ? open_cable(it, it->networks[number].set, what) : it->networks[first].cable;
}

/* A network whose link is another one. */
static void begin_link(gateway *it, size_t number, changed *what)
{
    network *on = &it->networks[number];
    if (on->cable == NULL)
        on->cable = new_cable(it, number, what);
    on->lacks = NULL;
    memset(on->told, 0, sizeof on->told);
    if (network_before(number) == NULL)
        what->added++;
    else
        what->reopened++;
    on->is_up = false;
}

/* How many links have another key than before. */
static size_t new_keys(gateway *it)
{
    size_t count = 0;
    for (size_t k = 0; k < it->cable_count; k++) {
        peers *of = it->cables[k].peers;
        count += of != NULL && of->has_new_key;
        if (of != NULL)
            of->has_new_key = false;
    }
    return count;
}

static void begin_links(gateway *it, changed *what)
{
    for (size_t k = 0; k < it->count; k++)
        if (!next.origins[k].is_as_before)
            begin_link(it, k, what);
}

/* ---- The router and segments ---- */

/* The new router takes the place of the one that took leave. */
static void take_router(gateway *it)
{
    static const ipxr NONE = IPXR_NONE;
    if (!next.is_new_router)
        return;
    ipxr_free(&it->router);
    it->router = next.router;
    next.router = NONE;
}

/* The router hears which of its ports are down now. (where it has no memory for it the port's first link is up until the next look, which
 * tells it) */
static void take_ports(gateway *it)
{
    gateway_take_ports(it);
    for (size_t k = 0; k < it->port_count; k++)
        if (!it->ports[k].is_up && ipxr_is_up(&it->router, (uint8_t)k) == 1)
            it->ports[k].is_up = first_of(it, &it->ports[k])->is_up = ipxr_port_down(&it->router, (uint8_t)k) < 0;
}

static void take_segments(gateway *it)
{
    for (size_t k = 0; k < it->port_count; k++) {
        port *router_port = &it->ports[k];
        router_port->segment = next.segments[k];
        if (first_of(it, router_port)->set->is_of_several)
            segment_begin(it, router_port);
    }
}

/* The routes and services of a network's lines are others now, where its router is the same. (all of its links have them) */
static void change_statics(gateway *it)
{
    for (size_t k = 0; !next.is_new_router && k < before.count; k++) {
        const network_setting *was = before.networks[k].set;
        bool is_first = k == 0 || before.networks[k - 1].set->network != was->network;
        network *on = is_first ? first_of_network(it, was->network) : NULL;
        if (on != NULL)
            statics_change(it, on, was);
    }
}

/* ---- Clients ---- */

/* The tunnel of a network: its clients stay as far as they may and can. */
static void change_tunnel(gateway *it, size_t number)
{
    network *on = &it->networks[number];
    size_t was = next.origins[number].was;
    if (was != IPXR_NO_ONE && next.fates[was].ends_tunnel)
        tunnel_end(on);
    throttle_set(&on->throttle, on->set); /* (what may be advertised at once follows the shares) */
    receiver_set(&on->queues, &on->throttle.limits.received); /* (by the same limits what waits stays) */
    if (next.has_tunnel[number])
        tunnel_again(it, on, &next.tunnels[number]);
}

static void change_tunnels(gateway *it, const settings *set, changed *what)
{
    speakers_forget();
    line_set(set);
    for (size_t k = 0; k < it->count; k++) {
        change_tunnel(it, k);
        what->clients += next.origins[k].has_other_clients;
        what->sockets += next.origins[k].has_other_sockets;
    }
}

/* ---- All of it ---- */

static void tell_removed(const network *on)
{
    char link[LINK_ROOM];
    event("%snetwork %08" PRIX32 " is removed: %s", part_of(on), on->set->network, cable_words(on->cable, on->set, link));
    events_removed(on);
}

/* Takes leave of networks that there are no more. */
static void remove_networks(gateway *it, changed *what)
{
    for (size_t k = 0; k < it->count; k++) {
        network *on = &it->networks[k];
        if (next.fates[k].becomes != IPXR_NO_ONE)
            continue;
        if (has_tunnel(on->set))
            tunnel_end(on);
        line_end(&on->speaks.line);
        tell_removed(on);
        what->removed++;
    }
}

/* What waits on links that don't stay as they are goes out there at once. */
static void send_waiting(gateway *it)
{
    for (size_t k = 0; k < it->count; k++) {
        size_t becomes = next.fates[k].becomes;
        if (becomes == IPXR_NO_ONE || !next.origins[becomes].is_as_before)
            ether_send_waiting(&it->networks[k]);
    }
}

/* A router that doesn't stay takes leave, by the links that it had; what waits goes out by them too. Returns false where it has no memory
 * for that. */
static bool takes_leave(gateway *it)
{
    if (next.is_new_router && ipxr_stop(&it->router) < 0)
        return false;
    if (status_is_followed())
        events_second(it); /* (of what is forgotten it is told by which network it was known) */
    gateway_send_all(it);
    gateway_flush(it);
    send_waiting(it);
    return true;
}

changed gateway_change(gateway *it, const settings *set)
{
    if (!plan_make(&next, it, set))
        return (changed){.is_refused = true};
    if (!takes_leave(it)) {
        plan_drop(&next);
        return (changed){.is_refused = true};
    }
    changed what = {.is_new_router = next.is_new_router};
    remove_networks(it, &what);
    for (size_t k = 0; k < it->port_count; k++)
        segment_close(&it->ports[k]);
    keep_before(it);
    move_networks(it, set);
    it->internal = internal_of(set);
    count_on(it);
    close_cables();
    begin_links(it, &what);
    what.keys = new_keys(it);
    take_router(it);
    take_ports(it);
    change_tunnels(it, set, &what);
    take_segments(it);
    loops_change(it);
    for (size_t k = 0; k < it->count; k++)
        what.is_new_router = what.is_new_router || has_new_address(&it->networks[k]);
    gateway_renew(it);
    gateway_tell_nodes(it);
    links_look_at_all(it);
    change_statics(it);
    statics_second(it); /* (at once, before others fill the network's share) */
    gateway_flush(it);
    return what;
}

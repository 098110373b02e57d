#include "configuration/compared.h"

#include <string.h>

#include "links/node.h"
#include "systems/card.h"

/* ---- What differs ---- */

/* Whether two links are carried by the same: in whatever kind of frames. */
static bool has_same_carrier(const network_setting *a, const network_setting *b)
{
    return a->type == b->type && strcmp(a->name, b->name) == 0 && strcmp(a->host, b->host) == 0 && same_address(&a->local, &b->local) &&
           same_address(&a->remote, &b->remote);
}

static bool has_same_link(const network_setting *a, const network_setting *b)
{
    return has_same_carrier(a, b) && a->kind == b->kind;
}

/* Whether the router's port is made from the same, but for the network and what gives it a node. */
static bool has_same_port(const network_setting *a, const network_setting *b)
{
    return a->cost == b->cost && a->longest == b->longest && a->routes == b->routes && a->services == b->services &&
           a->has_node == b->has_node && memcmp(a->node, b->node, sizeof a->node) == 0;
}

static bool same_ranges(const ranges *a, const ranges *b)
{
    size_t k = 0;
    while (k < a->count && k < b->count && a->list[k].bits == b->list[k].bits &&
           memcmp(a->list[k].host, b->list[k].host, sizeof a->list[k].host) == 0)
        k++;
    return k == a->count && k == b->count;
}

/* Whether pages of the same origins are let in. */
static bool same_origins(const network_setting *a, const network_setting *b)
{
    return a->origin_count == b->origin_count && memcmp(a->origins, b->origins, a->origin_count * sizeof *a->origins) == 0;
}

/* Whether a link is with the same other places, in the same order. (another line may say the same) */
static bool same_peers(const network_setting *a, const network_setting *b)
{
    size_t k = 0;
    while (k < a->peer_count && k < b->peer_count && same_address(&a->peers[k].at, &b->peers[k].at) && strcmp(a->peers[k].host, b->peers[k].host) == 0)
        k++;
    return k == a->peer_count && k == b->peer_count;
}

/* Whether the same may be clients, within the same limits. (a link with frames has only a rate and a share, and pages that its
 * clients come from, or other places) */
static bool has_same_clients(const network_setting *a, const network_setting *b)
{
    if (has_tunnel(a) != has_tunnel(b) || !same_origins(a, b) || !same_peers(a, b))
        return false;
    if (!has_tunnel(a))
        return a->rate == b->rate && a->share == b->share;
    return a->clients == b->clients && a->per_address == b->per_address && a->rate == b->rate && a->share == b->share &&
           a->household == b->household && a->kilobits == b->kilobits && a->strangers == b->strangers &&
           a->nodes_by_address == b->nodes_by_address && same_ranges(&a->allowed, &b->allowed) && same_ranges(&a->trusted, &b->trusted);
}

/* (another line may say the same) */
static bool same_route(const ipxr_static_route *a, const ipxr_static_route *b)
{
    return a->route.network == b->route.network && a->route.hops == b->route.hops && a->route.ticks == b->route.ticks &&
           memcmp(a->via, b->via, sizeof a->via) == 0;
}

static bool same_service(const ipxr_static_service *a, const ipxr_static_service *b)
{
    const ipxr_service_entry *one = &a->service, *other = &b->service;
    return one->type == other->type && memcmp(one->name, other->name, sizeof one->name) == 0 && one->network == other->network &&
           memcmp(one->node, other->node, sizeof one->node) == 0 && one->socket == other->socket && one->hops == other->hops &&
           memcmp(a->via, b->via, sizeof a->via) == 0;
}

/* Whether the same routes and services are by way of nodes on the network, in the same order. */
static bool has_same_statics(const network_setting *a, const network_setting *b)
{
    size_t routes = 0, services = 0;
    if (a->static_route_count != b->static_route_count || a->static_service_count != b->static_service_count)
        return false;
    while (routes < a->static_route_count && same_route(&a->static_routes[routes], &b->static_routes[routes]))
        routes++;
    while (services < a->static_service_count && same_service(&a->static_services[services], &b->static_services[services]))
        services++;
    return routes == a->static_route_count && services == a->static_service_count;
}

/* Whether the same goes between the network and others: broadcasts that are copied, what passes the edge, and what is said for nodes there
 * that say nothing themselves. */
static bool has_same_sockets(const network_setting *a, const network_setting *b)
{
    return has_same_statics(a, b) && a->adopts == b->adopts && a->rule_count == b->rule_count && memcmp(a->rules, b->rules, a->rule_count * sizeof *a->rules) == 0 &&
           a->socket_count == b->socket_count && memcmp(a->sockets, b->sockets, a->socket_count * sizeof *a->sockets) == 0;
}

/* ---- Numbers ---- */

/* All links of both configurations: first those that the gateway has. */
typedef struct both {
    const network_setting *list[2 * MOST_LINKS];
    size_t count;
} both;

/* A number for what a link says: the place of the first of both configurations that says the same. */
static uint32_t number_of(const both *all, size_t place, bool (*is_same)(const network_setting *, const network_setting *))
{
    uint32_t k = 0;
    while (!is_same(all->list[k], all->list[place]))
        k++;
    return k;
}

static uint8_t carrier_of(const network_setting *set)
{
    if (has_tunnel(set))
        return IPXR_CARRIER_TUNNEL;
    if (set->type == LINK_INTERFACE)
        return IPXR_CARRIER_CARD;
    return same_link(set, set) ? IPXR_CARRIER_SHARED : IPXR_CARRIER_OWN; /* (a port that is taken free is nobody else's) */
}

/* What is said of a link, but for its node and its place in its network. */
static ipxr_plan_link link_at(const both *all, size_t place)
{
    const network_setting *set = all->list[place];
    return (ipxr_plan_link){
        .network = set->network,
        .carrier = carrier_of(set),
        .udp_port = set->type == LINK_DOSBOX ? set->local.port : 0, /* (by WebSocket clients don't outlast their connections) */
        .number = number_of(all, place, has_same_carrier),
        .frames = set->kind,
        .port = number_of(all, place, has_same_port),
        .clients = number_of(all, place, has_same_clients),
        .sockets = number_of(all, place, has_same_sockets),
        .is_of_several = set->is_of_several,
    };
}

/* The address of a link's card, as far as it is known before the link is opened: zeros where there is none. */
static void expect_card(const gateway *gate, const network_setting *set, uint8_t card[NODE])
{
    unsigned index;
    memset(card, 0, NODE);
    if (set->type != LINK_INTERFACE)
        return;
    for (size_t k = 0; k < gate->count; k++)
        if (gate->networks[k].set->network == set->network && has_same_link(gate->networks[k].set, set)) {
            memcpy(card, gate->networks[k].cable->card, NODE);
            return;
        }
    (void)interface_state(set->name, &index, card);
}

/* Whether a link is the first of its network, or the only one. */
static bool begins_network(const both *all, size_t first, size_t place)
{
    return place == first || all->list[place]->port != all->list[place - 1]->port;
}

/* The port of a tunnel until now: where any that was free was taken, the one that this is, if the new file names it for the network. */
static uint16_t old_port(const gateway *gate, const both *all, size_t place)
{
    const network_setting *set = all->list[place];
    uint16_t taken = gate->networks[place].cable->local.port;
    for (size_t k = gate->count; set->local.port == 0 && k < all->count; k++)
        if (all->list[k]->type == LINK_DOSBOX && all->list[k]->network == set->network && all->list[k]->local.port == taken)
            return taken;
    return set->local.port;
}

static void compare_old(compared *it, const gateway *gate, const both *all)
{
    for (size_t k = 0; k < gate->count; k++) {
        ipxr_plan_link *link = &it->old[k];
        *link = link_at(all, k);
        link->is_first = begins_network(all, 0, k);
        if (all->list[k]->type == LINK_DOSBOX)
            link->udp_port = old_port(gate, all, k);
        memcpy(link->node, gate->networks[k].node, NODE);
        link->has_node = true;
    }
}

/* (on a network of several links the router's node is no card's; on a card that isn't there it isn't known) */
static void compare_new(compared *it, const gateway *gate, const both *all, ipxr_port ports[IPXR_MOST_PORTS])
{
    uint8_t card[NODE] = {0};
    for (size_t k = gate->count; k < all->count; k++) {
        ipxr_plan_link *link = &it->links[k - gate->count];
        const network_setting *set = all->list[k];
        *link = link_at(all, k);
        link->is_first = begins_network(all, gate->count, k);
        if (link->is_first) {
            expect_card(gate, set, card);
            ports[set->port] = node_port(set, card);
        }
        memcpy(link->node, ports[set->port].node, NODE);
        link->has_node = set->type != LINK_INTERFACE || set->is_of_several || !is_no_node(card);
    }
}

void compare(compared *it, const gateway *gate, const settings *set, ipxr_port ports[IPXR_MOST_PORTS])
{
    both all = {.count = 0};
    for (size_t k = 0; k < gate->count; k++)
        all.list[all.count++] = gate->networks[k].set;
    for (size_t k = 0; k < set->count; k++)
        all.list[all.count++] = &set->networks[k];
    compare_old(it, gate, &all);
    compare_new(it, gate, &all, ports);
}

/* How the gateway begins, begins anew, and ends. */
#include <inttypes.h>
#include <string.h>

#include "gateway.h"
#include "ipx.h"
#include "links/among.h"
#include "links/links.h"
#include "links/node.h"
#include "links/segment.h"
#include "links/statics.h"
#include "monitoring/note.h"
#include "monitoring/output.h"
#include "monitoring/status.h"
#include "monitoring/status_page.h"
#include "systems/clock.h"
#include "systems/system.h"
#include "tunnel/nodes.h"
#include "tunnel/tunnel.h"
#include "web/turns.h"

/* ---- Links ---- */

/* The cable of a network: one that is open already, where two networks share it. Each network of an interface has a socket of its own. */
static cable *cable_of(gateway *it, const network_setting *set)
{
    char words[LINK_ROOM];
    for (size_t k = 0; k < it->cable_count; k++)
        if (set->type != LINK_INTERFACE && same_link(it->cables[k].set, set))
            return &it->cables[k];
    cable *made = &it->cables[it->cable_count++];
    const char *fault = cable_open(made, set);
    if (fault == NULL)
        return made;
    const char *reason = fault_words();
    complain("ipxr-gateway: line %zu: %s: %s: %s", set->line, link_words(set, words), fault, reason);
    return NULL;
}

/* The keys of cookies and nodes. (whether a tunnel is there or only comes by a reload) */
static bool make_keys(gateway *it)
{
    if (system_random(it->key, sizeof it->key) && nodes_begin(it->nodes))
        return true;
    complain("ipxr-gateway: the system has no random numbers: %s", fault_words());
    return false;
}

bool gateway_open(gateway *it, const settings *set)
{
    memset(it, 0, sizeof *it);
    if (!make_keys(it))
        return false;
    line_set(set);
    it->internal = internal_of(set);
    for (size_t k = 0; k < set->count; k++) {
        network *on = &it->networks[it->count++];
        on->set = &set->networks[k];
        on->cable = cable_of(it, on->set);
        if (on->cable == NULL)
            return false;
        on->is_up = true;
    }
    gateway_take_ports(it);
    return true;
}

/* The first network that is on the same link, in whatever kind of frames. */
static network *first_on_link(gateway *it, network *on)
{
    network *first = it->networks;
    while (first != on && !same_link(first->set, on->set)) /* (a port that is taken free is nobody else's) */
        first++;
    return first;
}

/* The kinds of frames that a network's own socket hears on an interface: its own. The first one there also hears those that no network has,
 * since it tells that somebody speaks them. */
static unsigned kinds_for_socket(const gateway *it, const network *on)
{
    unsigned others = 0;
    for (size_t k = 0; k < it->count; k++)
        if (&it->networks[k] != on && it->networks[k].of_link == on->of_link)
            others |= kind_bits(it->networks[k].set->kind);
    return on->of_link == &on->queues ? ALL_KINDS & ~others : kind_bits(on->set->kind);
}

static void take_links(gateway *it)
{
    for (size_t k = 0; k < it->count; k++)
        it->networks[k].of_link = &first_on_link(it, &it->networks[k])->queues;
    for (size_t k = 0; k < it->count; k++)
        if (it->networks[k].set->type == LINK_INTERFACE)
            cable_hears(it->networks[k].cable, kinds_for_socket(it, &it->networks[k]));
}

/* Each link with frames has a queue of its own. */
static void number_links(gateway *it)
{
    size_t count = 0;
    for (size_t k = 0; k < it->count; k++)
        if (!has_tunnel(it->networks[k].set))
            speaker_be_network(&it->networks[k].speaks, count++);
}

void gateway_take_ports(gateway *it)
{
    take_links(it);
    number_links(it);
    it->port_count = 0;
    for (size_t k = 0; k < it->count; k++) {
        port *router_port = &it->ports[it->networks[k].set->port];
        if (k == 0 || it->networks[k].set->port != it->networks[k - 1].set->port) {
            it->port_count++;
            *router_port = (port){.first = k, .segment = IPXR_SEGMENT_NONE};
        }
        router_port->count++;
        router_port->is_up = router_port->is_up || it->networks[k].is_up;
    }
}

/* ---- The router ---- */

/* Makes the router with the nodes that the gateway has now, and starts it. Where it can't be made, all is as it was. */
static int32_t make(gateway *it)
{
    ipxr_port ports[IPXR_MOST_PORTS] = {{0}};
    for (size_t k = 0; k < it->port_count; k++) {
        const network *first = first_of(it, &it->ports[k]);
        ports[k] = node_port(first->set, first->cable->card);
    }
    int32_t made = ipxr_make(&it->router, ports, internal_port_add(it->internal, ports, it->port_count));
    for (size_t k = 0; made >= 0 && k < it->count; k++)
        memcpy(it->networks[k].node, ports[it->networks[k].set->port].node, NODE);
    return made < 0 ? made : ipxr_start(&it->router);
}

/* Where each network is: the port of an address that was taken free, and the gateway's node. */
static void tell_start(const gateway *it)
{
    char words[LINK_ROOM], node[WORDS];
    for (size_t k = 0; k < it->count; k++) {
        const network *on = &it->networks[k];
        say("network %08" PRIX32 " on %s, node %s", on->set->network, cable_words(on->cable, on->set, words), node_words(on->node, node));
    }
    if (it->internal != NULL)
        say("network %08" PRIX32 " is the router's own, node %s", it->internal->network, node_words(it->internal->node, node));
}

void gateway_tell_nodes(const gateway *it)
{
    for (size_t k = 0; k < it->count; k++)
        if (has_tunnel(it->networks[k].set))
            nodes_tell();
}

/* Makes the tunnels, and sets the limits of the other links. Returns 0, or the library's fault. */
static int32_t open_tunnels(gateway *it)
{
    int32_t made = 0;
    for (size_t k = 0; made >= 0 && k < it->count; k++) {
        network *on = &it->networks[k];
        if (has_tunnel(on->set))
            made = tunnel_open(it, on);
        else
            throttle_set(&on->throttle, on->set);
    }
    return made;
}

/* Makes the segments of networks of several links. Returns 0, or the library's fault. */
static int32_t open_segments(gateway *it)
{
    int32_t made = 0;
    for (size_t k = 0; made >= 0 && k < it->port_count; k++) {
        port *router_port = &it->ports[k];
        const network *first = first_of(it, router_port);
        if (!first->set->is_of_several)
            continue;
        made = segment_make(&router_port->segment, first->set, router_port->count, first->node);
        if (made >= 0)
            segment_begin(it, router_port);
    }
    return made;
}

bool gateway_start(gateway *it)
{
    char words[WORDS];
    kinds_key(it->key);
    among_key(it->key);
    int32_t made = make(it);
    if (made >= 0)
        made = open_tunnels(it);
    if (made >= 0)
        made = open_segments(it);
    if (made < 0) {
        complain("ipxr-gateway: %s", answer_words(made, words));
        return false;
    }
    it->began = clock_now();
    if (it->began == 0) {
        complain("ipxr-gateway: the clock can't be read: %s", fault_words());
        return false;
    }
    tell_start(it);
    gateway_tell_nodes(it);
    links_look_at_all(it);
    statics_second(it);
    return true;
}

bool has_new_address(const network *on)
{
    return !on->set->is_of_several && !is_no_node(on->cable->card) && !same_node(on->cable->card, on->node);
}

/* Tells the new address of each card that has one. Returns whether any has. */
static bool tell_new_addresses(const gateway *it)
{
    char words[LINK_ROOM], node[WORDS];
    bool has = false;
    for (size_t k = 0; k < it->count; k++) {
        const network *on = &it->networks[k];
        if (!has_new_address(on))
            continue;
        has = true;
        event("network %08" PRIX32 " has another node: %s, node %s", on->set->network, cable_words(on->cable, on->set, words),
              node_words(on->cable->card, node));
    }
    return has;
}

void gateway_renew(gateway *it)
{
    if (!tell_new_addresses(it) && ipxr_is_running(&it->router) == 1)
        return;
    ipxr_stop(&it->router);
    gateway_send_all(it);
    if (make(it) < 0)
        return; /* (no memory: it is tried again with the next second) */
    for (size_t k = 0; k < it->port_count; k++)
        if (!it->ports[k].is_up)
            it->ports[k].is_up = ipxr_port_down(&it->router, (uint8_t)k) < 0; /* (then the next look tells the router) */
    gateway_send_all(it);
    links_look_at_all(it);
    statics_second(it);
}

void gateway_stop(gateway *it)
{
    status_close();
    status_page_close();
    ipxr_stop(&it->router);
    gateway_send_all(it);
    gateway_end_waiting(it);
    ipxr_free(&it->router);
    for (size_t k = 0; k < it->port_count; k++)
        segment_close(&it->ports[k]);
    line_router_end();
    for (size_t k = 0; k < it->count; k++) {
        line_end(&it->networks[k].speaks.line);
        tunnel_close(&it->networks[k]);
    }
    for (size_t k = 0; k < it->cable_count; k++)
        cable_close(&it->cables[k]);
    web_turn(it);
}

#include "configuration/plan.h"

#include <string.h>

#include "configuration/compared.h"
#include "ipx.h"
#include "links/node.h"
#include "links/segment.h"
#include "tunnel/tunnel.h"

/* The number of a port's first link, which there is. */
static size_t first_link(const settings *set, size_t number)
{
    size_t k = 0;
    while (set->networks[k].port != number)
        k++;
    return k;
}

/* ---- What stays ---- */

/* Whether the router's own network stays as it is. */
static bool has_same_internal(const gateway *gate, const settings *set)
{
    const internal_setting *was = gate->internal, *is = internal_of(set);
    if (was == NULL || is == NULL)
        return was == is;
    return was->network == is->network && same_node(was->node, is->node);
}

/* (there are never too many links, and there is room for what is said of all) */
static bool plan_links(plan *it, gateway *gate)
{
    static compared both;
    compare(&both, gate, it->set, it->ports);
    int32_t stays = ipxr_plan(both.old, gate->count, both.links, it->set->count, it->origins, MOST_LINKS, it->fates, MOST_LINKS);
    it->is_new_router = stays != 1 || !has_same_internal(gate, it->set);
    return stays >= 0;
}

/* A router that stays keeps its nodes. */
static void keep_nodes(plan *it, gateway *gate)
{
    for (size_t k = 0; !it->is_new_router && k < it->set->ports; k++)
        memcpy(it->ports[k].node, first_of(gate, &gate->ports[k])->node, NODE);
}

/* ---- The router ---- */

/* (what it has to say waits there until it is the gateway's) */
static int32_t make_router(plan *it)
{
    if (!it->is_new_router)
        return 0;
    int32_t made = ipxr_make(&it->router, it->ports, internal_port_add(internal_of(it->set), it->ports, it->set->ports));
    return made < 0 ? made : ipxr_start(&it->router);
}

/* ---- Segments and tunnels ---- */

static int32_t make_segment(plan *it, size_t number)
{
    size_t first = first_link(it->set, number), count = 0;
    const network_setting *links = &it->set->networks[first];
    while (first + count < it->set->count && links[count].port == number)
        count++;
    return links->is_of_several ? segment_make(&it->segments[number], links, count, it->ports[number].node) : 0;
}

/* (a segment is made anew with each change) */
static int32_t make_segments(plan *it)
{
    int32_t made = 0;
    for (size_t k = 0; made >= 0 && k < it->set->ports; k++)
        made = make_segment(it, k);
    return made;
}

static bool has_other_tunnel(const plan *it, size_t number)
{
    return it->origins[number].tunnel == IPXR_TUNNEL_AGAIN || it->origins[number].tunnel == IPXR_TUNNEL_NEW;
}

static int32_t make_tunnel(plan *it, const gateway *gate, size_t number)
{
    static const network NONE = {.tunnel = IPXR_KEYED_NONE};
    network *on = &it->tunnels[number];
    const network_setting *set = &it->set->networks[number];
    *on = NONE;
    on->set = set;
    memcpy(on->node, it->ports[set->port].node, NODE);
    it->has_tunnel[number] = true;
    return tunnel_open(gate, on);
}

static int32_t make_tunnels(plan *it, const gateway *gate)
{
    int32_t made = 0;
    for (size_t k = 0; made >= 0 && k < it->set->count; k++)
        if (has_other_tunnel(it, k))
            made = make_tunnel(it, gate, k);
    return made;
}

/* ---- All of it ---- */

bool plan_make(plan *it, gateway *gate, const settings *set)
{
    static const ipxr NO_ROUTER = IPXR_NONE;
    static const ipxr_segment NO_SEGMENT = IPXR_SEGMENT_NONE;
    it->set = set;
    it->router = NO_ROUTER;
    for (size_t k = 0; k < IPXR_MOST_PORTS; k++)
        it->segments[k] = NO_SEGMENT;
    memset(it->has_tunnel, 0, sizeof it->has_tunnel);
    if (!plan_links(it, gate))
        return false;
    keep_nodes(it, gate);
    if (make_tunnels(it, gate) >= 0 && make_segments(it) >= 0 && make_router(it) >= 0)
        return true;
    plan_drop(it);
    return false;
}

void plan_drop(plan *it)
{
    for (size_t k = 0; k < it->set->count; k++)
        if (it->has_tunnel[k])
            tunnel_close(&it->tunnels[k]);
    for (size_t k = 0; k < it->set->ports; k++)
        ipxr_segment_free(&it->segments[k]);
    ipxr_free(&it->router);
}

#include "links/edge.h"

#include <inttypes.h>
#include <string.h>

#include "ipx.h"
#include "ipxr_edge.h"
#include "links/statics.h"
#include "monitoring/note.h"
#include "systems/clock.h"

/* What a router's port costs that is asked of the edge alone. */
enum { ANY_COST = 1 };

/* Milliseconds from one line about a router with another number for a cable to the next. */
enum { BETWEEN = 60000 };

/* Where a response says that it answers a query for the nearest service, and that service's type; and how many bytes it has to that. */
enum { AT_OPERATION = HEADER, NEAREST_RESPONSE = 4, AT_SERVICE = HEADER + 2, TO_SERVICE = AT_SERVICE + 2 };

/* Where the service's address begins, behind its name; the hops of a server on the cable itself; and those from which on nothing is reached. */
enum { AT_PLACE = 48, ON_CABLE = 1, UNREACHABLE = 16 };

/* How many services are held against a network's rules in a second, at most, for those who ask for the nearest: what takes some ten milliseconds
 * by 64 rules. */
enum { MOST_HELD = 2048 };

ipxr_port edge_port(const network *on)
{
    ipxr_port it = {.network = on->set->network, .cost = ANY_COST, .longest = on->set->longest};
    memcpy(it.node, on->node, NODE);
    return it;
}

/* Whether a number may lack, as its source's network, or as a service's. (else nothing has to be copied: what was said to clients waits for
 * them as it came) */
static bool may_lack_number(const uint8_t *packet)
{
    return get32(packet + AT_FROM_NETWORK) == 0 || get16(packet + AT_TO_SOCKET) == IPXR_SAP_SOCKET;
}

/* Tells of a router that has another number for the cable, once a minute. (a DOSBox has the number that the gateway gave it) */
static void look_for_claims(network *on, const ipxr_port *at, const uint8_t *packet, size_t length)
{
    char node[WORDS];
    uint32_t number;
    if (has_tunnel(on->set) || ipxr_edge_claim(at, packet, length, &number) != 1)
        return;
    uint64_t now = clock_now();
    if (on->claim_told != 0 && now - on->claim_told < BETWEEN)
        return;
    on->claim_told = now;
    event("network %08" PRIX32 " is network %08" PRIX32 " for router %s there: each cable has one number", on->set->network, number,
          node_words(packet + AT_FROM_NODE, node));
}

/* What the rules of a network let pass of a packet: so many bytes of it, 0 where nothing passes. */
static size_t passes(const network *on, uint8_t way, const ipxr_port *at, uint8_t *packet, size_t length)
{
    size_t left = length;
    if (on->set->rule_count > 0)
        (void)ipxr_edge_filter(way, at, on->set->rules, on->set->rule_count, packet, length, &left);
    return left;
}

/* The packet is copied, where it may be changed. */
static void copy(gateway *it, arrived *what)
{
    memcpy(it->entered, what->packet, what->length);
    what->packet = it->entered;
}

bool edge_holds(const network *on, const uint8_t *packet, size_t length)
{
    const ipxr_port at = edge_port(on);
    return on->set->adopts && ipxr_edge_is_held(&at, packet, length) == 1;
}

reason edge_lets_in(gateway *it, arrived *what)
{
    const network_setting *set = what->on->set;
    const ipxr_port at = edge_port(what->on);
    look_for_claims(what->on, &at, what->packet, what->length);
    if (what->length > LONGEST)
        return REASONS; /* (the router says that it is too long) */
    bool may_name = statics_may_name(it, what->packet);
    if (may_name || set->rule_count > 0 || (set->adopts && may_lack_number(what->packet)))
        copy(it, what);
    if (set->adopts && what->packet == it->entered)
        (void)ipxr_edge_number(&at, it->entered, what->length);
    if (set->rule_count > 0)
        what->length = passes(what->on, IPXR_WAY_IN, &at, it->entered, what->length);
    if (may_name)
        what->length = statics_leave(it, &at, it->entered, what->length);
    return what->length > 0 ? REASONS : DENIED;
}

/* Whether it is an answer to a query for the nearest service. */
static bool names_nearest(const uint8_t *packet, size_t length)
{
    return length >= TO_SERVICE && get16(packet + AT_FROM_SOCKET) == IPXR_SAP_SOCKET && get16(packet + AT_OPERATION) == NEAREST_RESPONSE;
}

/* Whether a server of a type stands on a network's own cable, and speaks for itself. */
static bool has_server(gateway *it, const network *on, uint16_t type)
{
    ipxr_service_record service;
    for (size_t k = 0; ipxr_service(&it->router, k, &service) == 0; k++)
        if (service.port == on->set->port && service.type == type && service.hops <= ON_CABLE && !statics_have(on->set, &service))
            return true;
    return false;
}

/* Whether all stations of a link speak one kind of frames, so that each hears all others. */
static bool is_of_one_kind(const network *on)
{
    static const uint8_t ALL[NODE] = {0xFF, 0xFF, 0xFF, 0xFF, 0xFF, 0xFF};
    unsigned kinds = on->set->kind == ANY_KIND ? kinds_for(&on->kinds, ALL) : 0;
    return (kinds & (kinds - 1)) == 0;
}

/* Whether it is one that a server on the asker's own cable makes needless. (what another router tells of servers behind it makes none: both would
 * wait for each other. And a client of a tunnel could say falsely that there is one) */
static bool is_needless(gateway *it, const network *on, const ipxr_port *at, const uint8_t *packet, size_t length)
{
    bool has_clients = has_tunnel(on->set) || on->set->is_of_several;
    if (has_clients || !on->set->adopts || !names_nearest(packet, length) || !is_of_one_kind(on))
        return false;
    return has_server(it, on, get16(packet + AT_SERVICE)) && ipxr_edge_is_needless(at, ON_CABLE, packet, length) == 1;
}

/* Names another service in an answer to a query for the nearest: as the router tells it, one router further. */
static void name_service(uint8_t *packet, const ipxr_service_record *service)
{
    uint8_t *at = packet + TO_SERVICE;
    memcpy(at, service->name, sizeof service->name);
    put32(at + AT_PLACE, service->network);
    memcpy(at + AT_PLACE + 4, service->node, NODE);
    put16(at + AT_PLACE + 10, service->socket);
    put16(at + AT_PLACE + 12, (uint16_t)(service->hops + 1));
}

/* Whether the router tells a service of that type on a network. */
static bool is_told(const network *on, const ipxr_service_record *service, uint16_t type)
{
    return service->port != on->set->port && service->type == type && service->hops + 1 < UNREACHABLE;
}

/* Whether one more service may be held against a network's rules in this second. */
static bool may_hold(const gateway *it, network *on)
{
    if (on->held_in != it->seconds)
        on->held = 0;
    on->held_in = it->seconds;
    return on->held++ < MOST_HELD;
}

/* The router's answer names a service that the rules deny: it names the nearest of the type that they don't. Returns what goes out of it, 0 where
 * there is none, or where it would take too long to find it. */
static size_t name_permitted(gateway *it, network *on, const ipxr_port *at, uint8_t *packet, size_t length)
{
    uint8_t tried[LONGEST];
    uint16_t fewest = UNREACHABLE, type = get16(packet + AT_SERVICE);
    ipxr_service_record service;
    memcpy(tried, packet, length);
    for (size_t k = 0; ipxr_service(&it->router, k, &service) == 0; k++) {
        if (!is_told(on, &service, type) || service.hops >= fewest)
            continue;
        if (!may_hold(it, on))
            return 0;
        name_service(tried, &service);
        if (passes(on, IPXR_WAY_OUT, at, tried, length) != length)
            continue;
        fewest = service.hops;
        memcpy(packet, tried, length);
    }
    return fewest < UNREACHABLE ? length : 0;
}

size_t edge_lets_out(gateway *it, network *on, uint8_t *packet, size_t length)
{
    const ipxr_port at = edge_port(on);
    size_t left = passes(on, IPXR_WAY_OUT, &at, packet, length);
    if (left == 0 && names_nearest(packet, length))
        left = name_permitted(it, on, &at, packet, length);
    if (left == 0)
        counts_lose(&on->counts, DENIED);
    return left > 0 && is_needless(it, on, &at, packet, left) ? 0 : left;
}

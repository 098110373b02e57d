#include "links/segment.h"

#include <inttypes.h>
#include <string.h>

#include "ipx.h"
#include "monitoring/note.h"
#include "monitoring/output.h"

/* Stations of a link with frames that are known at one time: who makes up nodes there finds no more room. */
enum { STATIONS = 512 };

/* ---- Beginning and end ---- */

/* The most stations of a link that are known: of a tunnel as many as it has clients. */
static uint16_t share_of(const network_setting *link)
{
    return has_tunnel(link) ? link->clients : STATIONS;
}

static uint16_t capacity_of(const network_setting *links, size_t count)
{
    size_t sum = 0;
    for (size_t k = 0; k < count; k++)
        sum += share_of(&links[k]);
    return (uint16_t)(sum < IPXR_MOST_STATIONS ? sum : IPXR_MOST_STATIONS);
}

int32_t segment_make(ipxr_segment *made, const network_setting *links, size_t count, const uint8_t node[NODE])
{
    ipxr_segment_setting set = {.network = links->network, .links = (uint8_t)count, .capacity = capacity_of(links, count)};
    memcpy(set.node, node, NODE);
    return ipxr_segment_make(made, &set);
}

void segment_begin(gateway *it, port *router_port)
{
    network *first = first_of(it, router_port);
    for (size_t k = 0; k < router_port->count; k++) {
        first[k].segment = &router_port->segment;
        first[k].link = (uint8_t)k;
        segment_change(first + k);
    }
}

void segment_close(port *router_port)
{
    ipxr_segment_free(&router_port->segment);
}

/* ---- Links and clients ---- */

void segment_change(network *on)
{
    bool is_tunnel = has_tunnel(on->set);
    ipxr_link to = {.kind = !on->is_up ? IPXR_LINK_DOWN : is_tunnel ? IPXR_LINK_SURE : IPXR_LINK_CABLE, .share = share_of(on->set)};
    ipxr_keyed_member client;
    if (on->segment == NULL)
        return;
    ipxr_segment_change(on->segment, on->link, &to);
    for (size_t k = 0; is_tunnel && ipxr_keyed_client(&on->tunnel, k, &client) == 0; k++)
        ipxr_segment_come(on->segment, on->link, client.node);
}

void segment_client(network *on, const uint8_t node[NODE], bool comes)
{
    if (on->segment != NULL)
        (comes ? ipxr_segment_come : ipxr_segment_leave)(on->segment, on->link, node);
}

/* ---- Packets ---- */

/* Puts a packet on the links that get it, as the library said. Returns how many. */
static size_t put(gateway *it, port *router_port, const origin *by, const uint8_t *from, const uint8_t *to, const uint8_t *packet,
    size_t length)
{
    uint8_t link;
    size_t count = 0;
    for (; ipxr_segment_receiver(&router_port->segment, count, &link) == 0; count++)
        gateway_put(first_of(it, router_port) + link, by, from, to, packet, length);
    return count;
}

heard segment_hear(gateway *it, network *on, const origin *by, const uint8_t *from, const uint8_t *to, const uint8_t *packet, size_t length)
{
    heard what = {.by_router = ipxr_segment_hear(on->segment, on->link, from, to) == 1};
    what.links = put(it, port_of(it, on), by, from, to, packet, length);
    return what;
}

size_t segment_repeat(gateway *it, network *on, const origin *by, const uint8_t *packet, size_t length)
{
    static const uint8_t ALL[NODE] = {0xFF, 0xFF, 0xFF, 0xFF, 0xFF, 0xFF};
    port *router_port = port_of(it, on);
    size_t count = 0;
    for (network *other = first_of(it, router_port); on->is_up && other < first_of(it, router_port) + router_port->count; other++) {
        if (other == on || !other->is_up || other->set->type == LINK_DOSBOX)
            continue;
        gateway_put(other, by, on->node, ALL, packet, length);
        count++;
    }
    return count;
}

void segment_send(gateway *it, port *router_port, const origin *by, const uint8_t *node, const uint8_t *packet, size_t length)
{
    ipxr_segment_send(&router_port->segment, node);
    (void)put(it, router_port, by, first_of(it, router_port)->node, node, packet, length);
}

void segment_next(network *on, const uint8_t *packet, uint8_t node[NODE])
{
    ipxr_address to = {.network = get32(packet + AT_TO_NETWORK), .socket = get16(packet + AT_TO_SOCKET)};
    memcpy(to.node, packet + AT_TO_NODE, NODE);
    ipxr_segment_next_node(on->segment, &to, node);
}

/* ---- Seconds and reports ---- */

void segments_second(gateway *it)
{
    for (size_t k = 0; k < it->port_count; k++)
        ipxr_segment_second(&it->ports[k].segment); /* (where there is none, nothing is done) */
}

/* A station with its link, and with its kind of frames where that isn't said by the link. */
static void show_station(const network *on, const uint8_t station[NODE])
{
    char node[WORDS], link[LINK_ROOM];
    uint8_t kind = on->set->kind == ANY_KIND ? kinds_of(&on->kinds, station) : IPXR_NO_FRAME;
    say("  %s at %s%s%s", node_words(station, node), cable_words(on->cable, on->set, link), kind != IPXR_NO_FRAME ? ", " : "",
        kind_word(kind));
}

static void show_stations_of_any_kind(const network *on)
{
    const ipxr_kind_station *station;
    say("stations on %08" PRIX32 ": %zu", on->set->network, kinds_stations(&on->kinds));
    for (size_t index = 0; (station = kinds_next(&on->kinds, &index)) != NULL;)
        show_station(on, station->node);
}

void stations_show(gateway *it, port *router_port)
{
    ipxr_station station;
    network *first = first_of(it, router_port);
    if (!first->set->is_of_several && first->set->kind == ANY_KIND)
        show_stations_of_any_kind(first);
    if (!first->set->is_of_several)
        return;
    say("stations on %08" PRIX32 ": %zu", first->set->network, ipxr_segment_stations(&router_port->segment));
    for (size_t k = 0; ipxr_segment_station(&router_port->segment, k, &station) == 0; k++)
        show_station(first + station.link, station.node);
}

#include "checks.h"

#include <string.h>

#include "chance.h"
#include "descriptors.h"
#include "fates.h"
#include "files.h"
#include "inside.h"
#include "ipx.h"
#include "names.h"
#include "play.h"
#include "systems/clock.h"
#include "tunnel/nodes.h"
#include "weather.h"

/* Nanoseconds for which a broadcast of the router's waits at most for the one before. */
#define MOST_HELD_UP UINT64_C(4000000000)

/* ---- Descriptors and cables ---- */

static void check_cable(const gateway *it, const cable *at)
{
    size_t users = 0;
    for (size_t k = 0; k < it->count; k++)
        users += it->networks[k].cable == at;
    if (users == 0)
        wrong("a cable has no network");
    if (at->fd >= 0 && descriptor_if_open(at->fd) == NULL)
        wrong("a cable has descriptor %d, which isn't open", at->fd);
    if (at->stream.is_connected && at->fd < 0)
        wrong("a cable without a descriptor is connected");
    if (at->stream.taken > at->stream.in || at->stream.in > STREAM_ROOM || at->stream.out > STREAM_ROOM)
        wrong("a stream has %zu of %zu bytes taken, and %zu to go", at->stream.taken, at->stream.in, at->stream.out);
}

static void check_descriptors(const gateway *it)
{
    size_t count = status_descriptors() + status_page_descriptors() + web_descriptors();
    for (size_t k = 0; k < it->cable_count; k++) {
        check_cable(it, &it->cables[k]);
        count += (it->cables[k].fd >= 0) + (it->cables[k].listener >= 0) + (it->cables[k].says >= 0) + (it->cables[k].plug.call >= 0);
        for (size_t j = 0; j < k; j++)
            if (it->cables[k].fd >= 0 && it->cables[j].fd == it->cables[k].fd)
                wrong("two cables have descriptor %d", it->cables[k].fd);
    }
    if (count != descriptors_open())
        wrong("%zu descriptors are in use, and %zu are open", count, descriptors_open());
}

/* ---- Networks ---- */

/* Each place of the list has queues of its own, taken or not. */
static void check_rooms(const network *on)
{
    static bool is_taken[IPXR_MOST_CLIENTS];
    const roster *list = &on->roster;
    memset(is_taken, 0, list->room * sizeof *is_taken);
    for (size_t k = 0; k < list->room; k++) {
        size_t at = (size_t)(list->list[k].queues - list->queues);
        if (at >= list->room || is_taken[at])
            wrong("client %zu of network %X has the queues of another", k, (unsigned)on->set->network);
        is_taken[at] = true;
    }
}

/* The node of a client is the hash of its place, or that place itself. */
static void check_node(const gateway *it, const network *on, const member *client)
{
    uint8_t node[NODE];
    node_make(it->nodes, client->place, on->set->type == LINK_WEB, node);
    if (!same_node(client->node, node) && !same_node(client->node, client->place))
        wrong("client 10.0.0.%u:%u of network %X has a node that isn't its", client->place[3], get16(client->place + 4),
              (unsigned)on->set->network);
}

/* The list of clients is what the tunnel says. */
static void check_clients(const gateway *it, network *on)
{
    ipxr_keyed_member client;
    const roster *list = &on->roster;
    if (list->count != ipxr_keyed_clients(&on->tunnel))
        wrong("network %X has %zu clients, and %zu are listed", (unsigned)on->set->network, ipxr_keyed_clients(&on->tunnel), list->count);
    for (size_t k = 0; ipxr_keyed_client(&on->tunnel, k, &client) == 0; k++) {
        if (!same_node(list->list[k].place, client.place) || !same_node(list->list[k].node, client.node))
            wrong("client %zu of network %X is another one in the list", k, (unsigned)on->set->network);
        check_node(it, on, &list->list[k]);
        receiver_is_well(list->list[k].queues, "a client");
    }
}

/* The router's broadcasts that wait on a link are as many as are counted, and none is held up for longer than four seconds. */
static void check_paced(const network *on)
{
    const paced_packet *last = NULL, *next = on->paced.first;
    for (size_t k = 0; k < on->paced.count && next != NULL; k++) {
        last = next;
        next = next->next;
    }
    if (on->paced.count > 0 && last != on->paced.last)
        wrong("network %X counts %zu packets that wait, and has others", (unsigned)on->set->network, on->paced.count);
    if (on->paced.count > 0 && on->paced.pace.next > clock_nanoseconds() + MOST_HELD_UP)
        wrong("network %X holds a packet up for longer than four seconds", (unsigned)on->set->network);
}

static void check_tunnel(const gateway *it, network *on)
{
    check_paced(on);
    check_rooms(on);
    bool is_tunnel = has_tunnel(on->set);
    if (is_tunnel || on->roster.count > 0)
        check_clients(it, on);
    if (!is_tunnel && (on->tunnel.made || on->roster.list != NULL || on->strangers.hosts[0] != NULL))
        wrong("network %X is no tunnel, and has something of one", (unsigned)on->set->network);
    if (is_tunnel && on->roster.room != on->set->clients)
        wrong("network %X may have %u clients, and has room for %zu", (unsigned)on->set->network, on->set->clients, on->roster.room);
    if (on->pings.count > on->pings.room || (on->pings.count > 0 && on->set->kilobits == 0))
        wrong("%zu pings wait on network %X, and there is room for %zu", on->pings.count, (unsigned)on->set->network, on->pings.room);
    if (on->again.count > on->again.room || (on->again.count > 0 && on->set->kilobits == 0))
        wrong("%zu pings of strangers wait on network %X", on->again.count, (unsigned)on->set->network);
}

/* The first network that is on the same link shares its queues. */
static void check_queues(const gateway *it, const network *on)
{
    const network *at = it->networks;
    receiver_is_well(&on->queues, "a link");
    while (at < it->networks + it->count && &at->queues != on->of_link)
        at++;
    if (at > on || !(at == on || same_link(at->set, on->set)))
        wrong("network %X has the queues of another link", (unsigned)on->set->network);
}

/* Links with frames have queues of their own. */
static void check_numbers(const gateway *it)
{
    bool is_taken[OF_ADDRESSES] = {false};
    for (size_t k = 0; k < it->count; k++) {
        size_t queue = it->networks[k].speaks.queue;
        if (has_tunnel(it->networks[k].set))
            continue;
        if (queue < OF_NETWORKS || queue >= OF_ADDRESSES)
            wrong("what comes on network %X has queue %zu", (unsigned)it->networks[k].set->network, queue);
        else if (is_taken[queue])
            wrong("what comes on network %X has the queue of another link, %zu", (unsigned)it->networks[k].set->network, queue);
        else
            is_taken[queue] = true;
    }
}

static void check_network(gateway *it, network *on)
{
    const port *at = &it->ports[on->set->port];
    size_t number = (size_t)(on - it->networks);
    if (on->cable < it->cables || on->cable >= it->cables + it->cable_count)
        wrong("network %X has no cable", (unsigned)on->set->network);
    if (on->set->port >= it->port_count || number < at->first || number >= at->first + at->count)
        wrong("network %X isn't of port %u", (unsigned)on->set->network, on->set->port);
    if (on->cable->set->type != on->set->type)
        wrong("network %X has a cable of another kind", (unsigned)on->set->network);
    if (on->outgoing.count > 0)
        wrong("%zu copies wait on network %X after the turn", on->outgoing.count, (unsigned)on->set->network);
    check_tunnel(it, on);
    check_queues(it, on);
}

/* ---- Ports ---- */

/* How many links of a port are tunnels. (a client of two of them is a station of the one where it came first) */
static size_t tunnels_of(const gateway *it, const port *at)
{
    size_t count = 0;
    for (size_t k = at->first; k < at->first + at->count; k++)
        count += has_tunnel(it->networks[k].set);
    return count;
}

/* A link of a segment is what the gateway knows of it, and its clients are stations that are sure. */
static void check_link(gateway *it, network *on)
{
    ipxr_link link;
    ipxr_station station;
    size_t sure = 0;
    bool is_tunnel = has_tunnel(on->set);
    uint8_t kind = !on->is_up ? IPXR_LINK_DOWN : is_tunnel ? IPXR_LINK_SURE : IPXR_LINK_CABLE;
    if (ipxr_segment_link(on->segment, on->link, &link) != 0 || link.kind != kind)
        wrong("link %u of network %X is another one in its segment", on->link, (unsigned)on->set->network);
    for (size_t k = 0; is_tunnel && on->is_up && ipxr_segment_station(on->segment, k, &station) == 0; k++) {
        bool is_here = station.is_sure && station.link == on->link;
        if (is_here && roster_of_node(&on->roster, station.node) == NULL)
            wrong("network %X has a station that is sure, and no client", (unsigned)on->set->network);
        sure += is_here;
    }
    bool are_all = tunnels_of(it, port_of(it, on)) == 1 ? sure == on->roster.count : sure <= on->roster.count;
    if (is_tunnel && on->is_up && !are_all)
        wrong("%zu clients of network %X are stations, and there are %zu", sure, (unsigned)on->set->network, on->roster.count);
}

static void check_segment(gateway *it, port *at)
{
    bool is_of_several = first_of(it, at)->set->is_of_several;
    for (size_t k = 0; k < at->count; k++) {
        network *on = first_of(it, at) + k;
        if (on->segment != NULL && (on->segment != &at->segment || on->link != k || !is_of_several))
            wrong("network %X has the segment of another one", (unsigned)on->set->network);
        if (on->segment != NULL)
            check_link(it, on);
        else if (is_of_several)
            wrong("network %X has no segment", (unsigned)on->set->network);
    }
}

static void check_port(gateway *it, port *at)
{
    bool is_up = false;
    uint8_t number = (uint8_t)(at - it->ports);
    for (size_t k = 0; k < at->count; k++) {
        is_up = is_up || it->networks[at->first + k].is_up;
        if (it->networks[at->first + k].set->port != number)
            wrong("port %u has a network of another one", number);
    }
    if (at->is_up != is_up)
        wrong("port %u is %s, and its links are %s", number, at->is_up ? "up" : "down", is_up ? "up" : "down");
    if (ipxr_is_running(&it->router) == 1 && ipxr_is_up(&it->router, number) != at->is_up)
        wrong("port %u is %s, and the router's is %d", number, at->is_up ? "up" : "down", (int)ipxr_is_up(&it->router, number));
    check_segment(it, at);
}

/* ---- All ---- */

static void check_ports(gateway *it)
{
    size_t links = 0;
    for (size_t k = 0; k < it->port_count; k++) {
        if (it->ports[k].first != links)
            wrong("port %zu begins with link %zu", k, it->ports[k].first);
        check_port(it, &it->ports[k]);
        links += it->ports[k].count;
    }
    if (links != it->count)
        wrong("the ports have %zu links, and there are %zu", links, it->count);
}

void gateway_is_well(gateway *it)
{
    check_descriptors(it);
    if (!is_right_key(it->nodes))
        wrong("the key of nodes isn't the one that is kept, or none at all");
    check_numbers(it);
    for (size_t k = 0; k < it->count; k++)
        check_network(it, &it->networks[k]);
    check_ports(it);
    speakers_are_well(it);
    links_are_well();
    line_is_well(it);
    status_is_well();
    status_page_is_well();
    pages_are_well();
    if (it->room_count > 0 || ipxr_sent(&it->router) > 0)
        wrong("%zu packets wait to be sent, and %zu of the router", it->room_count, ipxr_sent(&it->router));
    if (files_open() > 1)
        wrong("%zu files are open", files_open());
}

void nothing_is_left(size_t blocks)
{
    while (names_asked() > 0)
        name_is_answered();
    if (descriptors_open() > 0)
        wrong("%zu descriptors are open at the end", descriptors_open());
    if (files_open() > 0)
        wrong("%zu files are open at the end", files_open());
    if (!speakers_are_gone() || !line_is_unused())
        wrong("addresses have clients at the end");
    if (blocks_in_use() != blocks)
        wrong("%zu blocks of memory are in use at the end, and %zu were before", blocks_in_use(), blocks);
}

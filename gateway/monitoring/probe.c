#include "monitoring/probe.h"

#include <inttypes.h>
#include <stdio.h>
#include <string.h>

#include "ipx.h"
#include "ipxr_settings.h"
#include "monitoring/note.h"
#include "monitoring/viewer.h"
#include "systems/clock.h"

enum {
    MOST_PINGS = 4,
    MOST_TRACES = 3,
    OWN_SOCKETS = 0x4FE0, /* of what is asked, one for each who asks */
    UNREACHABLE = 16,     /* hops */
};

/* Nanoseconds after which an answer isn't waited for any more. */
#define PATIENCE SECOND_NS

/* The number of the default route. */
#define DEFAULT_ROUTE 0xFFFFFFFEu

/* ---- Words ---- */

/* Whether a word is hexadecimal digits, at most so many. */
static bool is_hexadecimal(const char *word, size_t digits, uint32_t *number)
{
    return ipxr_settings_hexadecimal((const uint8_t *)word, strlen(word), digits, number);
}

/* Reads NETWORK.NODE or NETWORK.NODE.SOCKET. */
static bool is_station(const char *word, ipxr_address *station, bool *has_socket)
{
    char number[9] = "", node[18] = "", port[5] = "";
    uint32_t value = 0;
    int count = sscanf(word, "%8[^.].%17[^.].%4[^.]", number, node, port);
    size_t length = strlen(number) + 1 + strlen(node) + (count > 2 ? 1 + strlen(port) : 0);
    if (count < 2 || length != strlen(word) || !is_hexadecimal(number, 8, &station->network) || !ipxr_settings_node((const uint8_t *)node, strlen(node), station->node))
        return false;
    *has_socket = count > 2;
    if (count > 2 && (!is_hexadecimal(port, 4, &value) || value == 0))
        return false;
    station->socket = (uint16_t)value;
    return station->network != 0;
}

static const char *station_words(const ipxr_address *station, char words[WORDS])
{
    char node[WORDS];
    snprintf(words, WORDS, "%08" PRIX32 ".%.12s", station->network, node_words(station->node, node));
    return words;
}

static const char *times_words(uint64_t nanoseconds, char words[WORDS])
{
    uint64_t microseconds = nanoseconds / 1000;
    snprintf(words, WORDS, "%" PRIu64 ".%03" PRIu64 " ms", microseconds / 1000, microseconds % 1000);
    return words;
}

/* ---- The way ---- */

/* The network of that number; of several links the one of which a node is a client, or one with frames. */
static network *own_network(gateway *it, uint32_t number, const uint8_t node[NODE])
{
    network *found = NULL;
    for (size_t k = 0; k < it->count; k++) {
        network *on = &it->networks[k];
        if (on->set->network != number)
            continue;
        if (has_tunnel(on->set) && roster_of_node(&on->roster, node) != NULL)
            return on;
        if (found == NULL || has_tunnel(found->set))
            found = on;
    }
    return found;
}

/* The router's route to a network, or its default one. */
static bool find_route(gateway *it, uint32_t number, ipxr_route_record *found)
{
    ipxr_route_record route;
    bool has = false;
    for (size_t k = 0; ipxr_route(&it->router, k, &route) == 0; k++)
        if (route.network == number || (route.network == DEFAULT_ROUTE && !has)) {
            *found = route;
            has = true;
        }
    return has;
}

/* The network on which a packet for a station leaves, and the node there that gets it; NULL where there is no way. */
static network *way_to(gateway *it, const ipxr_address *to, uint8_t hop[NODE])
{
    ipxr_route_record route;
    network *own = own_network(it, to->network, to->node);
    memcpy(hop, to->node, NODE);
    if (own != NULL)
        return own;
    if (!find_route(it, to->network, &route))
        return NULL;
    memcpy(hop, route.node, NODE);
    return first_of(it, &it->ports[route.port]);
}

/* Whether it is a client of a tunnel here, which answers as DOSBox does. */
static bool is_dosbox(const probe *p, const network *on)
{
    return !p->has_socket && has_tunnel(on->set) && on->set->network == p->to.network;
}

/* ---- Asking ---- */

/* From now on one asks from the gateway's node on a network. */
static void ask_from(probe *p, const network *on)
{
    p->from.network = on->set->network;
    memcpy(p->from.node, on->node, NODE);
}

/* Sends what was written, and begins to wait for its answer. */
static void ask(gateway *it, probe *p, network *on, const uint8_t hop[NODE], const uint8_t *packet, int32_t length)
{
    if (length < 0)
        return;
    p->count++;
    p->is_awaited = true;
    p->began = clock_nanoseconds();
    gateway_send(it, port_of(it, on), NULL, hop, packet, (size_t)length);
    gateway_flush(it); /* (the packet's bytes don't stay) */
}

/* Asks a station. DOSBox answers at the socket of pings, from there to there, what is for all alone; it is sent to that one. Others are
 * asked for their configuration, as NetWare's diagnostics do: a byte 0 says that nobody is left out. */
static bool ask_station(gateway *it, viewer *v)
{
    static const uint8_t NOBODY_LEFT_OUT[] = {0};
    probe *p = &v->probe;
    uint8_t hop[NODE], packet[HEADER + sizeof NOBODY_LEFT_OUT];
    size_t length = sizeof NOBODY_LEFT_OUT;
    ipxr_address to = p->to;
    network *on = way_to(it, &p->to, hop);
    if (on == NULL || !port_of(it, on)->is_up)
        return false;
    p->asked = p->to;
    if (is_dosbox(p, on)) {
        memset(to.node, IPXR_BROADCAST_BYTE, NODE);
        p->from.socket = PING_SOCKET;
        length = 0;
    }
    ask_from(p, on);
    ask(it, p, on, hop, packet, ipxr_write_packet(&p->from, &to, 0, 0, NOBODY_LEFT_OUT, length, packet, sizeof packet));
    return true;
}

/* Asks the router on the way for its own way to the network. */
static bool ask_router(gateway *it, viewer *v)
{
    probe *p = &v->probe;
    uint8_t packet[HEADER + 16];
    ipxr_route_record route;
    ipxr_route_entry entry = {.network = p->to.network, .hops = 0xFFFF, .ticks = 0xFFFF};
    if (!find_route(it, p->to.network, &route))
        return false;
    network *on = first_of(it, &it->ports[route.port]);
    p->asked = (ipxr_address){.network = on->set->network, .socket = IPXR_RIP_SOCKET};
    memcpy(p->asked.node, route.node, NODE);
    ask_from(p, on);
    ask(it, p, on, route.node, packet, ipxr_write_rip(&p->from, &p->asked, IPXR_RIP_REQUEST, &entry, 1, packet, sizeof packet));
    return true;
}

/* ---- Beginning ---- */

static void begin(viewer *v, bool is_trace, unsigned number)
{
    static const char HERE[] = {FOR_OUTPUT};
    v->probe.is_trace = is_trace;
    v->probe.count = v->probe.answered = 0;
    v->probe.is_awaited = false;
    v->probe.from.socket = (uint16_t)(OWN_SOCKETS + number);
    v->state = PROBES;
    viewer_add(v, HERE, sizeof HERE);
}

/* Whether it is the router's own network, where nobody else is; which is said. */
static bool is_internal(const gateway *it, viewer *v, uint32_t number)
{
    bool is = it->internal != NULL && it->internal->network == number;
    if (is)
        viewer_complain(v, "network %08" PRIX32 " is the router's own: nobody else is there", number);
    return is;
}

void probe_ping(gateway *it, viewer *v, const char *word, unsigned number)
{
    char words[WORDS];
    uint8_t hop[NODE];
    probe *p = &v->probe;
    if (word == NULL || !is_station(word, &p->to, &p->has_socket)) {
        viewer_complain(v, "expected NETWORK.NODE or NETWORK.NODE.SOCKET in hexadecimal digits, such as 00000010.7F0000010BB8");
        return;
    }
    if (is_internal(it, v, p->to.network))
        return;
    network *on = way_to(it, &p->to, hop);
    if (on == NULL || !port_of(it, on)->is_up) {
        const char *why = on == NULL ? "there is no route to network %08" PRIX32 : "the way to network %08" PRIX32 " is down";
        viewer_complain(v, why, p->to.network);
        return;
    }
    if (has_tunnel(on->set) && on->set->network == p->to.network && roster_of_node(&on->roster, p->to.node) == NULL) {
        viewer_complain(v, "%s is no client", station_words(&p->to, words));
        return;
    }
    begin(v, false, number);
    if (!p->has_socket)
        p->to.socket = is_dosbox(p, on) ? PING_SOCKET : DIAGNOSTIC_SOCKET;
    viewer_say(v, "asks %s at socket %04X", station_words(&p->to, words), p->to.socket);
    ask_station(it, v);
}

static void trace_own(gateway *it, viewer *v, const network *own)
{
    char words[LINK_ROOM];
    const port *router_port = port_of(it, own);
    begin(v, true, 0);
    for (const network *on = first_of(it, router_port); on < first_of(it, router_port) + router_port->count; on++)
        viewer_say(v, "network %08" PRIX32 " is the gateway's own, and %s: %s", on->set->network, on->is_up ? "up" : "down",
                   cable_words(on->cable, on->set, words));
    viewer_end(v, router_port->is_up);
}

void probe_trace(gateway *it, viewer *v, const char *word, unsigned number)
{
    char node[WORDS];
    ipxr_route_record route;
    probe *p = &v->probe;
    if (word == NULL || !is_hexadecimal(word, 8, &p->to.network) || p->to.network == 0) {
        viewer_complain(v, "expected the number of a network in hexadecimal digits");
        return;
    }
    if (is_internal(it, v, p->to.network))
        return;
    const network *own = own_network(it, p->to.network, p->to.node);
    if (own != NULL) {
        trace_own(it, v, own);
        return;
    }
    if (!find_route(it, p->to.network, &route)) {
        viewer_complain(v, "there is no route to network %08" PRIX32, p->to.network);
        return;
    }
    begin(v, true, number);
    viewer_say(v, "network %08" PRIX32 ": hops %u ticks %u by %s on %08" PRIX32 "%s, advertised %u s ago", p->to.network, route.hops,
               route.ticks, node_words(route.node, node), port_network(it, route.port),
               route.network == DEFAULT_ROUTE ? ", the default route" : "", route.age);
    ask_router(it, v);
}

/* ---- Answers ---- */

/* What a router says of the network, or that it says nothing of it. */
static void say_way(viewer *v, const uint8_t *data, size_t length, const char *took)
{
    char words[WORDS];
    const probe *p = &v->probe;
    for (size_t entry = 2; entry + 8 <= length; entry += 8) {
        if (get32(data + entry) != p->to.network)
            continue;
        if (get16(data + entry + 4) >= UNREACHABLE)
            viewer_say(v, "%s answers in %s: it can't reach it any more", station_words(&p->asked, words), took);
        else
            viewer_say(v, "%s answers in %s: hops %u ticks %u", station_words(&p->asked, words), took, get16(data + entry + 4),
                       get16(data + entry + 6));
        return;
    }
    viewer_say(v, "%s answers in %s, but not about this network", station_words(&p->asked, words), took);
}

/* Whether a packet goes to where one was asked from, and comes from who was asked. */
static bool is_answer(const probe *p, const uint8_t *packet)
{
    uint32_t to = get32(packet + AT_TO_NETWORK), from = get32(packet + AT_FROM_NETWORK);
    return p->is_awaited && get16(packet + AT_TO_SOCKET) == p->from.socket && same_node(packet + AT_TO_NODE, p->from.node) &&
           (to == 0 || to == p->from.network) && same_node(packet + AT_FROM_NODE, p->asked.node) && (from == 0 || from == p->asked.network);
}

bool probe_hears(viewer *v, const uint8_t *packet, size_t length)
{
    char words[WORDS], took[WORDS];
    probe *p = &v->probe;
    if (!has_length(packet, length) || !is_answer(p, packet))
        return false;
    times_words(clock_nanoseconds() - p->began, took);
    p->is_awaited = false;
    p->answered++;
    if (p->is_trace) {
        say_way(v, packet + HEADER, get16(packet + AT_LENGTH) - HEADER, took);
        viewer_end(v, true);
        return true;
    }
    viewer_say(v, "answer %d from %s in %s, through %u %s", p->count, station_words(&p->asked, words), took, packet[AT_CONTROL],
               packet[AT_CONTROL] == 1 ? "router" : "routers");
    return true;
}

/* ---- Seconds ---- */

/* What becomes of it where one more can't be asked, or enough were. */
static void finish(viewer *v)
{
    const probe *p = &v->probe;
    if (!p->is_trace)
        viewer_say(v, "%d asked, %d answered", p->count, p->answered);
    viewer_end(v, p->answered > 0);
}

void probe_second(gateway *it, viewer *v)
{
    char words[WORDS];
    probe *p = &v->probe;
    if (clock_nanoseconds() - p->began < PATIENCE)
        return;
    if (p->is_awaited && p->is_trace)
        viewer_say(v, "%s doesn't answer", station_words(&p->asked, words));
    else if (p->is_awaited)
        viewer_say(v, "no answer to %d", p->count);
    p->is_awaited = false;
    bool is_more = p->count < (p->is_trace ? MOST_TRACES : MOST_PINGS);
    if (!is_more || !(p->is_trace ? ask_router(it, v) : ask_station(it, v)))
        finish(v);
}

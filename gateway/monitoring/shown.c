#include "monitoring/shown.h"

#include <errno.h>
#include <inttypes.h>
#include <stdio.h>
#include <string.h>

#include "configuration/words.h"
#include "ipx.h"
#include "links/links.h"
#include "monitoring/note.h"
#include "monitoring/recent.h"
#include "peers/calling.h"
#include "systems/clock.h"
#include "systems/system.h"
#include "tunnel/tunnel.h"

enum { LACK_ROOM = 160 /* bytes of what a link lacks, in words */ };

/* ---- Fields ---- */

static void field_network(sheet *s, uint32_t number)
{
    char words[WORDS];
    snprintf(words, sizeof words, "%08" PRIX32, number);
    field_text(s, words);
}

static void field_node(sheet *s, const uint8_t node[6])
{
    char words[WORDS];
    field_text(s, node_words(node, words));
}

static void field_hexadecimal(sheet *s, uint16_t value)
{
    char words[8];
    snprintf(words, sizeof words, "%04X", value);
    field_text(s, words);
}

/* ---- Links ---- */

static const column LINK_COLUMNS[] = {{"network", "NETWORK", 8}, {"state", "STATE", 5}, {"cost", "COST", 5}, {"longest", "LONGEST", 7},
                                      {"node", "NODE", 12}, {"link", "LINK", 40}, {"kinds", "KINDS", 22}, {"lacks", "LACKS", 0}, {0}};

/* What a link lacks, or NULL where it is up. */
static const char *lack_words(const network *on, char words[LACK_ROOM])
{
    int fault;
    const char *lacks = link_lacks(on, &fault);
    if (on->is_up || lacks == NULL)
        return NULL;
    errno = fault;
    snprintf(words, LACK_ROOM, "%s%s%s", lacks, fault != 0 ? ": " : "", fault != 0 ? fault_words() : "");
    return words;
}

/* The kinds of frames in which a broadcast goes out there, or NULL. (by RFC 1234 none does: packets have frames in the gateway alone) */
static const char *kinds_on(const network *on, char words[KINDS_ROOM])
{
    if (on->set->kind == IPXR_NO_FRAME || on->set->type == LINK_RFC1234)
        return NULL;
    return on->set->kind == ANY_KIND ? kinds_words(&on->kinds, words) : kind_word(on->set->kind);
}

/* The router's own network, which no link carries, behind all others. */
static bool next_internal(const gateway *it, cursor *so_far, sheet *s)
{
    if (so_far->network > it->count || it->internal == NULL)
        return false;
    so_far->network++;
    record_begin(s, LINK_COLUMNS);
    field_network(s, it->internal->network);
    field_text(s, "up");
    field_number(s, 1);
    field_number(s, LONGEST);
    field_node(s, it->internal->node);
    field_text(s, "internal");
    field_text(s, NULL);
    field_text(s, NULL);
    record_end(s);
    return true;
}

static bool next_link(gateway *it, cursor *so_far, sheet *s)
{
    char link[LINK_ROOM], lack[LACK_ROOM], kinds[KINDS_ROOM];
    if (so_far->network >= it->count)
        return next_internal(it, so_far, s);
    const network *on = &it->networks[so_far->network++];
    record_begin(s, LINK_COLUMNS);
    field_network(s, on->set->network);
    field_text(s, on->is_up ? "up" : "down");
    field_number(s, on->set->cost);
    field_number(s, on->set->longest);
    field_node(s, on->node);
    field_text(s, cable_words(on->cable, on->set, link));
    field_text(s, kinds_on(on, kinds));
    field_text(s, lack_words(on, lack));
    record_end(s);
    return true;
}

/* ---- Clients ---- */

static const column CLIENT_COLUMNS[] = {{"network", "NETWORK", 8},   {"client", "CLIENT", 12}, {"address", "ADDRESS", 21},
                                        {"trusted", "TRUSTED", 7}, {"heard", "HEARD", 5},    {"not_sent", "NOT-SENT", 8},
                                        {"dropped", "DROPPED", 0}, {0}};

/* All that was dropped of a client, and for it. */
static uint64_t dropped_of(const known_client *client)
{
    uint64_t sum = 0;
    for (int k = 0; k < DROPS; k++)
        sum += client->dropped[k];
    return sum;
}

static bool next_client(gateway *it, cursor *so_far, sheet *s)
{
    known_client client;
    char place[ADDRESS_ROOM];
    while (so_far->network < it->count && !tunnel_client(&it->networks[so_far->network], so_far->index, &client)) {
        so_far->network++;
        so_far->index = 0;
    }
    if (so_far->network >= it->count)
        return false;
    so_far->index++;
    record_begin(s, CLIENT_COLUMNS);
    field_network(s, it->networks[so_far->network].set->network);
    field_node(s, client.node);
    field_text(s, address_words(&client.at, place));
    field_flag(s, client.is_trusted);
    field_number(s, (uint64_t)tunnel_silence(&it->networks[so_far->network], it->seconds, &client));
    field_number(s, client.refused);
    field_number(s, dropped_of(&client));
    record_end(s);
    return true;
}

/* ---- Peers: places that are there, and behind them those that are called ---- */

static const column PEER_COLUMNS[] = {{"network", "NETWORK", 8}, {"peer", "PEER", 21}, {"state", "STATE", 6}, {"heard", "HEARD", 5},
                                      {"in", "IN", 10},         {"out", "OUT", 0},    {0}};

static void show_place(const network *on, const place *it, const address *at, sheet *s)
{
    char where[ADDRESS_ROOM];
    record_begin(s, PEER_COLUMNS);
    field_network(s, on->set->network);
    field_text(s, address_words(at, where));
    field_text(s, "there");
    field_number(s, (clock_now() - it->heard) / 1000);
    field_number(s, it->in);
    field_number(s, it->out);
    record_end(s);
}

static void show_called(const network *on, const called *who, sheet *s)
{
    char where[PEER_ROOM];
    record_begin(s, PEER_COLUMNS);
    field_network(s, on->set->network);
    field_text(s, peer_words(who, where));
    field_text(s, "called");
    for (int k = 0; k < 3; k++)
        field_text(s, NULL);
    record_end(s);
}

/* The next of a network, from one on; `index` goes behind it. Returns false where there is none. */
static bool peer_of(const network *on, size_t *index, sheet *s)
{
    address at;
    const peers *of = on->cable->peers;
    for (; of != NULL && *index < IPXR_MOST_PEERS + of->called_count; ++*index) {
        size_t number = *index;
        if (number < IPXR_MOST_PEERS && peers_where(of, number, &at))
            show_place(on, &of->places[number], &at, s);
        else if (number >= IPXR_MOST_PEERS && !calling_reaches(of, number - IPXR_MOST_PEERS))
            show_called(on, &of->called[number - IPXR_MOST_PEERS], s);
        else
            continue;
        ++*index;
        return true;
    }
    return false;
}

static bool next_peer(gateway *it, cursor *so_far, sheet *s)
{
    while (so_far->network < it->count && !peer_of(&it->networks[so_far->network], &so_far->index, s)) {
        so_far->network++;
        so_far->index = 0;
    }
    return so_far->network < it->count;
}

/* ---- Stations of networks that have several links, and of links of any kind ---- */

static const column STATION_COLUMNS[] = {{"network", "NETWORK", 8}, {"station", "STATION", 12}, {"heard", "HEARD", 5},
                                         {"kind", "KIND", 9}, {"link", "LINK", 0}, {0}};

enum { STATION_LASTS = 300 /* seconds */ };

/* The next station of a port, from one on; `index` goes behind it. Returns its link, or NULL where there is none. */
static const network *station_of(gateway *it, port *of, size_t *index, ipxr_station *station)
{
    const network *first = first_of(it, of);
    if (first->set->is_of_several)
        return ipxr_segment_station(&of->segment, (*index)++, station) == 0 ? first + station->link : NULL;
    const ipxr_kind_station *next = kinds_next(&first->kinds, index);
    if (next == NULL)
        return NULL;
    *station = (ipxr_station){.seconds_left = next->left};
    memcpy(station->node, next->node, sizeof station->node);
    return first;
}

/* The words of a station's kind of frames, or NULL. */
static const char *kind_on(const network *on, const uint8_t node[6])
{
    uint8_t kind = on->set->kind == ANY_KIND ? kinds_of(&on->kinds, node) : on->set->kind;
    return kind != IPXR_NO_FRAME ? kind_word(kind) : NULL;
}

static bool next_station(gateway *it, cursor *so_far, sheet *s)
{
    char link[LINK_ROOM];
    ipxr_station station;
    const network *on = NULL;
    while (so_far->network < it->port_count && (on = station_of(it, &it->ports[so_far->network], &so_far->index, &station)) == NULL) {
        so_far->network++;
        so_far->index = 0;
    }
    if (on == NULL)
        return false;
    record_begin(s, STATION_COLUMNS);
    field_network(s, on->set->network);
    field_node(s, station.node);
    if (station.is_sure)
        field_text(s, NULL);
    else
        field_number(s, STATION_LASTS - station.seconds_left);
    field_text(s, kind_on(on, station.node));
    field_text(s, cable_words(on->cable, on->set, link));
    record_end(s);
    return true;
}

/* ---- Routes and services ---- */

static const column ROUTE_COLUMNS[] = {{"network", "NETWORK", 8}, {"hops", "HOPS", 4}, {"ticks", "TICKS", 5},
                                       {"by", "BY", 12},          {"on", "ON", 8},     {"age", "AGE", 0}, {0}};

static bool next_route(gateway *it, cursor *so_far, sheet *s)
{
    ipxr_route_record route;
    if (ipxr_route(&it->router, so_far->index, &route) != 0)
        return false;
    so_far->index++;
    record_begin(s, ROUTE_COLUMNS);
    field_network(s, route.network);
    field_number(s, route.hops);
    field_number(s, route.ticks);
    field_node(s, route.node);
    field_network(s, port_network(it, route.port));
    field_number(s, route.age);
    record_end(s);
    return true;
}

static const column SERVICE_COLUMNS[] = {{"type", "TYPE", 4},     {"name", "NAME", 24}, {"network", "NETWORK", 8},
                                         {"node", "NODE", 12},    {"socket", "SOCKET", 6}, {"hops", "HOPS", 4},
                                         {"by", "BY", 12},        {"on", "ON", 8},      {"age", "AGE", 0}, {0}};

static bool next_service(gateway *it, cursor *so_far, sheet *s)
{
    ipxr_service_record service;
    if (ipxr_service(&it->router, so_far->index, &service) != 0)
        return false;
    so_far->index++;
    record_begin(s, SERVICE_COLUMNS);
    field_hexadecimal(s, service.type);
    field_name(s, service.name, strnlen((const char *)service.name, sizeof service.name));
    field_network(s, service.network);
    field_node(s, service.node);
    field_hexadecimal(s, service.socket);
    field_number(s, service.hops);
    field_node(s, service.neighbour);
    field_network(s, port_network(it, service.port));
    field_number(s, service.age);
    record_end(s);
    return true;
}

/* ---- Events ---- */

static const column EVENT_COLUMNS[] = {{0}};

/* (they are kept as objects of JSON) */
static bool next_event(gateway *it, cursor *so_far, sheet *s)
{
    (void)it;
    const char *event = recent_next(&so_far->index);
    if (event == NULL)
        return false;
    sheet_put(s, "%s", event);
    return true;
}

/* ---- Sections ---- */

static const struct {
    const char *word;
    const column *columns;
    bool (*next)(gateway *it, cursor *so_far, sheet *s);
} SECTIONS[] = {
    {"links", LINK_COLUMNS, next_link},    {"clients", CLIENT_COLUMNS, next_client},    {"stations", STATION_COLUMNS, next_station},
    {"peers", PEER_COLUMNS, next_peer},
    {"routes", ROUTE_COLUMNS, next_route}, {"services", SERVICE_COLUMNS, next_service}, {"edge", EDGE_COLUMNS, shown_edge},
    {"counts", COUNT_COLUMNS, shown_count}, {"events", EVENT_COLUMNS, next_event},
};
enum { WITH_EVENTS = sizeof SECTIONS / sizeof *SECTIONS, SECTION_COUNT = WITH_EVENTS - 1 };

bool shown_begin(cursor *so_far, const char *word)
{
    memset(so_far, 0, sizeof *so_far);
    so_far->is_whole = word == NULL;
    so_far->behind = SECTION_COUNT;
    if (word == NULL)
        return true;
    while (so_far->section < SECTION_COUNT && strcmp(SECTIONS[so_far->section].word, word) != 0)
        so_far->section++;
    so_far->behind = so_far->section + 1;
    return so_far->section < SECTION_COUNT;
}

void shown_begin_with_events(cursor *so_far)
{
    shown_begin(so_far, NULL);
    so_far->has_events = true;
    so_far->behind = WITH_EVENTS;
}

/* What stands before all sections. */
static void begin_all(const gateway *it, const cursor *so_far, sheet *s)
{
    uint64_t now = clock_now();
    sheet_put(s, "{\"release\": \"%s\", \"seconds\": %" PRIu64 ",\n", IPXR_RELEASE, (now - it->began) / 1000);
    if (so_far->has_events)
        sheet_put(s, "\"clock\": %" PRIu64 ".%03" PRIu64 ",\n", now / 1000, now % 1000);
}

/* What stands before a section, or is its headings. */
static void begin_section(gateway *it, cursor *so_far, sheet *s)
{
    if (s->form == AS_JSON && so_far->is_whole && so_far->section == 0)
        begin_all(it, so_far, s);
    if (s->form == AS_JSON && so_far->is_whole)
        sheet_put(s, "\"%s\": ", SECTIONS[so_far->section].word);
    if (s->form == AS_JSON)
        sheet_put(s, "[");
    else if (so_far->is_whole && so_far->section > 0)
        sheet_put(s, "\n");
    sheet_headings(s, SECTIONS[so_far->section].columns);
    so_far->has_begun = true;
}

/* What stands behind it; the next one begins. */
static void end_section(cursor *so_far, sheet *s)
{
    so_far->section++;
    if (s->form == AS_JSON && so_far->is_whole)
        sheet_put(s, "]%s\n", so_far->section < so_far->behind ? "," : "}");
    else if (s->form == AS_JSON)
        sheet_put(s, "]\n");
    so_far->has_begun = false;
    so_far->written = so_far->network = so_far->index = 0;
}

bool shown_next(gateway *it, cursor *so_far, sheet *s)
{
    if (s->form == AS_PROMETHEUS)
        return shown_metric(it, so_far, s);
    if (so_far->section == so_far->behind)
        return false;
    if (!so_far->has_begun) {
        begin_section(it, so_far, s);
        return true;
    }
    size_t before = s->count;
    if (s->form == AS_JSON)
        sheet_put(s, so_far->written > 0 ? ",\n" : "\n");
    if (SECTIONS[so_far->section].next(it, so_far, s)) {
        so_far->written++;
        return true;
    }
    s->count = before;
    end_section(so_far, s);
    return true;
}

#include "configuration/settings.h"

#include <errno.h>
#include <stdlib.h>
#include <string.h>

#include "configuration/reader.h"
#include "configuration/words.h"
#include "ipx.h"
#include "systems/card.h"
#include "systems/system.h"

/* The kinds of frames; the first stands for the tunnel, and the last for all of them. */
static const char KINDS[][KIND_ROOM] = {"", "ethernet2", "raw", "llc", "snap", "auto"};

/* (one more kind of the library needs its word, and each of its lists has room here) */
typedef char has_word_for_each_kind[sizeof KINDS / sizeof *KINDS == ANY_KIND + 1 ? 1 : -1];
typedef char has_room_for_all[IPXR_ALL_LINKS <= MOST_LINKS && IPXR_ALL_SOCKETS <= MOST_SOCKETS && IPXR_ALL_RANGES <= MOST_RANGES &&
                              IPXR_ALL_RULES <= MOST_RULES && IPXR_ALL_STATIC_ROUTES <= MOST_STATICS &&
                              IPXR_ALL_STATIC_SERVICES <= MOST_STATICS && IPXR_ALL_ORIGINS <= MOST_ORIGINS &&
                              sizeof(ipxr_origin) == ORIGIN_ROOM && IPXR_ALL_PEERS <= MOST_PEERS ? 1 : -1];

const char *kind_word(uint8_t kind)
{
    return KINDS[kind];
}

/* ---- What all lines say ---- */

/* What carries a link, by the library's number. */
static const link_type CARRIERS[] = {
    [IPXR_OVER_UDP] = LINK_QEMU_UDP, [IPXR_OVER_LISTEN] = LINK_QEMU_LISTEN, [IPXR_OVER_CONNECT] = LINK_QEMU_CONNECT,
    [IPXR_OVER_TAP] = LINK_TAP, [IPXR_OVER_INTERFACE] = LINK_INTERFACE, [IPXR_OVER_TUNNEL] = LINK_DOSBOX,
    [IPXR_OVER_GROUP] = LINK_QEMU_MCAST, [IPXR_OVER_SWITCH] = LINK_VDE, [IPXR_OVER_WEB] = LINK_WEB, [IPXR_OVER_PEERS] = LINK_PEERS,
    [IPXR_OVER_RFC1234] = LINK_RFC1234,
};

address address_said(const ipxr_setting_host *said)
{
    address it = {.is_six = said->is_six, .port = said->port};
    memcpy(it.host, said->four, sizeof it.host);
    for (size_t k = 0; k < 8; k++)
        put16(it.six + 2 * k, said->six[k]);
    return it;
}

static void take_carrier(network_setting *it, const ipxr_carrier *said)
{
    it->type = CARRIERS[said->number];
    it->kind = said->number == IPXR_OVER_RFC1234 ? IPXR_FRAME_ETHERNET2 : said->frames; /* (whose packets are framed here) */
    it->local = address_said(&said->local);
    it->remote = address_said(&said->remote);
    memcpy(it->host, said->host, sizeof it->host);
    memcpy(it->name, said->name, sizeof it->name);
}

static void take_ranges(ranges *into, const ipxr_setting_ranges *said)
{
    for (into->count = 0; into->count < said->count; into->count++) {
        memcpy(into->list[into->count].host, said->list[into->count].first, sizeof said->list->first);
        into->list[into->count].bits = said->list[into->count].bits;
    }
}

static void take_origins(network_setting *it, const ipxr_origins *said)
{
    it->origin_count = said->count;
    memcpy(it->origins, said->list, said->count * sizeof *it->origins);
}

/* Whether a link is with the other places that its network's lines say. */
static bool is_with_peers(const network_setting *it)
{
    return it->type == LINK_PEERS || it->type == LINK_RFC1234;
}

static void take_peers(network_setting *it, const ipxr_setting_peers *said)
{
    it->peer_count = is_with_peers(it) ? said->count : 0;
    for (size_t k = 0; k < it->peer_count; k++) {
        it->peers[k].line = said->list[k].line;
        it->peers[k].at = address_said(&said->list[k].at);
        memcpy(it->peers[k].host, said->list[k].host, sizeof it->peers[k].host);
    }
}

static void take_statics(network_setting *it, const ipxr_configured *said)
{
    it->static_route_count = said->static_routes.count;
    memcpy(it->static_routes, said->static_routes.list, said->static_routes.count * sizeof *it->static_routes);
    it->static_service_count = said->static_services.count;
    memcpy(it->static_services, said->static_services.list, said->static_services.count * sizeof *it->static_services);
}

static void take_link(network_setting *it, const ipxr_configured *said)
{
    it->line = said->line;
    it->is_of_several = said->is_of_several;
    it->port = (uint8_t)said->port;
    it->network = said->number;
    it->cost = said->cost;
    it->longest = said->longest;
    it->routes = said->routes;
    it->services = said->services;
    it->has_node = said->has_node;
    memcpy(it->node, said->node, sizeof it->node);
    take_carrier(it, &said->carrier);
    it->socket_count = said->sockets.count;
    memcpy(it->sockets, said->sockets.list, sizeof said->sockets.list);
    it->adopts = said->adopts;
    it->rule_count = said->rules.count;
    memcpy(it->rules, said->rules.list, said->rules.count * sizeof *it->rules);
    take_statics(it, said);
    it->clients = said->clients;
    it->per_address = said->of_address;
    it->rate = said->rate;
    it->share = said->share;
    it->household = said->household;
    it->strangers = said->strangers;
    it->kilobits = said->kilobits;
    take_ranges(&it->allowed, &said->allowed);
    take_ranges(&it->trusted, &said->trusted);
    take_origins(it, &said->origins);
    take_peers(it, &said->peers);
    it->nodes_by_address = said->nodes_by_address;
}

static void take_internal(settings *it, const ipxr_configuration *all)
{
    ipxr_internal said;
    it->has_internal = ipxr_configuration_internal(all, &said);
    if (!it->has_internal)
        return;
    it->internal.line = said.line;
    it->internal.network = said.number;
    memcpy(it->internal.node, said.node, sizeof it->internal.node);
}

static void take_all(settings *it, const ipxr_configuration *all)
{
    ipxr_configured said;
    while (ipxr_configuration_link(all, it->count, &said))
        take_link(&it->networks[it->count++], &said);
    it->ports = all->networks.count;
    take_internal(it, all);
}

const internal_setting *internal_of(const settings *set)
{
    return set->has_internal ? &set->internal : NULL;
}

/* Whether each link that says the same is on the same: with port 0 each has a port of its own, and so have pages and peers, which are each network's
 * own. */
static bool is_fixed(const network_setting *it)
{
    return (it->local.port != 0 && it->type != LINK_WEB && it->type != LINK_PEERS) || it->type == LINK_QEMU_CONNECT || it->type == LINK_QEMU_MCAST || it->type == LINK_VDE ||
           it->name[0] != '\0';
}

bool same_link(const network_setting *a, const network_setting *b)
{
    return a->type == b->type && strcmp(a->name, b->name) == 0 && strcmp(a->host, b->host) == 0 &&
           same_address(&a->remote, &b->remote) && same_address(&a->local, &b->local) && is_fixed(a);
}

/* ---- Lines ---- */

static void read_line(reader *r, const char *text, size_t length)
{
    r->text = text;
    r->length = length;
    r->expected = ipxr_configuration_line(&r->all, (const uint8_t *)text, length, r->line, has_cards(), &r->said, &r->wrong);
    reader_tell_unlinked(r, r->wrong.unlinked);
    reader_tell(r);
}

static void read_text(reader *r, char *text, size_t length)
{
    if (strlen(text) != length)
        reader_fault(r, text, "expected text, there is a byte 0 behind it");
    else
        read_line(r, text, length);
}

/* Reads all lines, as long as they aren't too much; returns false where the file fails. */
static bool read_lines(reader *r, FILE *file)
{
    char line[LINE_ROOM], *text;
    size_t length;
    errno = 0;
    while ((length = reader_line(r, file, line)) > 0) {
        text = r->line == 1 ? reader_begin(r, line, &length) : line;
        if (text == NULL)
            break;
        read_text(r, text, length);
    }
    return !ferror(file);
}

size_t settings_read(settings *it, FILE *file, const char *name, FILE *complaints)
{
    reader r = {.name = name, .complaints = complaints};
    memset(it, 0, sizeof *it);
    if (read_lines(&r, file))
        reader_tell_unlinked(&r, ipxr_configuration_unlinked(&r.all));
    else {
        fprintf(complaints, "%s: can't be read: %s\n", name, fault_words());
        r.faults++;
    }
    take_all(it, &r.all);
    if (r.faults == 0 && it->count == 0) {
        fprintf(complaints, "%s: expected a line that begins with network\n", name);
        r.faults++;
    }
    return r.faults;
}

/* ---- What a link is called ---- */

/* What carries a link, as the library has it. */
static const uint8_t OVER[] = {
    [LINK_DOSBOX] = IPXR_OVER_TUNNEL, [LINK_QEMU_UDP] = IPXR_OVER_UDP, [LINK_QEMU_LISTEN] = IPXR_OVER_LISTEN,
    [LINK_QEMU_CONNECT] = IPXR_OVER_CONNECT, [LINK_TAP] = IPXR_OVER_TAP, [LINK_INTERFACE] = IPXR_OVER_INTERFACE,
    [LINK_QEMU_MCAST] = IPXR_OVER_GROUP, [LINK_VDE] = IPXR_OVER_SWITCH, [LINK_WEB] = IPXR_OVER_WEB, [LINK_PEERS] = IPXR_OVER_PEERS,
    [LINK_RFC1234] = IPXR_OVER_RFC1234,
};

const char *link_words(const network_setting *it, char words[LINK_ROOM])
{
    ipxr_setting_link link = {.carrier = OVER[it->type], .frames = it->kind};
    link.local = library_address(&it->local);
    link.remote = library_address(&it->remote);
    memcpy(link.host, it->host, sizeof link.host);
    memcpy(link.name, it->name, sizeof link.name);
    words[ipxr_settings_link_words(&link, (uint8_t *)words, IPXR_LONGEST_LINK)] = '\0';
    return words;
}

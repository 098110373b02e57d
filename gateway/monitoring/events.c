#include "monitoring/events.h"

#include <errno.h>
#include <inttypes.h>
#include <string.h>

#include "configuration/words.h"
#include "links/links.h"
#include "monitoring/note.h"
#include "monitoring/recent.h"
#include "monitoring/sheet.h"
#include "monitoring/status.h"
#include "monitoring/status_page.h"
#include "systems/clock.h"
#include "systems/system.h"

/* An event, in both forms. */
typedef struct {
    char line_room[MOST_RECORD], json_room[MOST_RECORD];
    sheet line, json;
} happening;

/* Begins with the time, and what it is of: its first words. */
static void begin(happening *h, const char *what)
{
    uint64_t now = clock_now();
    h->line = (sheet){.text = h->line_room, .room = sizeof h->line_room, .form = AS_COLUMNS};
    h->json = (sheet){.text = h->json_room, .room = sizeof h->json_room, .form = AS_JSON};
    sheet_put(&h->line, "%" PRIu64 ".%03" PRIu64 " ", now / 1000, now % 1000);
    sheet_put(&h->json, "{\"seconds\": %" PRIu64 ".%03" PRIu64 ", \"event\": \"%s\"", now / 1000, now % 1000, what);
}

static void tell(happening *h)
{
    sheet_put(&h->line, "\n");
    sheet_put(&h->json, "}\n");
    status_tell(h->line_room, h->json_room);
    if (status_page_is_open())
        recent_keep(h->json_room);
}

bool events_are_followed(void)
{
    return status_page_is_open() || status_is_followed();
}

/* ---- Fields of JSON ---- */

static void put_bytes(happening *h, const char *key, const char *bytes, size_t count)
{
    sheet_put(&h->json, ", \"%s\": \"", key);
    sheet_json(&h->json, (const uint8_t *)bytes, count);
    sheet_put(&h->json, "\"");
}

static void put_text(happening *h, const char *key, const char *text)
{
    put_bytes(h, key, text, strlen(text));
}

static void put_network(happening *h, const char *key, uint32_t number)
{
    sheet_put(&h->json, ", \"%s\": \"%08" PRIX32 "\"", key, number);
}

static void put_number(happening *h, const char *key, unsigned number)
{
    sheet_put(&h->json, ", \"%s\": %u", key, number);
}

/* ---- Clients and links ---- */

void events_client(const network *on, const uint8_t node[6], const address *at, bool comes)
{
    char words[WORDS], where[ADDRESS_ROOM];
    happening h;
    if (!events_are_followed())
        return;
    begin(&h, comes ? "client comes" : "client leaves");
    sheet_put(&h.line, "client %s %s %08" PRIX32 ", %s", node_words(node, words), comes ? "comes to" : "leaves", on->set->network,
              address_words(at, where));
    put_network(&h, "network", on->set->network);
    put_text(&h, "client", words);
    put_text(&h, "address", where);
    tell(&h);
}

void events_place(const network *on, const address *at, place_event what)
{
    static const char *const EVENTS[] = {[PLACE_COMES] = "peer comes", [PLACE_LEAVES] = "peer leaves", [PLACE_MOVES] = "peer moves"};
    static const char *const WORDS_OF[] = {[PLACE_COMES] = "comes to", [PLACE_LEAVES] = "leaves", [PLACE_MOVES] = "moves on"};
    char where[ADDRESS_ROOM];
    happening h;
    if (!events_are_followed())
        return;
    begin(&h, EVENTS[what]);
    sheet_put(&h.line, "peer %s %s %08" PRIX32, address_words(at, where), WORDS_OF[what], on->set->network);
    put_network(&h, "network", on->set->network);
    put_text(&h, "address", where);
    tell(&h);
}

void events_link(const network *on)
{
    char link[LINK_ROOM];
    happening h;
    const cable *carrier = on->cable;
    int fault;
    const char *lacks = link_lacks(on, &fault);
    if (!events_are_followed())
        return;
    begin(&h, on->is_up ? "link up" : "link down");
    sheet_put(&h.line, "%snetwork %08" PRIX32 " is %s: %s", part_of(on), on->set->network, on->is_up ? "up" : "down",
              cable_words(carrier, on->set, link));
    put_network(&h, "network", on->set->network);
    put_text(&h, "link", link);
    if (!on->is_up && lacks != NULL) {
        errno = fault;
        const char *why = fault != 0 ? fault_words() : "";
        sheet_put(&h.line, ": %s%s%s", lacks, fault != 0 ? ": " : "", why);
        put_text(&h, "lacks", lacks);
        if (fault != 0)
            put_text(&h, "fault", why);
    }
    tell(&h);
}

void events_removed(const network *on)
{
    char link[LINK_ROOM];
    happening h;
    if (!events_are_followed())
        return;
    cable_words(on->cable, on->set, link);
    begin(&h, "link removed");
    sheet_put(&h.line, "%snetwork %08" PRIX32 " is removed: %s", part_of(on), on->set->network, link);
    put_network(&h, "network", on->set->network);
    put_text(&h, "link", link);
    tell(&h);
}

/* ---- Routes ---- */

/* What the router knew when one looked last; the network of each port by its number, since ports may be others by now. */
static struct {
    ipxr_route_record routes[IPXR_MOST_ROUTES];
    ipxr_service_record services[IPXR_MOST_SERVICES];
    size_t route_count, service_count;
} known;

static void tell_route(const gateway *it, const ipxr_route_record *route, const char *what, const char *event)
{
    char node[WORDS];
    happening h;
    begin(&h, event);
    sheet_put(&h.line, "route %08" PRIX32 " %s: hops %u ticks %u by %s on %08" PRIX32, route->network, what, route->hops, route->ticks,
              node_words(route->node, node), port_network(it, route->port));
    put_network(&h, "network", route->network);
    put_number(&h, "hops", route->hops);
    put_number(&h, "ticks", route->ticks);
    put_text(&h, "by", node);
    put_network(&h, "on", port_network(it, route->port));
    tell(&h);
}

static bool same_route(const ipxr_route_record *a, const ipxr_route_record *b)
{
    return a->hops == b->hops && a->ticks == b->ticks && a->port == b->port && memcmp(a->node, b->node, sizeof a->node) == 0;
}

/* Tells how a route differs from those that were known before; both are in the order of their networks. Goes behind what is looked at. */
static size_t tell_next_route(const gateway *it, size_t before, const ipxr_route_record *now)
{
    for (; before < known.route_count && (now == NULL || known.routes[before].network < now->network); before++)
        tell_route(it, &known.routes[before], "goes", "route goes");
    if (now == NULL)
        return before;
    bool was_there = before < known.route_count && known.routes[before].network == now->network;
    if (!was_there)
        tell_route(it, now, "comes", "route comes");
    else if (!same_route(&known.routes[before], now))
        tell_route(it, now, "changes", "route changes");
    return before + was_there;
}

static void look_at_routes(gateway *it)
{
    static ipxr_route_record now[IPXR_MOST_ROUTES];
    size_t before = 0, count = 0;
    for (; count < IPXR_MOST_ROUTES && ipxr_route(&it->router, count, &now[count]) == 0; count++)
        before = tell_next_route(it, before, &now[count]);
    tell_next_route(it, before, NULL);
    memcpy(known.routes, now, count * sizeof *now);
    known.route_count = count;
}

/* ---- Services ---- */

static void tell_service(const gateway *it, const ipxr_service_record *service, const char *what, const char *event)
{
    char node[WORDS], by[WORDS];
    size_t length = strnlen((const char *)service->name, sizeof service->name);
    happening h;
    begin(&h, event);
    sheet_put(&h.line, "service %04X ", service->type);
    sheet_word(&h.line, service->name, length);
    sheet_put(&h.line, " %s: %08" PRIX32 ".%s.%04X hops %u by %s on %08" PRIX32, what, service->network, node_words(service->node, node),
              service->socket, service->hops, node_words(service->neighbour, by), port_network(it, service->port));
    sheet_put(&h.json, ", \"type\": \"%04X\"", service->type);
    put_bytes(&h, "name", (const char *)service->name, length);
    put_network(&h, "network", service->network);
    put_text(&h, "node", node);
    sheet_put(&h.json, ", \"socket\": \"%04X\"", service->socket);
    put_number(&h, "hops", service->hops);
    put_text(&h, "by", by);
    put_network(&h, "on", port_network(it, service->port));
    tell(&h);
}

/* The order in which the library gives services: by their type, then by their name. */
static int order_of(const ipxr_service_record *a, const ipxr_service_record *b)
{
    return a->type != b->type ? (a->type < b->type ? -1 : 1) : memcmp(a->name, b->name, sizeof a->name);
}

static bool same_service(const ipxr_service_record *a, const ipxr_service_record *b)
{
    return a->network == b->network && a->socket == b->socket && a->hops == b->hops && a->port == b->port &&
           memcmp(a->node, b->node, sizeof a->node) == 0 && memcmp(a->neighbour, b->neighbour, sizeof a->neighbour) == 0;
}

static size_t tell_next_service(const gateway *it, size_t before, const ipxr_service_record *now)
{
    for (; before < known.service_count && (now == NULL || order_of(&known.services[before], now) < 0); before++)
        tell_service(it, &known.services[before], "goes", "service goes");
    if (now == NULL)
        return before;
    bool was_there = before < known.service_count && order_of(&known.services[before], now) == 0;
    if (!was_there)
        tell_service(it, now, "comes", "service comes");
    else if (!same_service(&known.services[before], now))
        tell_service(it, now, "changes", "service changes");
    return before + was_there;
}

static void look_at_services(gateway *it)
{
    static ipxr_service_record now[IPXR_MOST_SERVICES];
    size_t before = 0, count = 0;
    for (; count < IPXR_MOST_SERVICES && ipxr_service(&it->router, count, &now[count]) == 0; count++)
        before = tell_next_service(it, before, &now[count]);
    tell_next_service(it, before, NULL);
    memcpy(known.services, now, count * sizeof *now);
    known.service_count = count;
}

void events_second(gateway *it)
{
    look_at_routes(it);
    look_at_services(it);
}

/* (what is told now is told to nobody) */
void events_begin(gateway *it)
{
    events_second(it);
}

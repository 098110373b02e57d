/* Lists of routes and services in packets, a page a packet. */
#include <string.h>

#include "inside.h"

/* A packet that is being filled with entries. */
typedef struct page {
    plain_outbox *out;
    uint8_t *packet; /* where it is */
    address from, to;
    size_t size, most, count; /* bytes of an entry, the most entries of a packet, and how many this one has */
    uint16_t operation;
    uint8_t type, port;
} page;

/* ---- Pages ---- */

static page page_of_routes(plain_router *router, uint8_t port)
{
    const plain_port *on = router->ports + port;
    address from = {.node = on->node, .network = on->network, .socket = RIP_SOCKET}, all = from;
    all.node = PLAIN_BROADCAST;
    return (page){.out = &router->out, .from = from, .to = all, .size = ROUTE, .most = MOST_ROUTES, .operation = RESPONSE,
                  .type = RIP_TYPE, .port = port};
}

static page page_of_services(plain_router *router, uint8_t port)
{
    const plain_port *on = router->ports + port;
    address from = {.node = on->node, .network = on->network, .socket = SAP_SOCKET}, all = from;
    all.node = PLAIN_BROADCAST;
    return (page){.out = &router->out, .from = from, .to = all, .size = PLAIN_ENTRY, .most = MOST_SERVICES, .operation = RESPONSE,
                  .type = SAP_TYPE, .port = port};
}

static void put_address(uint8_t *at, const address *it)
{
    put32(at, it->network);
    put48(at + 4, it->node);
    put16(at + 10, it->socket);
}

static void begin_page(page *it)
{
    uint8_t *packet = it->packet = outbox_room(it->out, HEAD + it->most * it->size);
    put16(packet, 0xFFFF);
    packet[4] = 0;
    packet[5] = it->type;
    put_address(packet + 6, &it->to);
    put_address(packet + 18, &it->from);
    put16(packet + HEADER, it->operation);
}

static void end_page(page *it)
{
    size_t length = HEAD + it->count * it->size;
    if (it->count == 0)
        return;
    put16(it->packet + 2, (uint16_t)length);
    outbox_end(it->out, it->port, it->to.node, length);
    it->count = 0;
}

/* The place of the next entry. */
static uint8_t *next_entry(page *it)
{
    if (it->count == it->most)
        end_page(it);
    if (it->count == 0)
        begin_page(it);
    return it->packet + HEAD + it->size * it->count++;
}

/* ---- Routes: they are listed first, each in a number with the bytes of its entry ---- */

static uint64_t entry_of(uint32_t network, unsigned hops, unsigned ticks)
{
    return (uint64_t)network << 32 | (uint64_t)hops << 16 | (ticks < ENDLESS ? ticks : ENDLESS);
}

/* A route that is there goes one hop further; any other is unreachable. */
static uint64_t told(const plain_route *route, unsigned cost)
{
    bool is_there = route->hops < LAST_HOP;
    return entry_of(route->network, is_there ? route->hops + 1u : UNREACHABLE, is_there ? route->ticks + cost : ENDLESS);
}

/* Lists the networks of the other ports that come before a network, from one of them on, which it moves. Returns where the list ends. */
static uint64_t *list_direct(uint64_t *to, const plain_router *router, uint8_t port, size_t *next, uint64_t before)
{
    for (; *next < router->port_count && router->direct[*next].network < before; ++*next) {
        const plain_direct *direct = router->direct + *next;
        if (direct->port != port)
            *to++ = entry_of(direct->network, 1, (unsigned)direct->cost + router->ports[port].cost);
    }
    return to;
}

/* Lists what a port advertises: the networks of the other ports and the routes that came by others, by network. Returns how many they are. */
static size_t list_routes(const plain_router *router, uint8_t port)
{
    const plain_route *routes = router->routes.records, *end = routes + router->routes.count;
    unsigned cost = router->ports[port].cost;
    uint64_t *to = router->entries;
    size_t next = 0;
    for (const plain_route *route = routes; route < end; route++) {
        if (route->port == port || route->hops == LAST_HOP)
            continue;
        if (next < router->port_count && router->direct[next].network < route->network)
            to = list_direct(to, router, port, &next, route->network);
        *to++ = told(route, cost);
    }
    return (size_t)(list_direct(to, router, port, &next, UINT64_MAX) - router->entries);
}

static size_t list_changes(const plain_router *router, uint8_t port)
{
    const plain_route_changes *changes = &router->route_changes;
    unsigned cost = router->ports[port].cost;
    uint64_t *to = router->entries;
    for (size_t k = 0; k < changes->count; k++)
        if (changes->told[k].port != port)
            *to++ = told(changes->told + k, cost);
    return (size_t)(to - router->entries);
}

static bool is_asked(const uint8_t *asked, size_t count, uint32_t network)
{
    for (size_t k = 0; k < count; k++)
        if (get32(asked + k * ROUTE) == network)
            return true;
    return false;
}

/* Keeps the listed routes that a request asks for. Returns how many they are. */
static size_t keep_asked(uint64_t *entries, size_t count, const uint8_t *asked, size_t asked_count)
{
    size_t kept = 0;
    for (size_t k = 0; k < count; k++)
        if (is_asked(asked, asked_count, (uint32_t)(entries[k] >> 32)))
            entries[kept++] = entries[k];
    return kept;
}

static void send_page_of_routes(page *it, const uint64_t *entries, size_t count)
{
    begin_page(it);
    for (size_t k = 0; k < count; k++)
        put64(it->packet + HEAD + k * ROUTE, entries[k]);
    it->count = count;
    end_page(it);
}

static void send_listed(page it, const uint64_t *entries, size_t count)
{
    for (; count > MOST_ROUTES; count -= MOST_ROUTES, entries += MOST_ROUTES)
        send_page_of_routes(&it, entries, MOST_ROUTES);
    if (count > 0)
        send_page_of_routes(&it, entries, count);
}

/* ---- Services ---- */

static bool is_of_type(const plain_service *service, uint16_t type)
{
    return type == ANY_TYPE || get16(service->entry) == type;
}

static void add_service(page *it, const plain_service *service)
{
    uint8_t *entry = next_entry(it);
    memcpy(entry, service->entry, PLAIN_ENTRY);
    put16(entry + HOPS, service->hops < LAST_HOP ? (uint16_t)(service->hops + 1) : UNREACHABLE);
}

static void add_services(page *it, const plain_service *services, size_t count, uint16_t type)
{
    for (size_t k = 0; k < count; k++)
        if (services[k].port != it->port && services[k].hops != LAST_HOP && is_of_type(services + k, type))
            add_service(it, services + k);
    end_page(it);
}

static void send_service_changes(plain_router *router, uint8_t port)
{
    const plain_service_changes *changes = &router->service_changes;
    page it = page_of_services(router, port);
    for (size_t k = 0; k < changes->count; k++)
        if (changes->told[k].port != port)
            add_service(&it, changes->told + k);
    end_page(&it);
}

static bool is_nearer(const plain_service *one, const plain_service *other)
{
    int by_name = memcmp(one->entry + NAME, other->entry + NAME, NAME_LENGTH);
    if (one->hops != other->hops)
        return one->hops < other->hops;
    return by_name < 0 || (by_name == 0 && get16(one->entry) < get16(other->entry));
}

/* ---- What is sent ---- */

void send_changes(plain_router *router)
{
    if (router->route_changes.count == 0 && router->service_changes.count == 0)
        return;
    for (size_t port = 0; port < router->port_count; port++) {
        send_listed(page_of_routes(router, (uint8_t)port), router->entries, list_changes(router, (uint8_t)port));
        send_service_changes(router, (uint8_t)port);
    }
}

void send_everything(plain_router *router, uint8_t port)
{
    page services = page_of_services(router, port);
    send_listed(page_of_routes(router, port), router->entries, list_routes(router, port));
    add_services(&services, router->services.records, router->services.count, ANY_TYPE);
}

void send_requests(plain_router *router, uint8_t port)
{
    page routes = page_of_routes(router, port), services = page_of_services(router, port);
    const uint64_t all = entry_of(ALL_ROUTES, ENDLESS, ENDLESS);
    routes.operation = services.operation = REQUEST;
    services.size = sizeof(uint16_t);
    send_listed(routes, &all, 1);
    put16(next_entry(&services), ANY_TYPE);
    end_page(&services);
}

/* ---- Answers ---- */

void answer_routes(plain_router *router, uint8_t port, address to, const uint8_t *asked, size_t asked_count)
{
    size_t count = list_routes(router, port);
    page it = page_of_routes(router, port);
    it.to = to;
    if (!is_asked(asked, asked_count, ALL_ROUTES))
        count = keep_asked(router->entries, count, asked, asked_count);
    send_listed(it, router->entries, count);
}

void answer_services(plain_router *router, uint8_t port, address to, uint16_t type)
{
    page it = page_of_services(router, port);
    it.to = to;
    add_services(&it, router->services.records, router->services.count, type);
}

void answer_nearest(plain_router *router, uint8_t port, address to, uint16_t type)
{
    const plain_service *best = NULL, *services = router->services.records;
    for (size_t k = 0; k < router->services.count; k++)
        if (services[k].port != port && services[k].hops < LAST_HOP && is_of_type(services + k, type) &&
            (!best || is_nearer(services + k, best)))
            best = services + k;
    page it = page_of_services(router, port);
    it.operation = NEAREST_RESPONSE;
    it.to = to;
    if (best)
        add_service(&it, best);
    end_page(&it);
}

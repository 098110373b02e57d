/* The router: what it does with each event. */
#include "plain.h"

#include <stdlib.h>
#include <string.h>

#include "inside.h"

/* The most routers that a packet comes through, the most networks that one for all networks crosses, and the room for their numbers. */
enum { MOST_ROUTERS = 16, MOST_CROSSED = 8, CROSSED = 32 };

/* A packet that came, without what is behind its length. */
typedef struct packet {
    const uint8_t *bytes;
    size_t length;
    address to, from;
    uint8_t control, type;
} packet;

/* ---- Making ---- */

static int by_network(const void *one, const void *other)
{
    uint32_t a = ((const plain_direct *)one)->network, b = ((const plain_direct *)other)->network;
    return (a > b) - (a < b);
}

void plain_make(plain_router *router, const plain_port *ports, size_t count, size_t routes, size_t services)
{
    *router = (plain_router){.port_count = count};
    router->ports = grown(NULL, count, sizeof *router->ports);
    router->direct = grown(NULL, count, sizeof *router->direct);
    memcpy(router->ports, ports, count * sizeof *ports);
    for (size_t k = 0; k < count; k++)
        router->direct[k] = (plain_direct){.network = ports[k].network, .cost = ports[k].cost, .port = (uint8_t)k};
    qsort(router->direct, count, sizeof *router->direct, by_network);
    routes_make(&router->routes, &router->route_changes, routes);
    services_make(&router->services, &router->service_changes, services);
    router->entries = grown(NULL, routes + count + MOST_ROUTES, sizeof *router->entries);
}

void plain_free(plain_router *router)
{
    routes_free(&router->routes, &router->route_changes);
    services_free(&router->services, &router->service_changes);
    free(router->ports);
    free(router->direct);
    free(router->entries);
    free(router->out.bytes);
    free(router->out.sent);
}

static void begin_event(plain_router *router)
{
    router->out.used = router->out.count = 0;
    router->route_changes.count = router->service_changes.count = 0;
}

/* ---- Packets for the router ---- */

/* Where an answer goes: whoever doesn't know the number of his network is on that of the port. */
static address asker(const plain_port *port, const packet *it)
{
    address to = it->from;
    if (to.network == LOCAL)
        to.network = port->network;
    return to;
}

static bool is_own(const plain_router *router, uint32_t network)
{
    for (size_t k = 0; k < router->port_count; k++)
        if (router->ports[k].network == network)
            return true;
    return false;
}

static void learn_routes(plain_router *router, uint8_t port, uint64_t node, const uint8_t *entries, size_t count)
{
    for (const uint8_t *entry = entries; entry < entries + count * ROUTE; entry += ROUTE) {
        plain_route route = {.node = node, .network = get32(entry), .hops = get16(entry + 4), .ticks = get16(entry + 6), .port = port};
        if (route.network != LOCAL && route.network != ALL_ROUTES && !is_own(router, route.network))
            routes_offer(&router->routes, &route, &router->route_changes);
    }
    send_changes(router);
}

static plain_outcome hear_rip(plain_router *router, uint8_t port, const packet *it, const uint8_t *data, size_t length)
{
    uint16_t operation = length < 2 ? 0 : get16(data);
    size_t count = length < 2 ? 0 : (length - 2) / ROUTE;
    if ((operation != REQUEST && operation != RESPONSE) || count == 0 || count > MOST_ROUTES)
        return PLAIN_BAD_RIP;
    if (operation == RESPONSE) {
        learn_routes(router, port, it->from.node, data + 2, count);
        return PLAIN_LEARNED;
    }
    answer_routes(router, port, asker(router->ports + port, it), data + 2, count);
    return PLAIN_ANSWERED;
}

static void learn_services(plain_router *router, uint8_t port, uint64_t node, const uint8_t *entries, size_t count)
{
    for (const uint8_t *entry = entries; entry < entries + count * PLAIN_ENTRY; entry += PLAIN_ENTRY) {
        const uint8_t *name = entry + NAME, *end = memchr(name, 0, NAME_LENGTH);
        if (!end || end == name)
            continue;
        plain_service service = {.node = node, .hops = get16(entry + HOPS), .port = port};
        memcpy(service.entry, entry, PLAIN_ENTRY);
        memset(service.entry + (end - entry), 0, (size_t)(name + NAME_LENGTH - end));
        services_offer(&router->services, &service, &router->service_changes);
    }
    send_changes(router);
}

static bool is_sap(uint16_t operation, size_t length)
{
    size_t count = length < 2 ? 0 : (length - 2) / PLAIN_ENTRY;
    if (operation == REQUEST || operation == NEAREST_QUERY)
        return length >= 4;
    return (operation == RESPONSE || operation == NEAREST_RESPONSE) && count > 0 && count <= MOST_SERVICES;
}

static plain_outcome hear_sap(plain_router *router, uint8_t port, const packet *it, const uint8_t *data, size_t length)
{
    uint16_t operation = length < 2 ? 0 : get16(data);
    address to = asker(router->ports + port, it);
    if (!is_sap(operation, length))
        return PLAIN_BAD_SAP;
    if (operation == NEAREST_RESPONSE)
        return PLAIN_NEAREST_REPLY;
    if (operation == RESPONSE) {
        learn_services(router, port, it->from.node, data + 2, (length - 2) / PLAIN_ENTRY);
        return PLAIN_LEARNED;
    }
    if (operation == REQUEST)
        answer_services(router, port, to, get16(data + 2));
    else
        answer_nearest(router, port, to, get16(data + 2));
    return PLAIN_ANSWERED;
}

static bool is_near(const plain_port *port, uint32_t network)
{
    return network == LOCAL || network == port->network;
}

static plain_outcome hear(plain_router *router, uint8_t port, const packet *it)
{
    const plain_port *on = router->ports + port;
    if (it->to.node != on->node && it->to.node != PLAIN_BROADCAST)
        return PLAIN_ELSEWHERE;
    if (it->type == NETBIOS_TYPE || (it->to.socket != RIP_SOCKET && it->to.socket != SAP_SOCKET))
        return PLAIN_OTHER_SOCKET;
    if (!is_near(on, it->from.network))
        return PLAIN_NOT_NEIGHBOUR;
    if (it->to.socket == RIP_SOCKET)
        return hear_rip(router, port, it, it->bytes + HEADER, it->length - HEADER);
    return hear_sap(router, port, it, it->bytes + HEADER, it->length - HEADER);
}

/* ---- Packets for others ---- */

static plain_outcome send_on(plain_router *router, uint8_t port, uint64_t link, const packet *it)
{
    if (it->length > router->ports[port].longest)
        return PLAIN_TOO_LONG;
    uint8_t *copy = outbox_room(&router->out, it->length);
    memcpy(copy, it->bytes, it->length);
    copy[4]++;
    outbox_end(&router->out, port, link, it->length);
    return PLAIN_FORWARDED;
}

static plain_outcome forward(plain_router *router, const packet *it)
{
    if (it->control >= MOST_ROUTERS)
        return PLAIN_TOO_MANY_ROUTERS;
    for (size_t k = 0; k < router->port_count; k++)
        if (router->ports[k].network == it->to.network)
            return router->ports[k].node == it->to.node ? PLAIN_FAR_SIDE : send_on(router, (uint8_t)k, it->to.node, it);
    const plain_route *route = routes_find(&router->routes, it->to.network);
    if (!route && it->to.network != ALL_ROUTES)
        route = routes_find(&router->routes, DEFAULT_ROUTE);
    return route ? send_on(router, route->port, route->node, it) : PLAIN_NO_ROUTE;
}

static bool has_crossed(const packet *it, uint32_t network)
{
    for (size_t k = 0; k < it->control; k++)
        if (get32(it->bytes + HEADER + 4 * k) == network)
            return true;
    return false;
}

static void propagate_on(plain_router *router, uint8_t port, uint32_t arrived, const packet *it)
{
    const plain_port *on = router->ports + port;
    if (it->length > on->longest || has_crossed(it, on->network))
        return;
    uint8_t *copy = outbox_room(&router->out, it->length);
    memcpy(copy, it->bytes, it->length);
    put16(copy, 0xFFFF);
    copy[4]++;
    put32(copy + 6, on->network);
    put32(copy + HEADER + 4 * it->control, arrived);
    outbox_end(&router->out, port, PLAIN_BROADCAST, it->length);
}

static plain_outcome propagate(plain_router *router, uint8_t port, const packet *it)
{
    uint32_t arrived = router->ports[port].network;
    if (it->length < HEADER + CROSSED)
        return PLAIN_CROSSED_SHORT;
    if (it->control >= MOST_CROSSED)
        return PLAIN_CROSSED_FULL;
    if (has_crossed(it, arrived))
        return PLAIN_CROSSED_SEEN;
    for (size_t k = 0; k < router->port_count; k++)
        if (k != port)
            propagate_on(router, (uint8_t)k, arrived, it);
    return PLAIN_PROPAGATED;
}

/* ---- Events ---- */

void plain_start(plain_router *router)
{
    begin_event(router);
    if (router->is_running)
        return;
    router->is_running = true;
    for (size_t k = 0; k < router->port_count; k++) {
        send_everything(router, (uint8_t)k);
        send_requests(router, (uint8_t)k);
    }
}

static void advertise(plain_router *router)
{
    for (size_t k = 0; k < router->port_count; k++)
        send_everything(router, (uint8_t)k);
}

void plain_second(plain_router *router)
{
    begin_event(router);
    if (!router->is_running)
        return;
    router->seconds++;
    routes_second(&router->routes, &router->route_changes);
    services_second(&router->services, &router->service_changes);
    if (router->seconds % PERIOD == 0)
        advertise(router);
    else
        send_changes(router);
    if (router->route_changes.count > 0)
        routes_remove_gone(&router->routes);
    if (router->service_changes.count > 0)
        services_remove_gone(&router->services);
}

static address address_at(const uint8_t *at)
{
    return (address){.network = get32(at), .node = get48(at + 4), .socket = get16(at + 10)};
}

plain_outcome plain_packet(plain_router *router, uint8_t port, const uint8_t *bytes, size_t length)
{
    const plain_port *on = router->ports + port;
    begin_event(router);
    if (!router->is_running)
        return PLAIN_NOT_RUNNING;
    if (length < HEADER || get16(bytes + 2) < HEADER || get16(bytes + 2) > length)
        return PLAIN_MALFORMED;
    packet it = {.bytes = bytes, .length = get16(bytes + 2), .to = address_at(bytes + 6), .from = address_at(bytes + 18),
                 .control = bytes[4], .type = bytes[5]};
    if (it.from.node == on->node && is_near(on, it.from.network))
        return PLAIN_OWN_ECHO;
    if (it.from.node == PLAIN_BROADCAST)
        return PLAIN_BAD_SOURCE;
    if (it.type == NETBIOS_TYPE && it.to.node == PLAIN_BROADCAST)
        return propagate(router, port, &it);
    return is_near(on, it.to.network) ? hear(router, port, &it) : forward(router, &it);
}

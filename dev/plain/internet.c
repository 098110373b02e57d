#include "internet.h"

#include <stdlib.h>
#include <string.h>

#include "inside.h"

/* ---- Ports by network ---- */

/* How many ports are on smaller networks. */
static size_t place_of(const internet *it, uint32_t network)
{
    size_t low = 0, high = it->port_count;
    while (low < high) {
        size_t middle = low + (high - low) / 2;
        if (it->ports[middle].network < network)
            low = middle + 1;
        else
            high = middle;
    }
    return low;
}

static void add_port(internet *it, internet_port port)
{
    size_t place = place_of(it, port.network);
    while (place < it->port_count && it->ports[place].network == port.network)
        place++;
    it->ports = grown(it->ports, it->port_count + 1, sizeof *it->ports);
    memmove(it->ports + place + 1, it->ports + place, (it->port_count - place) * sizeof *it->ports);
    it->ports[place] = port;
    it->port_count++;
}

void internet_add(internet *it, const plain_port *ports, size_t count, size_t routes, size_t services)
{
    it->routers = grown(it->routers, it->count + 1, sizeof *it->routers);
    plain_make(it->routers + it->count, ports, count, routes, services);
    for (size_t k = 0; k < count; k++)
        add_port(it, (internet_port){.node = ports[k].node, .network = ports[k].network, .router = it->count, .port = (uint8_t)k});
    it->count++;
}

void internet_free(internet *it)
{
    for (size_t k = 0; k < it->count; k++)
        plain_free(it->routers + k);
    free(it->routers);
    free(it->ports);
    free(it->waiting.list);
    free(it->waiting.bytes);
    free(it->trace.list);
    free(it->trace.bytes);
}

/* ---- Deliveries ---- */

static void deliver(deliveries *to, delivery it, const uint8_t *bytes)
{
    if (to->count == to->most) {
        to->most = 2 * to->most + 8;
        to->list = grown(to->list, to->most, sizeof *to->list);
    }
    if (to->room - to->used < it.length) {
        to->room = 2 * (to->used + it.length);
        to->bytes = grown(to->bytes, to->room, 1);
    }
    memcpy(to->bytes + to->used, bytes, it.length);
    it.start = to->used;
    to->used += it.length;
    to->list[to->count++] = it;
}

/* Delivers a packet to the ports of other routers that it is for. */
static void deliver_sent(const internet *it, deliveries *to, size_t router, size_t cause, const plain_sent *sent)
{
    const plain_router *from = it->routers + router;
    uint32_t network = from->ports[sent->port].network;
    for (size_t k = place_of(it, network); k < it->port_count && it->ports[k].network == network; k++) {
        const internet_port *port = it->ports + k;
        delivery new = {.router = port->router, .cause = cause, .length = sent->length, .port = port->port};
        if (port->router != router && (sent->link == PLAIN_BROADCAST || sent->link == port->node))
            deliver(to, new, from->out.bytes + sent->start);
    }
}

static void deliver_all(const internet *it, deliveries *to, size_t router, size_t cause)
{
    const plain_outbox *out = &it->routers[router].out;
    for (size_t k = 0; k < out->count; k++)
        deliver_sent(it, to, router, cause, out->sent + k);
}

/* Hands a delivery to its router, and delivers what that sends. */
static void hand_on(internet *it, deliveries *of, size_t number)
{
    delivery next = of->list[number];
    of->list[number].outcome = plain_packet(it->routers + next.router, next.port, of->bytes + next.start, next.length);
    deliver_all(it, of, next.router, number);
}

static void empty(deliveries *it)
{
    it->count = it->used = 0;
}

/* ---- Events ---- */

void internet_start(internet *it, size_t router)
{
    plain_start(it->routers + router);
    deliver_all(it, &it->waiting, router, 0);
}

void internet_second(internet *it, size_t router)
{
    plain_second(it->routers + router);
    deliver_all(it, &it->waiting, router, 0);
}

void internet_packet(internet *it, size_t router, uint8_t port, const uint8_t *bytes, size_t length)
{
    plain_packet(it->routers + router, port, bytes, length);
    deliver_all(it, &it->waiting, router, 0);
}

void internet_settle(internet *it)
{
    for (size_t k = 0; k < it->waiting.count; k++)
        hand_on(it, &it->waiting, k);
    empty(&it->waiting);
}

size_t internet_trace(internet *it, size_t router, uint8_t port, const uint8_t *bytes, size_t length)
{
    deliveries *trace = &it->trace;
    empty(trace);
    deliver(trace, (delivery){.router = router, .length = length, .port = port}, bytes);
    for (size_t k = 0; k < trace->count; k++)
        hand_on(it, trace, k);
    return trace->count;
}

#include "packets.h"

#include <string.h>

#include "chance.h"
#include "ipx.h"

enum { GAME = 0x4003, OTHER_GAME = 0x4005, PING = 2, DIAGNOSTIC = 0x456, OF_QUESTIONS = 0x4FE0, TYPES = 6 };

static const uint8_t ALL[NODE] = {0xFF, 0xFF, 0xFF, 0xFF, 0xFF, 0xFF};

void any_place(uint8_t place[6])
{
    static const uint8_t NET[4] = {10, 0, 0, 0};
    memcpy(place, NET, sizeof NET);
    place[3] = (uint8_t)below(ALL_HOSTS);
    put16(place + 4, (uint16_t)(40000 + below(one_in(3) ? PORTS_OF_HOST : 3)));
}

void any_node(uint8_t node[6])
{
    static const uint8_t FIRST[NODE] = {0x02, 0, 0x5E, 0x10, 0, 0};
    memcpy(node, FIRST, NODE);
    node[5] = (uint8_t)below(ALL_NODES);
}

static ipxr_address at(uint32_t network, const uint8_t node[6], uint16_t socket)
{
    ipxr_address it = {.network = network, .socket = socket};
    memcpy(it.node, node, NODE);
    return it;
}

/* What was written, or nothing where it didn't fit. */
static void take(made_packet *it, int32_t length)
{
    it->length = length > 0 ? (size_t)length : 0;
}

void make_registration(made_packet *it)
{
    static const uint8_t NOBODY[NODE] = {0};
    ipxr_address nobody = at(0, NOBODY, PING);
    take(it, ipxr_write_packet(&nobody, &nobody, 0, 0, (const uint8_t *)"", 0, it->bytes, sizeof it->bytes));
}

void make_answer(made_packet *it, const uint8_t node[6], const uint8_t cookie[6])
{
    ipxr_address from = at(0, node, PING), to = at(0, cookie, PING);
    take(it, ipxr_write_packet(&from, &to, 0, 0, (const uint8_t *)"", 0, it->bytes, sizeof it->bytes));
}

/* ---- Whom it is for ---- */

static uint32_t any_network(const gateway *gate, const network *on)
{
    switch (below(6)) {
    case 0:
        return 0;
    case 1:
        return gate->networks[below((uint32_t)gate->count)].set->network;
    case 2:
        return 0x100 + below(60); /* (one that a router may have told of) */
    case 3:
        return one_in(8) ? EVERY_NETWORK : 0xBEEF;
    default:
        return on->set->network;
    }
}

/* The node of a client, a PC, the gateway, or all. */
static void any_receiver(gateway *gate, const network *on, uint8_t node[6])
{
    ipxr_keyed_member client;
    network *other = &gate->networks[below((uint32_t)gate->count)];
    size_t clients = ipxr_keyed_clients(&other->tunnel);
    switch (below(5)) {
    case 0:
        memcpy(node, on->node, NODE);
        break;
    case 1:
        any_node(node);
        break;
    case 2:
    case 3:
        memcpy(node, ALL, NODE);
        break;
    default:
        any_place(node);
        if (clients > 0 && ipxr_keyed_client(&other->tunnel, below((uint32_t)clients), &client) == 0)
            memcpy(node, client.node, NODE);
    }
}

/* ---- What it is ---- */

static void make_game(made_packet *it, gateway *gate, const network *on, const station *from)
{
    static const uint16_t SOCKETS[] = {GAME, GAME, OTHER_GAME, PING, DIAGNOSTIC, OF_QUESTIONS, 0x8A5E, 0x9000};
    static const uint8_t KINDS[TYPES] = {0, 4, 4, 5, 17, 20};
    uint8_t data[MOST_MADE], node[NODE], type = KINDS[below(TYPES)];
    size_t length = one_in(3) ? below(1480) : below(80);
    any_receiver(gate, on, node);
    uint16_t socket = SOCKETS[below(8)];
    ipxr_address source = at(one_in(6) ? any_network(gate, on) : from->network, from->node, socket);
    ipxr_address to = at(any_network(gate, on), node, socket);
    memset(data, type == 20 ? 0 : 0x55, sizeof data);
    uint8_t control = type == 20 ? (uint8_t)below(9) : one_in(9) ? (uint8_t)below(20) : 0;
    for (size_t k = 0; type == 20 && k < control; k++)
        put32(data + 4 * k, 0x200 + below(40));
    take(it, ipxr_write_packet(&source, &to, type, control, data, length, it->bytes, sizeof it->bytes));
}

static void make_ping(made_packet *it, gateway *gate, const network *on, const station *from)
{
    (void)gate;
    ipxr_address source = at(from->network, from->node, PING), to = at(on->set->network, ALL, PING);
    take(it, ipxr_write_packet(&source, &to, 0, 0, (const uint8_t *)"", 0, it->bytes, sizeof it->bytes));
}

/* Whom routers tell: all of their network, or the gateway. */
static ipxr_address to_routers(const gateway *gate, const network *on, uint16_t socket)
{
    return at(one_in(8) ? any_network(gate, on) : on->set->network, one_in(3) ? on->node : ALL, socket);
}

static void make_routes(made_packet *it, gateway *gate, const network *on, const station *from)
{
    ipxr_route_entry routes[IPXR_PACKET_ROUTES];
    size_t count = one_in(3) ? between(1, IPXR_PACKET_ROUTES) : between(1, 4);
    ipxr_address source = at(from->network, from->node, IPXR_RIP_SOCKET), to = to_routers(gate, on, IPXR_RIP_SOCKET);
    for (size_t k = 0; k < count; k++)
        routes[k] = (ipxr_route_entry){one_in(9) ? any_network(gate, on) : 0x100 + below(one_in(4) ? 4000 : 60),
                                       (uint16_t)(one_in(4) ? 16 : below(17)), (uint16_t)below(9)};
    take(it, ipxr_write_rip(&source, &to, IPXR_RIP_RESPONSE, routes, count, it->bytes, sizeof it->bytes));
}

static void make_question_for_routes(made_packet *it, gateway *gate, const network *on, const station *from)
{
    ipxr_route_entry all = {one_in(3) ? any_network(gate, on) : EVERY_NETWORK, 0xFFFF, 0xFFFF};
    ipxr_address source = at(from->network, from->node, IPXR_RIP_SOCKET), to = to_routers(gate, on, IPXR_RIP_SOCKET);
    take(it, ipxr_write_rip(&source, &to, IPXR_RIP_REQUEST, &all, 1, it->bytes, sizeof it->bytes));
}

static void make_query(made_packet *it, gateway *gate, const network *on, const station *from)
{
    ipxr_address source = at(from->network, from->node, IPXR_SAP_SOCKET), to = to_routers(gate, on, IPXR_SAP_SOCKET);
    take(it, ipxr_write_query(&source, &to, (uint8_t)below(2), one_in(2) ? 4 : 0xFFFF, it->bytes, sizeof it->bytes));
}

static void make_services(made_packet *it, gateway *gate, const network *on, const station *from)
{
    ipxr_service_entry services[IPXR_PACKET_SERVICES];
    size_t count = between(1, IPXR_PACKET_SERVICES);
    ipxr_address source = at(from->network, from->node, IPXR_SAP_SOCKET), to = to_routers(gate, on, IPXR_SAP_SOCKET);
    memset(services, 0, sizeof services);
    for (size_t k = 0; k < count; k++) {
        services[k].name[0] = (uint8_t)('A' + below(26));
        services[k].name[1] = (uint8_t)(one_in(4) ? between(1, 255) : 'x');
        services[k].type = (uint16_t)between(1, 5);
        services[k].network = 0x100 + below(60);
        any_node(services[k].node);
        services[k].socket = 0x451;
        services[k].hops = (uint16_t)(one_in(4) ? 16 : between(0, 16));
    }
    take(it, ipxr_write_sap(&source, &to, one_in(6), services, count, it->bytes, sizeof it->bytes));
}

static void make_junk(made_packet *it, gateway *gate, const network *on, const station *from)
{
    (void)gate;
    (void)on;
    (void)from;
    it->length = one_in(2) ? below(64) : below(MOST_MADE);
    chance_bytes(it->bytes, it->length < 64 ? it->length : 64);
}

void spoil_packet(made_packet *it)
{
    for (unsigned k = below(4); k > 0 && it->length > 0; k--)
        it->bytes[below((uint32_t)(it->length < HEADER + 8 || one_in(3) ? it->length : HEADER + 8))] = (uint8_t)below(256);
    if (one_in(4))
        it->length = below((uint32_t)it->length + 1);
    else if (one_in(4) && it->length < MOST_MADE)
        it->length += below((uint32_t)(MOST_MADE - it->length));
}

void make_any(made_packet *it, gateway *gate, const network *on, const station *from)
{
    static void (*const MAKE[])(made_packet *, gateway *, const network *, const station *) = {
        make_game, make_ping, make_routes, make_question_for_routes, make_query, make_services, make_junk};
    static const unsigned WEIGHTS[] = {12, 1, 2, 1, 1, 2, 1};
    MAKE[chance_weighted(WEIGHTS, sizeof WEIGHTS / sizeof *WEIGHTS)](it, gate, on, from);
    if (one_in(8))
        spoil_packet(it);
}

bool make_reply(made_packet *it, const uint8_t *asked, size_t length)
{
    uint16_t socket = length >= HEADER ? get16(asked + AT_FROM_SOCKET) : 0;
    if (socket < OF_QUESTIONS || socket >= OF_QUESTIONS + 16 || length > MOST_MADE)
        return false;
    memcpy(it->bytes, asked, length);
    it->length = length;
    memcpy(it->bytes + AT_TO_NETWORK, asked + AT_FROM_NETWORK, AT_FROM_NETWORK - AT_TO_NETWORK);
    memcpy(it->bytes + AT_FROM_NETWORK, asked + AT_TO_NETWORK, AT_FROM_NETWORK - AT_TO_NETWORK);
    if (get16(asked + AT_TO_SOCKET) == IPXR_RIP_SOCKET && length >= HEADER + 10) {
        put16(it->bytes + HEADER, one_in(5) ? IPXR_RIP_REQUEST : IPXR_RIP_RESPONSE);
        put16(it->bytes + HEADER + 6, (uint16_t)below(18));
        put16(it->bytes + HEADER + 8, 1);
    }
    it->bytes[AT_CONTROL] = (uint8_t)below(3);
    return true;
}

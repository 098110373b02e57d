/* Plays made-up events to a router, a tunnel, a segment and limits, and made-up lines to a configuration, and prints a sum of all answers
 * after each round: play ROUNDS. Whichever library it is built with, and for whatever system, it prints the same. */
#include <stdio.h>
#include <stdlib.h>
#include <string.h>

#include "ipxr_configuration.h"
#include "ipxr_edge.h"
#include "ipxr_keyed.h"
#include "ipxr_limits.h"
#include "ipxr_plan.h"
#include "ipxr_segment.h"
#include "ipxr_tunnel.h"

enum { ROOM = 1500, PORTS = 4, PLACES = 9, LINKS = 5, EVENTS = 400 };

static uint32_t state = 1;
static uint64_t sum;
static uint8_t bytes[ROOM];

static uint32_t chance(uint32_t below)
{
    state ^= state << 13;
    state ^= state >> 17;
    state ^= state << 5;
    return state % below;
}

static void add(uint64_t number)
{
    sum = (sum ^ number) * 1099511628211u + (sum >> 40);
}

static void add_bytes(const uint8_t *at, size_t length)
{
    add(length);
    for (size_t k = 0; k < length; k++)
        add(at[k]);
}

static void put_node(uint8_t node[6])
{
    memset(node, chance(8) == 0 ? 0xFF : 0, 6);
    if (node[0] == 0)
        node[5] = (uint8_t)(1 + chance(12));
}

static uint32_t network(void)
{
    return chance(9) == 0 ? 0 : 0x10 * (1 + chance(20));
}

static ipxr_address address(void)
{
    static const uint16_t sockets[] = {0x451, 0x452, 0x453, 0x455, 0x456, 0x4545, 2, 0xFFFF};
    ipxr_address it;
    it.network = network();
    put_node(it.node);
    it.socket = sockets[chance(8)];
    return it;
}

static void put_service(ipxr_service_entry *it)
{
    memset(it->name, 0, sizeof it->name);
    for (uint32_t k = chance(48); k > 0; k--)
        it->name[k - 1] = (uint8_t)('A' + chance(26));
    it->network = network();
    put_node(it->node);
    it->socket = (uint16_t)chance(65536);
    it->type = (uint16_t)(4 + chance(3));
    it->hops = (uint16_t)(1 + chance(17));
}

/* A packet of some kind, sometimes with a byte that is changed; its length. */
static size_t packet(void)
{
    ipxr_address from = address(), to = address();
    ipxr_route_entry routes[60];
    ipxr_service_entry services[9];
    size_t count = chance(8) == 0 ? chance(60) : 1 + chance(6), size = chance(700), place;
    uint8_t flag = (uint8_t)chance(2), control = (uint8_t)chance(18);
    int32_t length = 0;
    for (size_t k = 0; k < count; k++) {
        routes[k].network = 0x10 * (1 + chance(400));
        routes[k].hops = (uint16_t)(1 + chance(17));
        routes[k].ticks = (uint16_t)(1 + chance(30));
    }
    switch (chance(6)) {
    case 0:
        to.socket = chance(9) ? 0x453 : to.socket;
        length = ipxr_write_rip(&from, &to, (uint16_t)(1 + chance(2)), routes, count, bytes, sizeof bytes);
        break;
    case 1:
        for (size_t k = 0; k < 9; k++)
            put_service(&services[k]);
        length = ipxr_write_sap(&from, &to, flag, services, count % 9, bytes, sizeof bytes);
        break;
    case 2:
        length = ipxr_write_query(&from, &to, flag, (uint16_t)(count % 2 ? 0xFFFF : 4), bytes, sizeof bytes);
        break;
    case 3:
        to.socket = 0x455;
        memset(to.node, 0xFF, 6);
        length = ipxr_write_packet(&from, &to, 20, control % 9, bytes + 600, 32 + size % 64, bytes, sizeof bytes);
        break;
    default:
        length = ipxr_write_packet(&from, &to, count % 9 ? 4 : 20, control, bytes + 600, size, bytes, 800);
    }
    add((uint32_t)length);
    if (length < 0)
        length = 30;
    place = chance((uint32_t)length);
    if (chance(10) == 0)
        bytes[place] = (uint8_t)chance(256);
    return (size_t)length;
}

/* ---- A router ---- */

static void add_records(ipxr *router)
{
    ipxr_route_record route;
    ipxr_service_record service;
    for (size_t k = 0; ipxr_route(router, k, &route) == 0; k++) {
        add(route.network), add(route.hops), add(route.ticks), add(route.port), add(route.age);
        add_bytes(route.node, 6);
    }
    for (size_t k = 0; ipxr_service(router, k, &service) == 0; k++) {
        add_bytes(service.name, 48), add_bytes(service.node, 6), add_bytes(service.neighbour, 6);
        add(service.network), add(service.socket), add(service.type), add(service.hops), add(service.port), add(service.age);
    }
}

static void add_sent(ipxr *router)
{
    static uint8_t out[ROOM];
    ipxr_packet_sent sent;
    add(ipxr_sent(router));
    for (size_t k = 0; ipxr_get(router, k, &sent, out, sizeof out) == 0; k++) {
        add(sent.port), add_bytes(sent.node, 6), add_bytes(out, sent.length);
    }
    if (chance(3) == 0)
        ipxr_clear(router);
}

static int32_t happens(ipxr *router)
{
    uint8_t port = (uint8_t)chance(PORTS + 1);
    size_t length;
    switch (chance(40)) {
    case 0:
        return ipxr_start(router);
    case 1:
        return chance(9) ? 0 : ipxr_stop(router);
    case 2:
        return ipxr_port_down(router, port);
    case 3:
    case 4:
        return ipxr_port_up(router, port);
    case 5:
    case 6:
    case 7:
        return ipxr_second(router);
    default:
        length = packet();
        return ipxr_packet(router, port, bytes, length);
    }
}

static void play_router(void)
{
    static ipxr router = IPXR_NONE;
    uint8_t word[IPXR_MOST_WORD];
    ipxr_port ports[PORTS];
    for (uint32_t k = 0; k < PORTS; k++) {
        ports[k].network = 0x10 * (k + 1);
        memset(ports[k].node, 0, 6);
        ports[k].node[5] = (uint8_t)(1 + k);
        ports[k].cost = (uint16_t)(1 + chance(5));
        ports[k].longest = (uint16_t)(chance(20) ? 576 + chance(900) : chance(1000));
        ports[k].routes = (uint16_t)(chance(2) ? IPXR_NO_LIMIT : chance(50));
        ports[k].services = (uint16_t)(chance(2) ? IPXR_NO_LIMIT : chance(20));
    }
    add((uint32_t)ipxr_make(&router, ports, chance(20) ? PORTS : chance(3) ? 0 : 1));
    add((uint32_t)ipxr_start(&router));
    for (int k = 0; k < EVENTS; k++) {
        int32_t answer = happens(&router);
        add((uint32_t)answer);
        add_bytes(word, ipxr_word(answer, word, sizeof word));
        add_sent(&router);
    }
    add_records(&router);
    add((uint32_t)ipxr_is_running(&router)), add((uint32_t)ipxr_is_up(&router, 1));
    ipxr_free(&router);
}

/* ---- A tunnel ---- */

static void put_place(uint8_t place[6], uint32_t number)
{
    static const uint8_t first[6] = {10, 0, 0, 1, 8, 0};
    memcpy(place, first, 6);
    place[3] = (uint8_t)(1 + number / 3);
    place[5] = (uint8_t)number;
}

static void put_cookie(uint8_t cookie[6], const uint8_t place[6])
{
    for (size_t k = 0; k < 6; k++)
        cookie[k] = place[k] ^ 0x5A;
}

/* A datagram that a place sends: it registers, answers, or speaks. */
static size_t datagram(const uint8_t place[6])
{
    ipxr_address from = {0x10, {0}, 0x4545}, to = {0x10, {0}, 0x4545};
    memcpy(from.node, place, 6);
    switch (chance(4)) {
    case 0:
        from.socket = to.socket = 2;
        memset(from.node, 0, 6);
        from.network = to.network = 0;
        break;
    case 1:
        put_cookie(to.node, place);
        from.socket = to.socket = 2;
        break;
    case 2:
        memset(to.node, 0xFF, 6);
        break;
    default:
        put_place(to.node, chance(PLACES));
    }
    return (size_t)ipxr_write_packet(&from, &to, 4, 0, bytes + 900, chance(90), bytes, 800);
}

static void add_tunnel(ipxr_tunnel *tunnel)
{
    ipxr_own own;
    ipxr_client client;
    uint8_t place[6];
    for (size_t k = 0; ipxr_tunnel_own(tunnel, k, &own) == 0; k++)
        add_bytes(own.place, 6), add_bytes(own.bytes, sizeof own.bytes);
    for (size_t k = 0; ipxr_tunnel_receiver(tunnel, k, place) == 0; k++)
        add_bytes(place, 6);
    for (size_t k = 0; ipxr_tunnel_leaver(tunnel, k, place) == 0; k++)
        add_bytes(place, 6);
    for (size_t k = 0; ipxr_tunnel_client(tunnel, k, &client) == 0; k++)
        add_bytes(client.place, 6), add(client.seconds_left);
    add(ipxr_tunnel_carried(tunnel)), add(ipxr_tunnel_is_heard(tunnel)), add(ipxr_tunnel_clients(tunnel));
}

static void play_tunnel(void)
{
    static ipxr_tunnel tunnel = IPXR_TUNNEL_NONE;
    const uint16_t share = (uint16_t)(1 + chance(3));
    const ipxr_tunnel_setting setting = {0x10, {2, 0, 0, 0, 0, 1}, (uint16_t)chance(9), share};
    const uint16_t sockets[40] = {1, 2, 3, [20] = 0x4545};
    add((uint32_t)ipxr_tunnel_make(&tunnel, &setting));
    for (int k = 0; k < EVENTS; k++) {
        ipxr_sender sender;
        size_t length;
        put_place(sender.place, chance(PLACES));
        put_cookie(sender.current, sender.place);
        put_cookie(sender.previous, sender.place);
        sender.is_trusted = chance(7) == 0;
        length = datagram(sender.place);
        if (chance(5) == 0)
            add((uint32_t)ipxr_tunnel_second(&tunnel));
        else if (chance(9) == 0)
            add((uint32_t)ipxr_tunnel_send(&tunnel, sender.place));
        else
            add((uint32_t)ipxr_tunnel_hear(&tunnel, &sender, bytes, length));
        add_tunnel(&tunnel);
        add(ipxr_tunnel_extend(0x10, sockets, chance(40), 0x20, bytes, length));
        add_bytes(bytes, 30);
    }
    ipxr_tunnel_free(&tunnel);
}

static void play_keyed(void)
{
    static ipxr_keyed tunnel = IPXR_KEYED_NONE;
    const uint16_t remembered = (uint16_t)chance(9);
    const ipxr_keyed_setting setting = {0x10, {2, 0, 0, 0, 0, 1}, (uint16_t)(2 + chance(9)), 3, remembered, 3};
    add((uint32_t)ipxr_keyed_make(&tunnel, &setting));
    for (int k = 0; k < EVENTS; k++) {
        ipxr_keyed_sender sender;
        ipxr_keyed_member member;
        ipxr_own own;
        size_t length;
        memset(&sender, 0, sizeof sender);
        put_place(sender.place, chance(PLACES));
        put_place(sender.node, (uint32_t)sender.place[5] + 40);
        put_place(sender.former, (uint32_t)sender.place[5] + 80);
        put_cookie(sender.current, sender.place);
        put_cookie(sender.previous, sender.place);
        sender.is_trusted = chance(7) == 0;
        sender.may_register = chance(7) != 0;
        length = datagram(chance(2) ? sender.node : sender.place);
        add((uint32_t)(chance(5) ? ipxr_keyed_hear(&tunnel, &sender, bytes, length) : ipxr_keyed_second(&tunnel)));
        for (size_t at = 0; ipxr_keyed_own(&tunnel, at, &own) == 0; at++)
            add_bytes(own.place, 6), add_bytes(own.bytes, sizeof own.bytes);
        for (size_t at = 0; ipxr_keyed_client(&tunnel, at, &member) == 0; at++)
            add_bytes(member.place, 6), add_bytes(member.node, 6), add(member.seconds_left);
        for (size_t at = 0; ipxr_keyed_waiter(&tunnel, at, &member) == 0; at++)
            add_bytes(member.place, 6), add_bytes(member.node, 6), add(member.seconds_left);
        add(ipxr_keyed_pings(&tunnel)), add(ipxr_keyed_carried(&tunnel)), add(ipxr_keyed_receivers(&tunnel));
    }
    ipxr_keyed_free(&tunnel);
}

/* ---- A segment ---- */

static int32_t segment_happens(ipxr_segment *segment)
{
    uint8_t link = (uint8_t)chance(LINKS + 1), one[6], other[6];
    ipxr_link to;
    put_node(one);
    put_node(other);
    switch (chance(8)) {
    case 0:
        to.kind = (uint8_t)chance(4);
        to.share = (uint16_t)chance(9);
        return ipxr_segment_change(segment, link, &to);
    case 1:
        return ipxr_segment_come(segment, link, one);
    case 2:
        return ipxr_segment_leave(segment, link, one);
    case 3:
        return ipxr_segment_second(segment);
    case 4:
        return ipxr_segment_send(segment, one);
    default:
        return ipxr_segment_hear(segment, link, one, other);
    }
}

static void play_segment(void)
{
    static ipxr_segment segment = IPXR_SEGMENT_NONE;
    const ipxr_segment_setting setting = {0x10, {0, 0, 0, 0, 0, 1}, LINKS, (uint16_t)chance(20)};
    add((uint32_t)ipxr_segment_make(&segment, &setting));
    for (int k = 0; k < EVENTS; k++) {
        ipxr_address to = address();
        ipxr_station station;
        uint8_t link, node[6] = {0};
        add((uint32_t)segment_happens(&segment));
        for (size_t at = 0; ipxr_segment_receiver(&segment, at, &link) == 0; at++)
            add(link);
        for (size_t at = 0; ipxr_segment_station(&segment, at, &station) == 0; at++)
            add_bytes(station.node, 6), add(station.link), add(station.is_sure), add(station.seconds_left);
        add((uint32_t)ipxr_segment_next_node(&segment, &to, node));
        add_bytes(node, 6);
    }
    ipxr_segment_free(&segment);
}

/* ---- Limits, edges, plans ---- */

static void play_limits(void)
{
    static ipxr_reader reader;
    static ipxr_client_use client;
    static ipxr_address_use address_use;
    ipxr_meter handed = {0}, told = {0};
    const uint32_t rate = 1 + chance(2000), share = 1 + chance(60);
    const uint16_t routes = (uint16_t)chance(900);
    ipxr_limits limits;
    uint64_t clock = 0, now = 0;
    memset(&limits, 0, sizeof limits);
    memset(&reader, 0, sizeof reader);
    memset(&client, 0, sizeof client);
    memset(&address_use, 0, sizeof address_use);
    add(ipxr_limits_make(&limits, (uint8_t)(share % 2), rate, share, routes, (uint16_t)(routes / 2)));
    add(limits.handed.each), add(limits.handed.burst), add(limits.received.packets.one), add(limits.pages.burst);
    add(ipxr_fair_make(&reader.packets, &limits.received.packets)), add(ipxr_fair_make(&reader.pieces, &limits.received.pieces));
    for (int k = 0; k < EVENTS; k++) {
        uint8_t queue = (uint8_t)chance(256), kind = (uint8_t)chance(5);
        now += chance(50000000);
        ipxr_reader_look(&reader, &clock, now);
        add(clock), add(reader.packets.left), add(reader.packets.total), add(reader.packets.ends[queue]);
        add(ipxr_limits_receives(&limits, &reader, queue, chance(1500)));
        add(ipxr_limits_hands(&limits, 1 + chance(9), kind, &client, &address_use, &handed, &told));
        add(client.asked.used), add(address_use.asked.used), add(handed.used), add(told.used);
    }
}

static void play_edge(void)
{
    ipxr_rule rules[70];
    for (int k = 0; k < EVENTS; k++) {
        const ipxr_port port = {0x10 * (1 + chance(3)), {0, 0, 0, 0, 0, 1}, 1, 576, 9, 9};
        size_t passes = 77, length, count = chance(9) ? chance(6) : 60 + chance(10);
        uint32_t claimed = 5;
        for (size_t at = 0; at < count; at++) {
            memset(&rules[at], 0, sizeof rules[at]);
            rules[at].permits = (uint8_t)chance(2), rules[at].what = (uint8_t)(1 + chance(5)), rules[at].way = (uint8_t)(1 + chance(2));
            rules[at].type = (uint16_t)(chance(2) ? 0xFFFF : chance(22)), rules[at].socket = 0x455;
            rules[at].from = 0x10 * (1 + chance(9)), rules[at].to = rules[at].from + chance(900);
        }
        length = packet();
        add((uint32_t)ipxr_edge_filter((uint8_t)(1 + k % 2), &port, rules, count, bytes, length, &passes));
        add(passes), add_bytes(bytes, length);
        add((uint32_t)ipxr_edge_claim(&port, bytes, length, &claimed)), add(claimed);
        add((uint32_t)ipxr_edge_enter(&port, bytes, length)), add_bytes(bytes, length);
    }
}

static void put_link(ipxr_plan_link *it)
{
    memset(it, 0, sizeof *it);
    it->network = network(), it->carrier = (uint8_t)chance(chance(9) ? 4 : 5), it->frames = (uint8_t)chance(3);
    it->udp_port = (uint16_t)chance(3), it->number = chance(3), it->port = chance(3), it->clients = chance(2), it->sockets = chance(2);
    it->node[5] = (uint8_t)chance(2), it->has_node = chance(2) != 0, it->is_of_several = chance(2) != 0, it->is_first = chance(2) != 0;
}

static void play_plan(void)
{
    static ipxr_plan_link old[90], links[90];
    static ipxr_plan_origin origins[90];
    static ipxr_plan_fate fates[90];
    for (int k = 0; k < EVENTS / 4; k++) {
        size_t old_count = chance(9) ? chance(6) : chance(90), count = chance(9) ? chance(6) : chance(90);
        for (size_t at = 0; at < 90; at++)
            put_link(&old[at]), put_link(&links[at]);
        memset(origins, 1, sizeof origins);
        memset(fates, 1, sizeof fates);
        add((uint32_t)ipxr_plan(old, old_count, links, count, origins, chance(9) ? 90 : chance(9), fates, 90));
        for (size_t at = 0; at < 90; at++) {
            add((uint32_t)origins[at].was), add((uint32_t)origins[at].cable), add(origins[at].tunnel), add(origins[at].is_kept);
            add((uint32_t)fates[at].becomes), add(fates[at].is_closed), add(fates[at].ends_tunnel);
        }
    }
}

/* ---- A configuration ---- */

static const char *const LINES[] = {
    "network 10 1 1424 dosbox 127.0.0.1:2130", "clients 32 4", "allow 127.0.0.1 192.168.1.0/24", "rate 800 50 12800", "strangers 100",
    "line 1000", "extend 869C 869D", "network 30 1 1500 qemu-udp 127.0.0.1:5001 127.0.0.1:5002 raw",
    "network 41 1 1500 20 10 qemu-tcp connect b.example:5004 llc",
    "network 53 1 1492 200 100 interface eth1 auto", "deny type 20", "permit service 4 LAB* out", "deny network 1000 1FFF in",
    "route 2000 3 4 via 00000000000A", "link tap tap0 raw", "nodes by-address", "trust 192.168.1.7", "internal 99", "network 60 2 1500",
    "link qemu-tcp listen [::1]:5003 raw node 00000000000B", "adopt no", "service 4 SERVER 2000.000000000001.0451 3 via 00000000000A",
};

static void add_link(const ipxr_configured *link)
{
    add(link->line), add(link->network_line), add(link->port), add(link->number), add(link->cost), add(link->longest), add(link->routes);
    add(link->is_of_several), add(link->has_node), add_bytes(link->node, 6), add(link->carrier.number), add(link->carrier.frames);
    add_bytes(link->carrier.host, 254), add_bytes(link->carrier.name, 16), add(link->carrier.local.port), add(link->carrier.remote.six[7]);
    add(link->clients), add(link->rate), add(link->household), add(link->kilobits), add(link->sockets.count), add(link->sockets.list[0]);
    add(link->allowed.count), add(link->rules.count), add(link->rules.list[0].to), add_bytes(link->rules.list[0].name, 48);
    add(link->static_routes.count), add(link->static_routes.list[0].route.network), add(link->static_services.list[0].service.socket);
}

static void play_configuration(void)
{
    static ipxr_configuration all;
    static ipxr_configured link;
    memset(&all, 0, sizeof all);
    memset(&link, 0, sizeof link);
    for (size_t line = 1; line < 40; line++) {
        ipxr_setting said;
        ipxr_line_wrong wrong;
        char text[120] = {0};
        size_t length = strlen(strcpy(text, LINES[chance(sizeof LINES / sizeof *LINES)]));
        memset(&said, 0, sizeof said);
        memset(&wrong, 0, sizeof wrong);
        size_t place = chance((uint32_t)length);
        if (chance(5) == 0)
            text[place] = (char)(' ' + chance(90));
        add(ipxr_configuration_line(&all, (const uint8_t *)text, length, line, (uint8_t)chance(2), &said, &wrong));
        add(said.read), add(said.kind), add(said.bits), add(said.network.number), add(said.link.carrier), add(said.numbers[0]);
        add(wrong.unlinked), add(wrong.word), add(wrong.line), add(wrong.numbers[1]);
    }
    add(ipxr_configuration_unlinked(&all));
    for (size_t k = 0; ipxr_configuration_link(&all, k, &link); k++)
        add_link(&link);
}

int main(int count, char **words)
{
    static void (*const plays[])(void) = {play_router, play_tunnel, play_keyed, play_segment, play_limits, play_edge, play_plan,
                                          play_configuration};
    int rounds = count > 1 ? atoi(words[1]) : 1;
    for (int k = 0; k < rounds; k++) {
        state = (uint32_t)k + 1;
        for (size_t at = 0; at < sizeof plays / sizeof *plays; at++) {
            sum = 14695981039346656037u;
            plays[at]();
            printf("%08lx%08lx%s", (unsigned long)(sum >> 32), (unsigned long)(sum & 0xFFFFFFFFu), at < 7 ? " " : "\n");
        }
    }
    return 0;
}

/* Measures how much stack each call takes: it is made on a thread whose stack is painted, and then is looked how far down the paint
 * is gone. The tables are full, and the calls are those that have the most to do.
 *
 * With no word it says of each call whether it stays within what docs/LIBIPXR.md says; with the word `figures` it prints bytes. */
#define _POSIX_C_SOURCE 200112L
#include <pthread.h>
#include <stdio.h>
#include <stdlib.h>
#include <string.h>

#include "ipxr_cable.h"
#include "ipxr_edge.h"
#include "ipxr_limits.h"
#include "ipxr_segment.h"
#include "ipxr_keyed.h"
#include "ipxr_tunnel.h"
#include "packets.h"

enum { STACK = IPXR_STACK + (1 << 20), PAINT = 0xA5, LONGEST = 65535, PORTS = 3 };

/* What a call may take, in bytes: any call, and the making of a router, which holds the tables' records once before they are in their
 * block, 17 bytes a route and 77 a service. */
enum { MOST = 16 << 10, MOST_MAKING = MOST + 17 * IPXR_MOST_ROUTES + 77 * IPXR_MOST_SERVICES };

static const uint8_t NEIGHBOUR[6] = {0, 0, 0, 0, 0, 0xBB};
static const uint32_t FAR = 0x10000;

static ipxr router;
static ipxr_tunnel tunnel;
static ipxr_keyed keyed;
static ipxr_segment segment;
static ipxr_fair fair;
static ipxr_limits limits;
static ipxr_household_limits household;
static ipxr_strangers_limits strangers;
static ipxr_reader reader;
static ipxr_kinds kinds;
static ipxr_sender sender;
static ipxr_keyed_sender keyed_sender;
static unsigned char *stack;
static uint8_t packet[LONGEST];
static size_t length;
static int32_t answer;
static int faults;
static int in_figures;

/* ---- Packets ---- */

/* Fifty routes, so many hops away. */
static void put_routes(uint32_t port, uint32_t first, uint16_t hops)
{
    length = HEADER + 2 + ENTRIES * ENTRY;
    uint8_t *at = put_response(packet, RIP, ENTRIES, port + 1, NEIGHBOUR);
    for (uint32_t k = 0; k < ENTRIES; k++)
        at = put_entry(at, FAR + first + k, hops, 2);
}

/* Seven services, so many hops away. */
static void put_services(uint32_t port, unsigned first, uint16_t hops)
{
    length = HEADER + 2 + SERVICES * SERVICE;
    uint8_t *at = put_response(packet, SAP, SERVICES, port + 1, NEIGHBOUR);
    for (unsigned k = 0; k < SERVICES; k++) {
        const struct address offered = {FAR, NEIGHBOUR, 0x451};
        char name[16];
        snprintf(name, sizeof name, "S%05u", first + k);
        at = put_service(at, 4, name, offered, hops);
    }
}

/* A request for all routes, or for all services, on port 1. */
static void put_request(uint8_t type)
{
    uint16_t socket = type == RIP ? RIP_SOCKET : SAP_SOCKET;
    const struct address to = {2, EVERYONE, socket}, from = {2, NEIGHBOUR, 0x4001};
    length = HEADER + 2 + (type == RIP ? ENTRY : 2);
    uint8_t *at = put_number(put_header(packet, length, type, to, from), 2, 1);
    if (type == RIP)
        put_entry(at, 0xFFFFFFFF, 0xFFFF, 0xFFFF);
    else
        put_number(at, 2, 0xFFFF);
}

/* A packet to a node of port 1, or, of type 20, to all networks. */
static void put_data(uint8_t type)
{
    const struct address to = {type == 20 ? 1 : 2, type == 20 ? EVERYONE : NEIGHBOUR, 0x4003}, from = {1, NEIGHBOUR, 0x4003};
    length = type == 20 ? HEADER + 32 + 100 : LONGEST;
    memset(packet, 0, length);
    put_header(packet, length, type, to, from);
}

/* ---- Calls ---- */

static void nothing(void) {}

static void make(void)
{
    ipxr_port ports[PORTS];
    for (size_t k = 0; k < PORTS; k++) {
        const ipxr_port port = {(uint32_t)k + 1, {0, 0, 0, 0, 0, (uint8_t)(k + 1)}, 1, LONGEST, IPXR_NO_LIMIT, IPXR_NO_LIMIT};
        ports[k] = port;
    }
    answer = ipxr_make(&router, ports, PORTS);
}

static void start(void) { answer = ipxr_start(&router); }
static void stop(void) { answer = ipxr_stop(&router); }
static void second(void) { answer = ipxr_second(&router); }
static void down(void) { answer = ipxr_port_down(&router, 0); }
static void up(void) { answer = ipxr_port_up(&router, 0); }
static void take(void) { answer = ipxr_packet(&router, 0, packet, length); }
static void take_on_1(void) { answer = ipxr_packet(&router, 1, packet, length); }
static void empty(void) { ipxr_free(&router); }

static void make_tunnel(void)
{
    const ipxr_tunnel_setting setting = {1, {0, 0, 0, 0, 0, 1}, IPXR_MOST_CLIENTS, IPXR_MOST_CLIENTS};
    answer = ipxr_tunnel_make(&tunnel, &setting);
}

static void hear(void) { answer = ipxr_tunnel_hear(&tunnel, &sender, packet, length); }
static void send_to_all(void) { answer = ipxr_tunnel_send(&tunnel, EVERYONE); }
static void second_of_tunnel(void) { answer = ipxr_tunnel_second(&tunnel); }
static void empty_tunnel(void) { ipxr_tunnel_free(&tunnel); }

/* Whatever reads the tunnel. */
static void read_tunnel(void)
{
    ipxr_own own;
    ipxr_client client;
    uint8_t place[6];
    ipxr_tunnel_own(&tunnel, 0, &own);
    ipxr_tunnel_receiver(&tunnel, 0, place);
    ipxr_tunnel_leaver(&tunnel, 0, place);
    ipxr_tunnel_client(&tunnel, 0, &client);
}

static void make_keyed(void)
{
    const ipxr_keyed_setting setting = {1, {0, 0, 0, 0, 0, 1}, IPXR_MOST_CLIENTS, IPXR_MOST_CLIENTS, IPXR_MOST_CLIENTS, IPXR_MOST_CLIENTS};
    answer = ipxr_keyed_make(&keyed, &setting);
}

static void hear_keyed(void) { answer = ipxr_keyed_hear(&keyed, &keyed_sender, packet, length); }
static void send_keyed(void) { answer = ipxr_keyed_send(&keyed, EVERYONE); }
static void second_of_keyed(void) { answer = ipxr_keyed_second(&keyed); }
static void empty_keyed(void) { ipxr_keyed_free(&keyed); }

/* Whatever reads such a tunnel. */
static void read_keyed(void)
{
    ipxr_own own;
    ipxr_keyed_member member;
    uint8_t place[6];
    ipxr_keyed_own(&keyed, 0, &own);
    ipxr_keyed_receiver(&keyed, 0, place);
    ipxr_keyed_leaver(&keyed, 0, &member);
    ipxr_keyed_client(&keyed, 0, &member);
    ipxr_keyed_waiter(&keyed, 0, &member);
}

static void make_segment(void)
{
    const ipxr_segment_setting setting = {1, {0, 0, 0, 0, 0, 1}, IPXR_MOST_LINKS, IPXR_MOST_STATIONS};
    answer = ipxr_segment_make(&segment, &setting);
}

static void hear_at_0(void) { answer = ipxr_segment_hear(&segment, 0, sender.place, EVERYONE); }
static void send_over_segment(void) { answer = ipxr_segment_send(&segment, EVERYONE); }
static void second_of_segment(void) { answer = ipxr_segment_second(&segment); }
static void come_to_1(void) { answer = ipxr_segment_come(&segment, 1, sender.place); }
static void leave_1(void) { answer = ipxr_segment_leave(&segment, 1, sender.place); }
static void empty_segment(void) { ipxr_segment_free(&segment); }

static void cable_0(void)
{
    const ipxr_link wire = {IPXR_LINK_CABLE, IPXR_MOST_STATIONS};
    answer = ipxr_segment_change(&segment, 0, &wire);
}

static void sure_1(void)
{
    const ipxr_link link = {IPXR_LINK_SURE, IPXR_MOST_STATIONS};
    answer = ipxr_segment_change(&segment, 1, &link);
}

/* Whatever reads the segment. */
static void read_segment(void)
{
    const ipxr_address to = {1, {0, 0, 0, 0, 0, 1}, 2};
    ipxr_station station;
    ipxr_link values;
    uint8_t link, node[6];
    ipxr_segment_receiver(&segment, 0, &link);
    ipxr_segment_station(&segment, 0, &station);
    ipxr_segment_link(&segment, 0, &values);
    ipxr_segment_next_node(&segment, &to, node);
}

/* ---- A receiver ---- */

static void make_receiver(void)
{
    const ipxr_fair_setting setting = {1, IPXR_SPEAKERS, IPXR_SPEAKERS * IPXR_SPEAKERS, 1};
    answer = ipxr_fair_make(&fair, &setting) ? 0 : -1;
}

/* All speak, each more than the one before. */
static void say_all(void)
{
    for (unsigned k = 0; k < IPXR_SPEAKERS; k++)
        if (!ipxr_fair_says(&fair, (uint8_t)k, k + 1))
            answer = -1;
}

/* So long that all queues but one run empty, one after the other. */
static void serve_all(void) { ipxr_fair_pass(&fair, fair.total - 1); }

/* ---- Limits ---- */

static void make_limits(void)
{
    bool are_made = ipxr_limits_make(&limits, IPXR_LIMITS_FRAMES, 800, 50, IPXR_NO_LIMIT, IPXR_NO_LIMIT) &&
                    ipxr_household_make(&household, 12800) && ipxr_strangers_make(&strangers, 100) &&
                    ipxr_fair_make(&reader.packets, &limits.received.packets) && ipxr_fair_make(&reader.pieces, &limits.received.pieces);
    ipxr_told_make(&fair);
    answer = are_made ? 0 : -1;
}

/* What a client and its address say: each goes on, as often as here. */
static void say_within_limits(void)
{
    ipxr_client_use client = {{0}, {0}, {0}, {0}};
    ipxr_address_use address = {{0}, {0}, {0}};
    ipxr_meter all = {0}, handed = {0}, advertised = {0};
    uint8_t kind = ipxr_kind_of(packet, length);
    answer = -(ipxr_limits_says(&limits, IPXR_KIND_PING, &client, &all) | ipxr_limits_frames_say(&limits, IPXR_KIND_PING, &all) |
               ipxr_limits_answers(&limits, 1, &client, &address) | ipxr_limits_router_answers(&limits, 1, &client, &address) |
               ipxr_limits_hands(&limits, 1, kind, &client, &address, &handed, &advertised) |
               ipxr_limits_frames_hand(&limits, 0, IPXR_KIND_TOLD, &handed, &advertised, &fair) |
               ipxr_strangers_send(&strangers, 1, &handed, &advertised));
}

/* Everybody says so much that each queue has some of it. */
static void receive_all(void)
{
    ipxr_meter among = {0};
    for (unsigned k = 0; k < IPXR_SPEAKERS; k++) {
        ipxr_limits_receives(&limits, &reader, (uint8_t)k, LONGEST);
        ipxr_limits_hears_router(&limits, &reader, (uint8_t)k, k);
        ipxr_limits_carries(&limits, &reader, (uint8_t)k, k, 4);
        ipxr_household_receives(&household, &limits, &reader, &fair, (uint8_t)k, LONGEST);
        ipxr_household_receives_of_own(&household, &limits, &reader, &among, (uint8_t)k, LONGEST);
        ipxr_household_receives_of_router(&household, &limits, &reader, &fair, (uint8_t)k, LONGEST);
    }
}

/* So long that all has been read. */
static void read_all(void)
{
    uint64_t clock = 0;
    ipxr_reader_look(&reader, &clock, IPXR_MOST_TIME);
    if (reader.packets.total != 0 || reader.pieces.total != 0)
        answer = -1;
}

/* ---- Cables ---- */

/* As many stations as there is room for, and one more of each bucket. */
static void hear_kinds(void)
{
    uint8_t node[6] = {2};
    for (unsigned k = 0; k < 64 * 9; k++) {
        put_number(node + 1, 4, k);
        if (!ipxr_kinds_hear(&kinds, k, node, IPXR_FRAME_RAW, true) || !ipxr_kinds_speaks(&kinds, k, node, IPXR_FRAME_RAW))
            answer = -1;
    }
}

static void second_of_cables(void)
{
    ipxr_loop first = {0}, later = {0};
    ipxr_pace pace = {0, 0};
    const ipxr_range all = {{0}, 0};
    ipxr_kinds_second(&kinds);
    ipxr_pace_more_wait(&pace, 2, 1, 1);
    answer = ipxr_loop_probe(1, 0, 0, 0, &later, &first) == IPXR_PROBE_HERE && !ipxr_loop_second(&later) &&
                     ipxr_ranges_have(&all, 1, NEIGHBOUR) && ipxr_range_is_first(&all) && ipxr_pace_lets_go(&pace, 2, 1)
                 ? 0
                 : -1;
}

/* Whatever reads the router, and the packets that it sends. */
static void read(void)
{
    ipxr_packet_sent sent;
    ipxr_route_record route;
    ipxr_service_record service;
    uint8_t word[IPXR_MOST_WORD];
    ipxr_get(&router, 0, &sent, packet, sizeof packet);
    ipxr_route(&router, 0, &route);
    ipxr_service(&router, 0, &service);
    ipxr_word(0, word, sizeof word);
    ipxr_is_up(&router, 0);
    ipxr_clear(&router);
}

/* As many routes and services as a packet may have, a query, and the longest packet. */
static void write_all(void)
{
    static const ipxr_address here = {1, {0, 0, 0, 0, 0, 0xBB}, IPXR_SAP_SOCKET};
    static const ipxr_route_entry routes[IPXR_PACKET_ROUTES];
    static const uint8_t data[LONGEST - HEADER];
    static ipxr_service_entry services[IPXR_PACKET_SERVICES];
    for (size_t k = 0; k < IPXR_PACKET_SERVICES; k++)
        services[k].name[0] = 'S';
    answer = ipxr_write_rip(&here, &here, IPXR_RIP_RESPONSE, routes, IPXR_PACKET_ROUTES, packet, sizeof packet);
    if (answer >= 0)
        answer = ipxr_write_sap(&here, &here, 0, services, IPXR_PACKET_SERVICES, packet, sizeof packet);
    if (answer >= 0)
        answer = ipxr_write_query(&here, &here, 0, 4, packet, sizeof packet);
    if (answer >= 0)
        answer = ipxr_write_packet(&here, &here, 0, 0, data, sizeof data, packet, sizeof packet);
}

/* ---- The edge of a cable ---- */

static const ipxr_port AT_EDGE = {2, {0, 0, 0, 0, 0, 2}, 1, LONGEST, IPXR_NO_LIMIT, IPXR_NO_LIMIT};
static ipxr_rule rules[IPXR_MOST_RULES];

/* As many rules as there may be: only the last one names the services. */
static void make_rules(void)
{
    for (size_t k = 0; k < IPXR_MOST_RULES; k++) {
        rules[k].what = IPXR_RULE_SERVICES;
        rules[k].way = IPXR_WAY_IN;
        rules[k].type = 4;
        rules[k].names = IPXR_NAMES_BEGIN;
        rules[k].name[0] = k + 1 < IPXR_MOST_RULES ? 'T' : 'S';
    }
}

/* As many services as a packet may have come in. */
static void filter(void)
{
    size_t passes;
    answer = ipxr_edge_enter(&AT_EDGE, packet, length);
    if (answer == 1)
        answer = ipxr_edge_filter(IPXR_WAY_IN, &AT_EDGE, rules, IPXR_MOST_RULES, packet, length, &passes);
    if (answer != 0)
        answer = -1;
}

/* ---- Measuring ---- */

static void *on_thread(void *call)
{
    (*(void (**)(void))call)();
    return NULL;
}

/* How much of the stack a thread took that only makes this call. */
static size_t taken(void (*call)(void))
{
    pthread_attr_t how;
    pthread_t thread;
    memset(stack, PAINT, STACK);
    answer = 0;
    if (pthread_attr_init(&how) != 0 || pthread_attr_setstack(&how, stack, STACK) != 0 ||
        pthread_create(&thread, &how, on_thread, &call) != 0 || pthread_join(thread, NULL) != 0) {
        puts("no thread can be made on a stack of its own");
        exit(1);
    }
    pthread_attr_destroy(&how);
    size_t untouched = 0;
    while (untouched < STACK && stack[untouched] == PAINT)
        untouched++;
    if (answer < 0)
        faults++;
    return STACK - untouched;
}

/* A call, and how much stack it took beyond an empty one. */
static void measure(const char *what, void (*call)(void), size_t most)
{
    size_t before = taken(nothing);
    size_t bytes = taken(call) - before;
    if (in_figures)
        printf("%s: %zu bytes\n", what, bytes);
    else
        printf("%s: %s\n", what, bytes <= most ? "no more than stated" : "too much");
}

/* The same call without a measurement, so often. */
static void play(void (*call)(void), int turns)
{
    for (int turn = 0; turn < turns; turn++) {
        call();
        if (answer < 0)
            faults++;
        ipxr_clear(&router);
    }
}

/* The tables are filled by port 0, or refreshed. */
static void fill(void)
{
    for (uint32_t first = 0; first < IPXR_MOST_ROUTES; first += ENTRIES) {
        put_routes(0, first, 1);
        play(take, 1);
    }
    for (unsigned first = 0; first < IPXR_MOST_SERVICES; first += SERVICES) {
        put_services(0, first, 1);
        play(take, 1);
    }
}

/* Every second record came by port 0, the others by port 1: so what ends lies between what stays. */
static void fill_by_turns(void)
{
    for (uint32_t k = 0; k < IPXR_MOST_ROUTES / ENTRIES; k++) {
        put_routes(k % 2, k * ENTRIES, 1);
        play(k % 2 == 0 ? take : take_on_1, 1);
    }
    for (unsigned k = 0; k < IPXR_MOST_SERVICES / SERVICES; k++) {
        put_services(k % 2, k * SERVICES, 1);
        play(k % 2 == 0 ? take : take_on_1, 1);
    }
}

/* ---- What is measured ---- */

static void learn(void)
{
    put_routes(0, 0, 1);
    measure("fifty new routes", take, MOST);
    put_services(0, 0, 1);
    measure("seven new services", take, MOST);
    fill();
    put_routes(0, 0, 1);
    measure("fifty routes are refreshed", take, MOST);
    put_routes(0, 0, 16);
    measure("fifty routes are withdrawn", take, MOST);
    put_services(0, 0, 16);
    measure("seven services are withdrawn", take, MOST);
    fill();
}

static void hand_on(void)
{
    put_request(RIP);
    measure("a request for all routes", take_on_1, MOST);
    put_request(SAP);
    measure("a query for all services", take_on_1, MOST);
    put_data(0);
    measure("the longest packet is forwarded", take, MOST);
    put_data(20);
    measure("a packet goes to all networks", take, MOST);
    measure("all is read", read, MOST);
    measure("packets are written", write_all, MOST);
}

static void pass_seconds(void)
{
    play(stop, 1);
    play(start, 1);
    fill();
    measure("a second", second, MOST);
    play(second, 58);
    measure("a second that advertises all", second, MOST);
    play(second, 119);
    measure("a second in which all ends", second, MOST);
}

static void lose_ports(void)
{
    fill();
    measure("a port goes down, and all ends", down, MOST);
    measure("a port comes up", up, MOST);
    play(stop, 1);
    play(start, 1);
    fill_by_turns();
    measure("a port goes down, and half ends", down, MOST);
}

/* As many clients as there is room for: trusted ones, which register. */
static void fill_tunnel(void)
{
    static const uint8_t NOBODY[6] = {0};
    sender.is_trusted = true;
    for (uint32_t k = 0; k < IPXR_MOST_CLIENTS; k++) {
        put_number(sender.place, 4, k + 1);
        const struct address to = {1, NOBODY, 2}, from = {1, sender.place, 2};
        length = HEADER;
        put_header(packet, length, 0, to, from);
        play(hear, 1);
    }
}

/* Says a packet of each who has room in such a tunnel: to a node and socket. */
static void all_say(const uint8_t *node, uint16_t socket)
{
    keyed_sender.may_register = 1;
    keyed_sender.node[0] = 2;
    for (uint32_t k = 0; k < IPXR_MOST_CLIENTS; k++) {
        put_number(keyed_sender.place, 4, k + 1);
        put_number(keyed_sender.node + 1, 4, k + 1);
        const struct address to = {1, node, socket}, from = {1, keyed_sender.node, socket};
        length = HEADER;
        put_header(packet, length, 0, to, from);
        play(hear_keyed, 1);
    }
}

static void play_keyed(void)
{
    static const uint8_t NOBODY[6] = {0};
    measure("a tunnel with keyed nodes is made", make_keyed, MOST);
    all_say(NOBODY, 2);
    all_say(EVERYONE, 0x4003);
    measure("its client speaks to all", hear_keyed, MOST);
    measure("the router speaks to all of it", send_keyed, MOST);
    play(second_of_keyed, 8);
    measure("a second that pings all who are remembered", second_of_keyed, MOST);
    measure("all of it is read", read_keyed, MOST);
    play(second_of_keyed, 20);
    measure("a second in which all leave it", second_of_keyed, MOST);
    measure("it is freed", empty_keyed, MOST);
}

static void play_tunnel(void)
{
    measure("a tunnel is made", make_tunnel, MOST);
    measure("a tunnel is made in its place", make_tunnel, MOST);
    fill_tunnel();
    measure("a client registers again", hear, MOST);
    const struct address to = {1, EVERYONE, 0x4003}, from = {1, sender.place, 0x4003};
    put_header(packet, length, 0, to, from);
    measure("a client speaks to all", hear, MOST);
    measure("the router speaks to all", send_to_all, MOST);
    play(second_of_tunnel, 4);
    measure("a second that pings all", second_of_tunnel, MOST);
    measure("all of the tunnel is read", read_tunnel, MOST);
    play(second_of_tunnel, 174);
    measure("a second in which all leave", second_of_tunnel, MOST);
    measure("a tunnel is freed", empty_tunnel, MOST);
}

/* As many stations as there is room for, all of one link. */
static void fill_segment(void)
{
    for (uint32_t k = 0; k < IPXR_MOST_STATIONS; k++) {
        put_number(sender.place, 4, k + 1);
        play(hear_at_0, 1);
    }
}

static void play_segment(void)
{
    measure("a segment is made", make_segment, MOST);
    measure("a segment is made in its place", make_segment, MOST);
    measure("a link goes up as a cable", cable_0, MOST);
    measure("a link goes up as sure", sure_1, MOST);
    fill_segment();
    measure("a station is heard again", hear_at_0, MOST);
    measure("the router sends over all links", send_over_segment, MOST);
    measure("all of the segment is read", read_segment, MOST);
    measure("a station comes to the sure link", come_to_1, MOST);
    measure("it leaves", leave_1, MOST);
    measure("a second that ages all", second_of_segment, MOST);
    play(second_of_segment, 298);
    measure("a second in which all are forgotten", second_of_segment, MOST);
    measure("a segment is freed", empty_segment, MOST);
}

static void play_receiver(void)
{
    measure("a receiver is made", make_receiver, MOST);
    measure("all speak to it", say_all, MOST);
    measure("all that they said is served", serve_all, MOST);
}

static void play_limits(void)
{
    measure("limits are made", make_limits, MOST);
    measure("somebody speaks within limits", say_within_limits, MOST);
    measure("a reader hears what it has room for", receive_all, MOST);
    measure("all of it is read", read_all, MOST);
}

static void play_edge(void)
{
    make_rules();
    put_services(1, 0, 1);
    measure("seven services are filtered by sixty-four rules", filter, MOST);
}

static void play_cables(void)
{
    measure("stations of any kind are heard", hear_kinds, MOST);
    measure("a second for cables", second_of_cables, MOST);
}

int main(int count, char **words)
{
    in_figures = count > 1 && strcmp(words[1], "figures") == 0;
    if (posix_memalign((void **)&stack, 4096, STACK) != 0)
        return 1;
    measure("a router is made", make, MOST_MAKING);
    measure("a router is made in its place", make, MOST_MAKING);
    measure("a start", start, MOST);
    learn();
    hand_on();
    pass_seconds();
    lose_ports();
    measure("a stop", stop, MOST);
    measure("a router is freed", empty, MOST);
    play_tunnel();
    play_keyed();
    play_segment();
    play_receiver();
    play_limits();
    play_cables();
    play_edge();
    free(stack);
    printf("faults: %d\n", faults);
    return 0;
}

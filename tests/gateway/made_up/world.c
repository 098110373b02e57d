/* What happens around the gateway, at random: each kind of event has a weight in a mood, and moods change. */
#include "world.h"

#include <errno.h>
#include <stdio.h>
#include <string.h>

#include "browsers.h"
#include "cards.h"
#include "chance.h"
#include "clocks.h"
#include "configurations.h"
#include "descriptors.h"
#include "files.h"
#include "groups.h"
#include "ipx.h"
#include "names.h"
#include "pages.h"
#include "peace.h"
#include "places.h"
#include "play.h"
#include "steady.h"
#include "switches.h"
#include "viewers.h"
#include "weather.h"
#include "writers.h"

enum { MOST_ACTS = 6, SHORTEST_MOOD = 20, LONGEST_MOOD = 400, MILLISECOND_NS = 1000000, LONG_BURST = 150, FIRST_CALLER = 50000 };

/* ---- Datagrams of the tunnel ---- */

/* Whether it is a socket of something else than the tunnel: its other end is one machine, or places. */
static bool is_no_tunnel(int fd)
{
    const network *on = network_at(fd);
    return descriptor_at(fd, DATAGRAMS)->has_remote || (on != NULL && on->set->type == LINK_PEERS);
}

static int any_tunnel(void)
{
    int fd = descriptor_any(DATAGRAMS);
    for (int k = 0; k < 8 && fd >= 0 && is_no_tunnel(fd); k++)
        fd = descriptor_any(DATAGRAMS);
    return fd >= 0 && !is_no_tunnel(fd) ? fd : -1;
}

/* The place of a peer that the configuration names. */
static void any_peer(const network_setting *set, uint8_t place[6])
{
    const address *at = &set->peers[below((uint32_t)set->peer_count)].at;
    memcpy(place, at->host, sizeof at->host);
    put16(place + sizeof at->host, at->port);
}

/* A place, mostly of somebody who is a client there, or a peer. */
static void any_player(network *on, uint8_t place[6])
{
    ipxr_keyed_member client;
    size_t count = ipxr_keyed_clients(&on->tunnel);
    any_place(place);
    if (on->set->type == LINK_RFC1234 && on->set->peer_count > 0 && !one_in(4))
        any_peer(on->set, place);
    if (count > 0 && !one_in(4) && ipxr_keyed_client(&on->tunnel, below((uint32_t)count), &client) == 0)
        memcpy(place, client.place, NODE);
}

/* The node by which somebody at a place speaks: the one that he was told, now and then that of his address, or of any client. */
static void any_source(network *on, const uint8_t place[6], uint8_t node[6])
{
    ipxr_keyed_member other;
    const uint8_t *own = node_of(place);
    size_t count = ipxr_keyed_clients(&on->tunnel);
    if (on->set->type == LINK_RFC1234 && !one_in(6)) {
        memset(node, 0, NODE - 4);
        memcpy(node + NODE - 4, place, 4);
        return;
    }
    memcpy(node, own != NULL && !one_in(on->set->nodes_by_address ? 3 : 20) ? own : place, NODE);
    if (one_in(20) && count > 0 && ipxr_keyed_client(&on->tunnel, below((uint32_t)count), &other) == 0)
        memcpy(node, other.node, NODE);
    else if (one_in(20))
        any_node(node);
}

/* What a player says: he comes in, answers a ping with its cookie or with another, or says something. */
void make_word(made_packet *it, network *on, const uint8_t place[6])
{
    uint8_t guessed[NODE];
    station from = {.network = one_in(4) ? 0 : on->set->network};
    const uint8_t *cookie = cookie_of(place);
    any_source(on, place, from.node);
    any_node(guessed);
    switch (node_of(place) == NULL && !one_in(4) ? 0 : below(8)) {
    case 0:
        make_registration(it);
        break;
    case 1:
        make_answer(it, from.node, cookie != NULL && !one_in(6) ? cookie : guessed);
        break;
    default:
        make_any(it, the_gate, on, &from);
    }
}

static void say(unsigned times)
{
    made_packet made = {.length = 0};
    uint8_t place[NODE];
    int fd = any_tunnel();
    network *on = fd >= 0 ? network_at(fd) : NULL;
    if (on == NULL)
        return;
    any_player(on, place);
    make_word(&made, on, place);
    address from = {.port = get16(place + 4)};
    memcpy(from.host, place, sizeof from.host);
    told("on %d %u x %zu bytes from 10.0.0.%u:%u", fd, times, made.length, place[3], from.port);
    for (; times > 0; times--)
        comes(descriptor_at(fd, DATAGRAMS), &from, made.bytes, made.length);
}

static void one_says(void)
{
    say(1);
}

static void one_floods(void)
{
    say(between(2, LONG_BURST));
}

/* All who play say something. */
static void players_play(void)
{
    for (unsigned k = between(2, 30); k > 0; k--)
        say(1);
}

/* ---- Frames ---- */

/* A descriptor that carries frames, or -1. */
static int any_cable(void)
{
    static const what KINDS[] = {CARD, TAP, CONNECTION, DATAGRAMS, CARD, GROUP, PORT};
    int fd = descriptor_any(KINDS[below(7)]);
    bool is_tunnel = fd >= 0 && descriptor_if_open(fd)->is == DATAGRAMS && !descriptor_at(fd, DATAGRAMS)->has_remote;
    return is_tunnel ? -1 : fd;
}

/* Where the frame goes: to all, to the gateway, to a station, to a client. */
static void any_destination(const network *on, uint8_t node[6])
{
    if (one_in(2))
        memset(node, IPXR_BROADCAST_BYTE, NODE);
    else if (one_in(2))
        memcpy(node, on->node, NODE);
    else if (one_in(2))
        any_node(node);
    else
        any_place(node);
}

/* Makes a frame up. Returns its length. */
size_t make_frame(network *on, uint8_t frame[MOST_RECEIVED])
{
    made_packet made = {.length = 0};
    uint8_t to[NODE];
    station from = {.network = one_in(4) ? 0 : on->set->network};
    uint8_t kind = on->set->kind != ANY_KIND && !one_in(8) ? on->set->kind : (uint8_t)between(1, IPXR_FRAME_KINDS);
    any_node(from.node);
    if (one_in(16))
        any_place(from.node);
    if (one_in(24))
        memcpy(from.node, on->node, NODE);
    any_destination(on, to);
    make_any(&made, the_gate, on, &from);
    size_t length = ipxr_frame_write(kind, to, from.node, made.bytes, made.length, frame, IPXR_LONGEST_FRAME);
    if (length == 0 || one_in(20)) {
        length = one_in(3) ? MOST_RECEIVED : below(MOST_RECEIVED);
        chance_bytes(frame, length < 80 ? length : 80);
    }
    return length;
}

static void carry(unsigned times)
{
    uint8_t frame[MOST_RECEIVED] = {0};
    int fd = any_cable();
    network *on = fd >= 0 ? network_at(fd) : NULL;
    if (on == NULL)
        return;
    size_t length = make_frame(on, frame);
    told("on %d %u x a frame of %zu bytes", fd, times, length);
    for (; times > 0; times--)
        frame_comes(fd, frame, length);
}

static void one_frame(void)
{
    carry(1);
}

static void many_frames(void)
{
    carry(between(2, LONG_BURST));
}

static void stations_play(void)
{
    for (unsigned k = between(2, 20); k > 0; k--)
        carry(1);
}

/* Somebody says that nobody hears at the other end. */
static void one_complains(void)
{
    int fd = descriptor_any(DATAGRAMS);
    if (fd >= 0)
        descriptor_at(fd, DATAGRAMS)->is_complained = descriptor_at(fd, DATAGRAMS)->has_remote;
}

/* ---- Connections ---- */

static void one_calls(void)
{
    int fd = descriptor_any(LISTENER);
    address from = {.host = {10, 0, 1, (uint8_t)below(9)}, .port = (uint16_t)(FIRST_CALLER + below(99))};
    for (unsigned k = one_in(6) ? between(2, 20) : 1; fd >= 0 && k > 0; k--)
        somebody_calls(descriptor_at(fd, LISTENER), &from);
    told("somebody calls %d", fd);
}

/* Something that isn't a whole frame: a part of one, a length that can't be one, or none. */
static void half_a_frame(void)
{
    uint8_t bytes[300];
    int fd = descriptor_any(CONNECTION);
    if (fd < 0)
        return;
    size_t length = between(1, sizeof bytes);
    memset(bytes, 0, sizeof bytes);
    put32(bytes, one_in(3) ? below(2) * 0xFFFFFFF0u : between(0, 70000));
    bytes_come(descriptor_at(fd, CONNECTION), bytes, length);
    told("%zu bytes of a frame of %u on %d", length, (unsigned)get32(bytes), fd);
}

/* It is closed or reset, or its machine goes silent, or takes nothing or much. */
static void connection_changes(void)
{
    static const int FAULTS[] = {0, ECONNRESET, ETIMEDOUT, EHOSTUNREACH};
    int fd = descriptor_any(CONNECTION);
    if (fd < 0)
        return;
    descriptor *it = descriptor_at(fd, CONNECTION);
    switch (below(4)) {
    case 0:
        it->stage = CUT;
        it->fault = FAULTS[below(4)];
        break;
    case 1:
        it->is_dead = !it->is_dead;
        break;
    default:
        it->takes = below(3) * between(0, 200000);
    }
    told("connection %d: stage %d, takes %zu", fd, it->stage, it->takes);
}

/* ---- The machine ---- */

static void card_comes_or_goes(void)
{
    card_changes(any_card());
}

static void clock_jumps(void)
{
    static const uint32_t SECONDS[] = {1, 1, 2, 5, 30, 60, 200, 900};
    uint32_t seconds = SECONDS[below(8)];
    told("the clock jumps by %u s", seconds);
    clock_passes((uint64_t)seconds * SECOND_NS + below(SECOND_NS));
}

static void clock_changes(void)
{
    static const uint32_t NANOSECONDS[] = {0, 0, 1, 1000, 50000};
    clock_runs(NANOSECONDS[below(5)]);
}

static void weather_changes(void)
{
    static const unsigned ONE_IN[] = {0, 0, 3, 10, 50, 200};
    weather_clears();
    if (one_in(3))
        return;
    the_weather.calls = ONE_IN[below(6)];
    the_weather.memory = one_in(3) ? ONE_IN[below(6)] : 0;
    the_weather.nth = one_in(3) ? between(1, 60) : 0;
    if (one_in(4))
        the_weather.most_open = (unsigned)descriptors_open() + below(3);
    told("weather: calls %u memory %u nth %u most %u", the_weather.calls, the_weather.memory, the_weather.nth, the_weather.most_open);
}

static void other_configuration(void)
{
    weather before = the_weather;
    weather_clears();
    configuration_changes();
    the_weather = before;
    told("configuration:\n%s", configuration_text());
    if (one_in(4))
        somebody_reloads();
    else
        order_read();
}

static void somebody_wants_a_report(void)
{
    order_report();
}

static void readers_come_or_go(void)
{
    writers_are_read(!one_in(4));
    if (one_in(40))
        capture_is_gone();
}

/* ---- Moods ---- */

static const struct {
    void (*act)(void);
    unsigned weight; /* in a usual mood */
} ACTS[] = {
    {one_says, 30},      {one_floods, 3},         {players_play, 8},         {one_frame, 30},        {many_frames, 3},
    {stations_play, 8},  {one_complains, 1},      {one_calls, 4},            {half_a_frame, 2},      {connection_changes, 3},
    {card_comes_or_goes, 2}, {clock_jumps, 2},    {clock_changes, 1},        {name_is_answered, 3},  {weather_changes, 2},
    {other_configuration, 2}, {somebody_wants_a_report, 1}, {readers_come_or_go, 1}, {viewers_act, 14}, {address_comes_or_goes, 1},
    {cables_are_joined_or_not, 2}, {a_card_is_beneath_or_not, 2}, {group_card_changes, 1}, {switch_acts, 6}, {pages_act, 20},
    {places_act, 20},
};

/* One mood in so many ends in peace, and in one in so many some players play all the while. */
enum { PEACE = 8, STEADY = 5, LONGEST_STEADY = 1500 };

enum { KINDS_OF_ACTS = sizeof ACTS / sizeof *ACTS };

static struct {
    unsigned weights[KINDS_OF_ACTS];
    unsigned acts;    /* in a turn, at most */
    uint64_t between; /* nanoseconds from a turn to the next, at most */
    unsigned left;    /* turns */
    bool is_steady;
} mood;

static void mood_changes(void)
{
    static const unsigned TIMES[] = {0, 1, 1, 1, 4, 20};
    static const uint64_t BETWEEN[] = {0, 1000, MILLISECOND_NS, 10 * MILLISECOND_NS, 300 * MILLISECOND_NS, 3000 * (uint64_t)MILLISECOND_NS};
    mood.left = between(SHORTEST_MOOD, LONGEST_MOOD);
    mood.acts = between(1, MOST_ACTS);
    mood.between = BETWEEN[below(6)];
    for (size_t k = 0; k < KINDS_OF_ACTS; k++)
        mood.weights[k] = ACTS[k].weight * TIMES[below(6)];
    mood.weights[0]++;
    if (one_in(2))
        weather_clears();
    mood.is_steady = the_gate != NULL && one_in(STEADY) && steady_begins();
    if (mood.is_steady) {
        weather_clears();
        mood.left = between(LONGEST_MOOD, LONGEST_STEADY);
    }
    told("another mood, for %u turns", mood.left);
}

void world_begins(void)
{
    cards_begin();
    mood_changes();
}

/* Whether nothing else happens in this turn: it is peace, or players play. */
static bool is_all(void)
{
    if (peace_passes(the_gate))
        return true;
    if (mood.left-- == 0) {
        mood_changes();
        if (one_in(PEACE)) {
            peace_begins();
            return true;
        }
    }
    if (mood.is_steady)
        steady_passes();
    else
        clock_passes(mood.between > 0 ? (uint64_t)below(1000) * mood.between / 1000 : 0);
    return mood.is_steady && !one_in(20);
}

void world_acts(void)
{
    if (!is_all())
        for (unsigned k = between(0, mood.acts); k > 0; k--)
            ACTS[chance_weighted(mood.weights, KINDS_OF_ACTS)].act();
    browsers_act();
    writers_write();
}

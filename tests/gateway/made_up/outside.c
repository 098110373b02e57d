/* What the world hears of the gateway, and what it does at once: players answer pings, stations answer questions. */
#include "outside.h"

#include <errno.h>
#include <string.h>

#include "chance.h"
#include "clocks.h"
#include "configurations.h"
#include "ipx.h"
#include "pages.h"
#include "peace.h"
#include "places.h"
#include "play.h"
#include "tunnel/nodes.h"
#include "world.h"

enum { PING = 2, SILENT_HOST = 10, SLOW_HOST = 8, MILLION = 1000000, COME_AND_GO = 99, FIRST_PORT = 40000 };

/* What a player knows: its node, and the source of its last ping; zeros where it was told none. */
typedef struct player {
    uint8_t node[NODE], cookie[NODE];
} player;

static player players[ALL_HOSTS][PORTS_OF_HOST];
static bool has_address = true;
static int joined[2] = {-1, -1}, upper = -1, lower = -1;

/* ---- Addresses ---- */

void address_comes_or_goes(void)
{
    has_address = !has_address;
    told("the machine %s 10.0.0.99", has_address ? "has" : "hasn't");
}

bool outside_has_address(const address *at)
{
    errno = EADDRNOTAVAIL;
    return at->is_six || at->host[0] != 10 || has_address;
}

/* ---- Players ---- */

/* The player at a place, or NULL. */
static player *player_at(const uint8_t place[6])
{
    size_t host = place[3], number = (size_t)(get16(place + 4) - FIRST_PORT);
    return place[0] == 10 && host < ALL_HOSTS && number < PORTS_OF_HOST ? &players[host][number] : NULL;
}

const uint8_t *cookie_of(const uint8_t place[6])
{
    const player *it = player_at(place);
    return it != NULL && !is_no_node(it->cookie) ? it->cookie : NULL;
}

const uint8_t *node_of(const uint8_t place[6])
{
    const player *it = player_at(place);
    return it != NULL && !is_no_node(it->node) ? it->node : NULL;
}

static bool is_ping(const uint8_t *bytes, size_t length)
{
    return length == HEADER && get16(bytes + AT_TO_SOCKET) == PING && is_broadcast(bytes + AT_TO_NODE) && bytes[AT_FROM_NODE] == COOKIE_NODE;
}

/* Whether it is an answer of the gateway's, to a registration or a ping. (what somebody asks at the status socket is for all) */
static bool is_answer(const network *on, const uint8_t *bytes, size_t length)
{
    return length == HEADER && get16(bytes + AT_TO_SOCKET) == PING && same_node(bytes + AT_FROM_NODE, on->node) &&
           !is_broadcast(bytes + AT_TO_NODE);
}

static bool will_answer(const uint8_t place[6])
{
    if (is_peace())
        return peace_answers(place);
    return place[3] < SLOW_HOST ? !one_in(20) : place[3] < SILENT_HOST && one_in(4);
}

/* Whether somebody at a place registered less than seven seconds ago, and is remembered. */
static bool is_unanswered(network *on, const uint8_t place[6])
{
    ipxr_keyed_member it;
    for (size_t k = 0; ipxr_keyed_waiter(&on->tunnel, k, &it) == 0; k++)
        if (same_node(it.place, place))
            return it.seconds_left > PINGED_AT;
    return false;
}

/* What a player is sent is for him: a ping, unless he may wait for his node; his node, and no other; and all else as a client. */
static void judge(network *on, const uint8_t place[6], const uint8_t *bytes, size_t length)
{
    uint8_t own[NODE];
    const member *client = roster_find(&on->roster, place);
    const uint8_t *to = bytes + AT_TO_NODE;
    node_make(the_gate->nodes, place, on->set->type == LINK_WEB, own);
    bool has_node = same_node(to, own) || (client != NULL && same_node(to, client->node));
    if (is_ping(bytes, length) && is_unanswered(on, place))
        wrong("10.0.0.%u:%u on network %X is pinged while it waits for its node", place[3], get16(place + 4), (unsigned)on->set->network);
    if (is_answer(on, bytes, length) && !has_node)
        wrong("10.0.0.%u:%u on network %X is told another's node", place[3], get16(place + 4), (unsigned)on->set->network);
    if (is_ping(bytes, length) || is_answer(on, bytes, length))
        return;
    if (client == NULL)
        wrong("10.0.0.%u:%u on network %X is no client, and hears what clients do", place[3], get16(place + 4), (unsigned)on->set->network);
}

/* What a player learns of a ping, or of an answer. */
void outside_learns(const network *on, const uint8_t place[6], const uint8_t *bytes, size_t length)
{
    player *it = player_at(place);
    if (it != NULL && is_ping(bytes, length))
        memcpy(it->cookie, bytes + AT_FROM_NODE, NODE);
    else if (it != NULL && is_answer(on, bytes, length))
        memcpy(it->node, bytes + AT_TO_NODE, NODE);
}

bool outside_answers(const network *on, const uint8_t place[6], made_packet *made, const uint8_t *bytes, size_t length)
{
    if (!is_ping(bytes, length) || !will_answer(place))
        return !is_peace() && make_reply(made, bytes, length) && !one_in(4);
    const uint8_t *node = on != NULL && on->set->nodes_by_address && !is_peace() && one_in(2) ? NULL : node_of(place);
    make_answer(made, node != NULL ? node : place, bytes + AT_FROM_NODE);
    return true;
}

/* A datagram of a link whose datagrams are packets is one, and goes to somebody whom the configuration names. */
static void judge_bare(const network *on, const departure *what)
{
    const network_setting *set = on->set;
    size_t k = 0;
    while (k < set->peer_count && set->peers[k].host[0] == '\0' && !same_address(&set->peers[k].at, &what->to))
        k++;
    if (k == set->peer_count)
        wrong("10.0.0.%u:%u is no peer of network %X, and hears something", what->to.host[3], what->to.port, (unsigned)set->network);
    if (!has_length(what->bytes, what->length) || get16(what->bytes + AT_LENGTH) != what->length)
        wrong("a datagram on network %X is no packet", (unsigned)set->network);
}

void outside_hears_datagram(int fd, descriptor *on, const departure *what)
{
    uint8_t place[NODE];
    made_packet made = {.length = 0};
    network *tunnel = network_at(fd);
    if (tunnel != NULL && tunnel->set->type == LINK_PEERS) {
        places_hear(fd, tunnel, what);
        return;
    }
    memcpy(place, what->to.host, sizeof what->to.host);
    put16(place + 4, what->to.port);
    if (tunnel != NULL && tunnel->set->type == LINK_DOSBOX) {
        judge(tunnel, place, what->bytes, what->length);
        outside_learns(tunnel, place, what->bytes, what->length);
        peace_hears_datagram(place, what->bytes, what->length);
    }
    if (tunnel != NULL && tunnel->set->type == LINK_RFC1234) {
        judge_bare(tunnel, what);
        peace_hears(fd, what->bytes, what->length);
    }
    if (outside_answers(tunnel, place, &made, what->bytes, what->length))
        comes(on, &what->to, made.bytes, made.length);
}

/* ---- Frames ---- */

void cables_are_joined_or_not(void)
{
    static const what ONE[] = {CARD, TAP, GROUP}, OTHER[] = {CARD, DATAGRAMS, PORT};
    joined[0] = joined[0] < 0 ? descriptor_any(ONE[below(3)]) : -1;
    joined[1] = joined[0] < 0 ? -1 : descriptor_any(OTHER[below(3)]);
    told("cables %d and %d are one", joined[0], joined[1]);
}

void a_card_is_beneath_or_not(void)
{
    upper = upper < 0 ? descriptor_any(one_in(2) ? CARD : TAP) : -1;
    lower = upper < 0 ? -1 : descriptor_any(CARD);
    told("cable %d is beneath %d", lower, upper);
}

void cables_are_apart(void)
{
    joined[0] = joined[1] = upper = lower = -1;
}

/* The other of two cables that are one, if a descriptor is one of them; else -1. */
static int other_of(int fd)
{
    return fd == joined[0] ? joined[1] : fd == joined[1] ? joined[0] : -1;
}

/* Whether a frame looks for loops, as far as the system sees. */
static bool is_for_loops(const uint8_t *frame, size_t length)
{
    size_t front;
    uint8_t kind = ipxr_frame_read(frame, length < MOST_RECEIVED ? length : MOST_RECEIVED, &front);
    return kind != IPXR_NO_FRAME && length >= front + HEADER && get16(frame + front + AT_TO_SOCKET) == LOOP_SOCKET;
}

/* Whether a socket of a card lets a frame pass. */
static bool lets_pass(const descriptor *it, const uint8_t *frame, size_t length)
{
    size_t front;
    uint8_t kind = ipxr_frame_read(frame, length < MOST_RECEIVED ? length : MOST_RECEIVED, &front);
    return kind == IPXR_NO_FRAME || (it->kinds & 1u << kind) != 0 || is_for_loops(frame, length);
}

/* The next socket of a card from a descriptor on, or NULL. */
static descriptor *next_of_card(int *fd, unsigned index)
{
    for (; *fd < MOST_DESCRIPTORS; ++*fd) {
        descriptor *it = descriptor_if_open(*fd);
        if (it != NULL && it->is == CARD && it->index == index)
            return it;
    }
    return NULL;
}

/* A frame on a wire comes to each socket of the card there. */
static void comes_to_card(const descriptor *at, const uint8_t *frame, size_t length)
{
    address nobody = {.port = 0};
    descriptor *it;
    for (int fd = FIRST_DESCRIPTOR; (it = next_of_card(&fd, at->index)) != NULL; fd++)
        if (lets_pass(it, frame, length))
            comes(it, &nobody, frame, length);
}

/* What this machine sends on a card by one way, or beneath another cable, the card's other sockets see. */
static void is_seen_on_card(int by, const descriptor *at, const uint8_t *frame, size_t length)
{
    descriptor *it;
    for (int fd = FIRST_DESCRIPTOR; is_for_loops(frame, length) && (it = next_of_card(&fd, at->index)) != NULL; fd++)
        if (fd != by)
            is_seen(it, frame, length);
}

static void is_seen_beneath(int fd, const descriptor *on, const uint8_t *frame, size_t length)
{
    const descriptor *beneath = lower >= 0 && fd == upper ? descriptor_if_open(lower) : NULL;
    if (on->is == CARD)
        is_seen_on_card(fd, on, frame, length);
    if (beneath != NULL && beneath->is == CARD && (on->is != CARD || on->index != beneath->index))
        is_seen_on_card(fd, beneath, frame, length);
}

void frame_comes(int fd, const uint8_t *frame, size_t length)
{
    uint8_t front[4];
    address nobody = {.port = 0};
    descriptor *it = descriptor_if_open(fd);
    if (it == NULL)
        return;
    if (it->is == CONNECTION) {
        put32(front, (uint32_t)length);
        bytes_come(it, front, sizeof front);
        bytes_come(it, frame, length);
    } else if (it->is == CARD) {
        comes_to_card(it, frame, length);
    } else {
        comes(it, &nobody, frame, length);
    }
}

/* The answer of a station to what the gateway asked it in a frame. */
static void reply(int fd, const uint8_t *frame, size_t length)
{
    made_packet made = {.length = 0};
    uint8_t back[IPXR_LONGEST_FRAME];
    size_t front = 0;
    uint8_t kind = ipxr_frame_read(frame, length, &front);
    if (kind == IPXR_NO_FRAME || !make_reply(&made, frame + front, length - front))
        return;
    if (has_length(made.bytes, made.length))
        made.length = get16(made.bytes + AT_LENGTH);
    size_t whole = ipxr_frame_write(kind, frame + NODE, frame, made.bytes, made.length, back, sizeof back);
    if (whole > 0)
        frame_comes(fd, back, whole);
}

void outside_hears_frame(int fd, descriptor *on, const uint8_t *bytes, size_t length)
{
    is_seen_beneath(fd, on, bytes, length);
    peace_hears(fd, bytes, length);
    if (length > IPXR_LONGEST_FRAME || length < IPXR_SHORTEST_FRAME)
        wrong("a frame of %zu bytes is sent", length);
    if (!is_peace() && !one_in(4))
        reply(fd, bytes, length);
    if (other_of(fd) >= 0)
        frame_comes(other_of(fd), bytes, length);
}

void outside_hears_stream(int fd, descriptor *on, const uint8_t *bytes, size_t length)
{
    if (page_hears(fd, on, bytes, length))
        return;
    peace_hears(fd, bytes, length);
    for (size_t k = length > 2 ? length - 2 : 0; k < length; k++) {
        on->last_bytes[0] = on->last_bytes[1];
        on->last_bytes[1] = bytes[k];
    }
    on->taken += length;
}

/* ---- Turns ---- */

network *network_at(int fd)
{
    for (size_t k = 0; the_gate != NULL && k < the_gate->count; k++)
        if (the_gate->networks[k].cable != NULL && the_gate->networks[k].cable->fd == fd)
            return &the_gate->networks[k];
    return NULL;
}

void outside_waits(int milliseconds)
{
    uint64_t most = (uint64_t)milliseconds * MILLION;
    clock_passes(one_in(4) ? below(1000) * most / 1000 : most);
}

const char *outside_configuration(void)
{
    return configuration_text();
}

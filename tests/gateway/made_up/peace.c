#include "peace.h"

#include <string.h>

#include "clocks.h"
#include "descriptors.h"
#include "ipx.h"
#include "outside.h"
#include "places.h"
#include "play.h"
#include "tunnel/place.h"
#include "tunnel/tunnel.h"
#include "weather.h"
#include "world.h"

/* Turns of a second: until all is empty; from then on somebody comes in, and another who only listens, he speaks, and has been heard. The router
 * says what it knows in a minute. (where one datagram a second goes to strangers, an address has to wait for 32 seconds for its second newcomer) */
enum {
    CALM = 200, COMES_IN = CALM + 1, COMES_AGAIN = COMES_IN + 3, LISTENS = COMES_AGAIN + 30, LISTENS_AGAIN = LISTENS + 3,
    SPEAKS = LISTENS_AGAIN + 11, HEARD = SPEAKS + 2, SAID_ALL = HEARD + 62
};

enum { GAME = 0x4003, FIRST_PORT = 40000, LISTENERS = PORTS_OF_HOST / 2 /* the first of their ports */, MARK = 0x5EED };

static unsigned left, now;
static unsigned sent_by[MOST_DESCRIPTORS];   /* frames or bytes */
static unsigned marked_by[MOST_DESCRIPTORS]; /* those that a player said in peace */
static unsigned marked_at[PORTS_OF_HOST];    /* and the same of places, by their port */

static bool is_marked(const uint8_t *bytes, size_t length)
{
    uint8_t mark[4];
    put32(mark, MARK);
    for (size_t k = 0; k + sizeof mark <= length; k++)
        if (memcmp(bytes + k, mark, sizeof mark) == 0)
            return true;
    return false;
}

void peace_hears(int fd, const uint8_t *bytes, size_t length)
{
    if (left == 0)
        return;
    sent_by[fd]++;
    marked_by[fd] += is_marked(bytes, length);
}

void peace_hears_datagram(const uint8_t place[NODE], const uint8_t *bytes, size_t length)
{
    size_t port = (size_t)(get16(place + 4) - FIRST_PORT);
    if (left > 0 && place[3] == 0 && port < PORTS_OF_HOST)
        marked_at[port] += is_marked(bytes, length);
}

bool is_peace(void)
{
    return left > 0;
}

bool peace_answers(const uint8_t place[6])
{
    return now >= COMES_IN && place[3] == 0;
}

/* Whoever is there takes what is sent, and answers. */
static void calm_down(void)
{
    weather_clears();
    clock_runs(0);
    cables_are_apart();
    for (int fd = FIRST_DESCRIPTOR; fd < MOST_DESCRIPTORS; fd++) {
        descriptor *it = descriptor_if_open(fd);
        if (it == NULL)
            continue;
        it->takes = it->is == CONNECTION || it->is == VIEWER ? MUCH : 0;
        it->is_dead = it->is_complained = false;
    }
}

void peace_begins(void)
{
    told("peace");
    left = SAID_ALL + 1;
    now = 0;
    calm_down();
}

void peace_is_over(void)
{
    left = 0;
}

/* ---- What is said ---- */

/* Where the players come from. (a spoiled `allow 10.0.0.0/8` may be a right line that doesn't let them in) */
static const address HOUSE = {.host = {10, 0, 0, 0}};

static bool is_open_tunnel(const network *on)
{
    return on->set->type == LINK_DOSBOX && on->tunnel.made && on->cable->fd >= 0 && on->is_up && tunnel_lets_in(on->set, &HOUSE);
}

/* The player who comes in by a network, and the one who only listens there. */
static address player_on(const gateway *it, const network *on)
{
    address at = HOUSE;
    at.port = (uint16_t)(FIRST_PORT + (on - it->networks) % LISTENERS);
    return at;
}

static address listener_on(const gateway *it, const network *on)
{
    address at = player_on(it, on);
    at.port += LISTENERS;
    return at;
}

static void registers(const network *on, const address *from)
{
    made_packet made = {.length = 0};
    make_registration(&made);
    comes(descriptor_at(on->cable->fd, DATAGRAMS), from, made.bytes, made.length);
}

static void comes_in(gateway *it, network *on)
{
    address from = player_on(it, on);
    registers(on, &from);
}

static void listens(gateway *it, network *on)
{
    address from = listener_on(it, on);
    registers(on, &from);
}

/* The node that somebody was told. */
static const uint8_t *node_at(const address *at)
{
    static const uint8_t NOBODY[NODE] = {0};
    uint8_t place[NODE];
    place_of(at, place);
    const uint8_t *node = node_of(place);
    return node != NULL ? node : NOBODY;
}

/* He says something to all of his network. */
static void speaks(gateway *it, network *on)
{
    static const uint8_t ALL[NODE] = {0xFF, 0xFF, 0xFF, 0xFF, 0xFF, 0xFF};
    uint8_t bytes[HEADER + 8], mark[8] = {0};
    address at = player_on(it, on);
    ipxr_address from = {.network = on->set->network, .socket = GAME}, to = from;
    memcpy(from.node, node_at(&at), NODE);
    memcpy(to.node, ALL, NODE);
    put32(mark, MARK);
    int32_t length = ipxr_write_packet(&from, &to, 4, 0, mark, sizeof mark, bytes, sizeof bytes);
    comes(descriptor_at(on->cable->fd, DATAGRAMS), &at, bytes, (size_t)length);
}

static void each_tunnel(gateway *it, void (*does)(gateway *, network *))
{
    for (size_t k = 0; k < it->count; k++)
        if (is_open_tunnel(&it->networks[k]))
            does(it, &it->networks[k]);
}

/* ---- What holds ---- */

/* Whether another link of the network has the same card: of two that do, one is shut. */
static bool shares_its_card(const gateway *it, const network *on)
{
    for (size_t k = 0; k < it->count; k++)
        if (&it->networks[k] != on && it->networks[k].set->port == on->set->port && same_link(it->networks[k].set, on->set))
            return true;
    return false;
}

static void check_calm(const gateway *it)
{
    for (size_t k = 0; k < it->count; k++) {
        const network *on = &it->networks[k];
        if (on->roster.count > 0)
            wrong("network %X has %zu clients after %d s of peace", (unsigned)on->set->network, on->roster.count, CALM);
        if (on->pings.count + on->again.count > 0 || (loop_is_shut(&on->loop) && !shares_its_card(it, on)))
            wrong("network %X has %zu pings after %d s of peace, or is shut", (unsigned)on->set->network, on->pings.count, CALM);
    }
}

static bool is_client(network *on, const address *at)
{
    uint8_t place[NODE];
    place_of(at, place);
    return roster_find(&on->roster, place) != NULL;
}

static bool has_room_for_two(const network *on)
{
    return on->set->clients > 1 && on->set->per_address > 1;
}

/* Whether newcomers of one house may find no room there: by a narrow line it has some for those of one network. */
static bool is_one_of_several_by_line(const gateway *it, const network *on)
{
    const network *other = it->networks;
    while (other < on && !(is_open_tunnel(other) && other->set->kilobits > 0))
        other++;
    return on->set->kilobits > 0 && other < on;
}

static void is_in(gateway *it, network *on)
{
    if (is_one_of_several_by_line(it, on))
        return;
    address player = player_on(it, on), listener = listener_on(it, on);
    if (!is_client(on, &player))
        wrong("nobody is let in on network %X in peace", (unsigned)on->set->network);
    if (has_room_for_two(on) && !is_client(on, &listener))
        wrong("nobody who only listens is let in on network %X in peace", (unsigned)on->set->network);
}

/* Who only listens has heard what was said to all. */
static void has_heard(gateway *it, network *on)
{
    address listener = listener_on(it, on);
    if (has_room_for_two(on) && !is_one_of_several_by_line(it, on) && marked_at[listener.port - FIRST_PORT] == 0)
        wrong("who only listens on network %X hears nothing in peace", (unsigned)on->set->network);
}

/* Whether somebody may be there: of those that the configuration names, one whose address is known. */
static bool has_somebody(const network *on)
{
    const rfc1234 *bare = on->cable->bare;
    size_t k = 0;
    while (bare != NULL && k < bare->count && !bare->peers[k].remote.is_known)
        k++;
    return bare == NULL || k < bare->count;
}

/* Whether a link carries frames, is up, and somebody is there. */
static bool carries_frames(const network *on)
{
    return !has_tunnel(on->set) && on->is_up && on->cable->fd >= 0 && has_somebody(on);
}

/* Whether a player is on another link of a network, and its segment is there. */
static bool has_player_beside(gateway *it, const network *on)
{
    const port *at = port_of(it, on);
    bool has = false;
    for (size_t k = at->first; k < at->first + at->count; k++)
        has = has || (is_open_tunnel(&it->networks[k]) && on->segment != NULL && !is_one_of_several_by_line(it, &it->networks[k]));
    return has;
}

static void check_heard(gateway *it)
{
    char words[LINK_ROOM];
    for (size_t k = 0; k < it->count; k++) {
        network *on = &it->networks[k];
        if (carries_frames(on) && has_player_beside(it, on) && marked_by[on->cable->fd] == 0)
            wrong("network %X: %s hears nothing of what a player says to all, in peace", (unsigned)on->set->network,
                  link_words(on->set, words));
    }
}

/* The router says once a minute on each port that is up what it knows of others. */
static void check_said(gateway *it)
{
    char words[LINK_ROOM];
    size_t up = 0;
    for (size_t k = 0; k < it->port_count; k++)
        up += it->ports[k].is_up;
    for (size_t k = 0; k < it->count; k++) {
        const network *on = &it->networks[k];
        if (up > 1 && carries_frames(on) && ipxr_is_running(&it->router) == 1 && (!on->set->is_of_several || on->segment != NULL) &&
            sent_by[on->cable->fd] == 0)
            wrong("network %X: %s hears nothing of the router in a minute of peace", (unsigned)on->set->network,
                  link_words(on->set, words));
    }
}

static bool has_route(gateway *it, uint32_t to)
{
    ipxr_route_record route = {.network = 0};
    size_t k = 0;
    while (ipxr_route(&it->router, k, &route) == 0 && route.network != to)
        k++;
    return route.network == to;
}

static bool has_service(gateway *it, const ipxr_service_entry *one)
{
    ipxr_service_record service;
    size_t k = 0;
    while (ipxr_service(&it->router, k, &service) == 0 && (service.type != one->type || memcmp(service.name, one->name, sizeof one->name) != 0))
        k++;
    return k < ipxr_services(&it->router);
}

/* What the lines of a network say that is up is in the tables, if its shares have room for all lines. */
static void check_lines(gateway *it)
{
    for (size_t k = 0; k < it->port_count; k++) {
        const network_setting *set = it->networks[it->ports[k].first].set;
        if (!it->ports[k].is_up)
            continue;
        for (size_t line = 0; set->routes >= set->static_route_count && line < set->static_route_count; line++)
            if (!has_route(it, set->static_routes[line].route.network))
                wrong("network %X has no route of its line %zu in peace", (unsigned)set->network, line);
        for (size_t line = 0; set->services >= set->static_service_count && line < set->static_service_count; line++)
            if (!has_service(it, &set->static_services[line].service))
                wrong("network %X has no service of its line %zu in peace", (unsigned)set->network, line);
    }
}

static void begin_to_count(void)
{
    memset(sent_by, 0, sizeof sent_by);
    memset(marked_by, 0, sizeof marked_by);
    memset(marked_at, 0, sizeof marked_at);
}

bool peace_passes(gateway *it)
{
    if (left == 0)
        return false;
    left--;
    places_stay(it);
    if (++now >= CALM)
        check_lines(it);
    switch (now) {
    case CALM:
        check_calm(it);
        break;
    case COMES_IN:
    case COMES_AGAIN:
        each_tunnel(it, comes_in);
        break;
    case LISTENS:
    case LISTENS_AGAIN:
        each_tunnel(it, listens);
        break;
    case SPEAKS:
        each_tunnel(it, is_in);
        begin_to_count();
        each_tunnel(it, speaks);
        break;
    case HEARD:
        each_tunnel(it, has_heard);
        check_heard(it);
        break;
    case SAID_ALL:
        check_said(it);
        break;
    }
    clock_passes(SECOND_NS);
    return true;
}

#include "gateway.h"

#include <errno.h>
#include <inttypes.h>
#include <string.h>

#include "ipx.h"
#include "links/edge.h"
#include "links/ether.h"
#include "links/extend.h"
#include "links/links.h"
#include "links/segment.h"
#include "links/statics.h"
#include "monitoring/capture.h"
#include "monitoring/note.h"
#include "monitoring/status.h"
#include "monitoring/status_page.h"
#include "monitoring/trial.h"
#include "peers/turns.h"
#include "systems/clock.h"
#include "tunnel/tunnel.h"
#include "web/turns.h"

/* Frames and datagrams of one cable, or milliseconds, after which the next has its turn; how many are heard at once when it begins, and then
 * twice as many each time: what a router answers may take milliseconds, where the tables are full and a network has many rules. And how many turns what waits is heard before seconds that are late:
 * as many as a cable takes of which the system keeps all that it may, but no longer than so many milliseconds. */
enum { MOST_AT_ONCE = 64, LONGEST_AT_ONCE = 5, FIRST_AT_ONCE = 2, MOST_TURNS_FIRST = 512, LONGEST_FIRST = 2000 };

/* Milliseconds until it is looked again whether a narrow line has room for what waits. */
enum { LOOKS_AGAIN = 20 };

/* Seconds of a record, up to the one in which it ends, and those from one time that a neighbour says it to the next, where he is late. */
enum { RECORD_LASTS = IPXR_LIFETIME, SAID_AGAIN = 61 };

/* How many of the seconds that are late the router hears of. A record that was heard a minute before the gateway stood still, and of which
 * nothing came since, is said again a minute after; it is there until then. */
enum { MOST_LATE_SECONDS = RECORD_LASTS - 1 - 2 * SAID_AGAIN };

/* ---- Packets ---- */

static void tell_lost(const network *on, reason why)
{
    note("lost on %08" PRIX32 ": %s", on->set->network, reason_words(why));
}

void gateway_lose(network *on, reason why)
{
    counts_lose(&on->counts, why);
    tell_lost(on, why);
}

bool is_for_here(const network *on, const uint8_t *packet)
{
    uint32_t to = get32(packet + AT_TO_NETWORK);
    return to == 0 || to == EVERY_NETWORK || to == on->set->network;
}

port *port_of(gateway *it, const network *on)
{
    return &it->ports[on->set->port];
}

network *first_of(gateway *it, const port *router_port)
{
    return &it->networks[router_port->first];
}

uint32_t port_network(const gateway *it, uint8_t number)
{
    if (number == it->port_count && it->internal != NULL)
        return it->internal->network;
    return number < it->port_count ? it->networks[it->ports[number].first].set->network : 0;
}

void gateway_put(network *on, const origin *by, const uint8_t *from, const uint8_t *node, const uint8_t *packet, size_t length)
{
    if (has_tunnel(on->set)) {
        capture_packet(packet, length, from);
        tunnel_send(on, by, node, packet, length);
    } else {
        ether_send(on, by, from, node, packet, length);
    }
}

void gateway_send(gateway *it, port *router_port, const origin *by, const uint8_t *node, const uint8_t *packet, size_t length)
{
    char to[WORDS], from[WORDS];
    network *first = first_of(it, router_port);
    if (!router_port->is_up)
        return; /* (the router said it before it heard that the link is lost) */
    if (notes_events())
        note("out %08" PRIX32 " %s > %s type %u length %zu", first->set->network, address_at(packet + AT_FROM_NETWORK, from),
             address_at(packet + AT_TO_NETWORK, to), packet[AT_TYPE], length);
    if (first->set->is_of_several)
        segment_send(it, router_port, by, node, packet, length);
    else
        gateway_put(first, by, first->node, node, packet, length);
}

void gateway_flush(gateway *it)
{
    for (size_t k = 0; k < it->count; k++) {
        outgoing_send(&it->networks[k]);
        ether_send_due(&it->networks[k]);
    }
    peers_push_all(it);
    it->room_count = 0;
}

void gateway_end_waiting(gateway *it)
{
    gateway_flush(it);
    for (size_t k = 0; k < it->count; k++)
        ether_send_waiting(&it->networks[k]);
    sites_push();
    peers_push_all(it);
}

uint8_t *gateway_room(gateway *it)
{
    if (it->room_count == MOST_TOGETHER)
        gateway_flush(it);
    return it->rooms[it->room_count++];
}

/* Whether a packet of the router's is one that it heard and hands on, whose transport control it raised. (so nobody passes for the router, nor it for
 * somebody, by whose node a packet names) */
static bool goes_on(const uint8_t *packet)
{
    return packet[AT_CONTROL] > 0;
}

/* Sends what the router has to send, once it heard what somebody said; or else by itself, where that is NULL. */
static void send_all(gateway *it, const origin *by)
{
    size_t count = ipxr_sent(&it->router);
    for (size_t k = 0; k < count; k++) {
        ipxr_packet_sent sent;
        uint8_t *packet = gateway_room(it);
        bool is_there = ipxr_get(&it->router, k, &sent, packet, LONGEST) == 0 && sent.port < it->port_count; /* (nobody is on its own network) */
        size_t left = is_there ? edge_lets_out(it, first_of(it, &it->ports[sent.port]), packet, sent.length) : 0;
        if (left > 0)
            gateway_send(it, &it->ports[sent.port], by != NULL && goes_on(packet) ? by : NULL, sent.node, packet, left);
    }
    ipxr_clear(&it->router);
}

void gateway_send_all(gateway *it)
{
    send_all(it, NULL);
}

void gateway_note(const network *on, const uint8_t *packet, size_t length, const char *became)
{
    char to[WORDS] = "?", from[WORDS] = "?";
    if (!notes_events())
        return;
    if (length >= HEADER) {
        address_at(packet + AT_FROM_NETWORK, from);
        address_at(packet + AT_TO_NETWORK, to);
    }
    note("in %08" PRIX32 " %s > %s type %d length %zu: %s", on->set->network, from, to, length >= HEADER ? packet[AT_TYPE] : -1, length,
         became);
}

/* Whether somebody who asked waits for a packet; then he gets it. */
static bool is_awaited(const arrived *what)
{
    bool is = status_hears(what->packet, what->length);
    if (is)
        gateway_note(what->on, what->packet, what->length, "answer");
    return is;
}

/* The router hears a packet. Returns whether it had no memory for what it would send. */
static bool route(gateway *it, arrived *what)
{
    char words[WORDS];
    what->is_heard = true;
    what->became = ipxr_packet(&it->router, what->on->set->port, what->packet, what->length);
    if (notes_events())
        gateway_note(what->on, what->packet, what->length, answer_words(what->became, words));
    return what->became < 0;
}

/* (the library says in which order each is asked, and each deed done) */
uint16_t gateway_answer(gateway *it, arrived *what, uint8_t next)
{
    switch (next) {
    case IPXR_NEXT_ROUTER_IS_FOR_ALL:
        return is_broadcast(what->packet + AT_TO_NODE) && is_for_here(what->on, what->packet) && what->length <= LONGEST;
    case IPXR_NEXT_ROUTER_EXTEND:
        extend(it, what->on, what->by, what->packet, what->length);
        return 0;
    case IPXR_NEXT_ROUTER_IS_AWAITED:
        return is_awaited(what);
    case IPXR_NEXT_ROUTER_HEAR:
        return route(it, what);
    case IPXR_NEXT_ROUTER_OUTCOME:
        return (uint16_t)what->became;
    }
    return 0;
}

/* (that a client isn't answered is counted alone: whoever floods would fill the log) */
void gateway_settle(gateway *it, const arrived *what, const ipxr_course *way)
{
    ipxr_counts_count(&what->on->counts.packets, way);
    trial_hears(what, way);
    if (way->fate == IPXR_FATE_LOST && way->number != TOO_MANY_ANSWERS)
        tell_lost(what->on, (reason)way->number);
    if (way->fate == IPXR_FATE_HANDED_ON)
        gateway_note(what->on, what->packet, what->length, "handed on");
    if (what->is_heard)
        send_all(it, what->by);
}

/* ---- Turns ---- */

network *first_on(gateway *it, const cable *carrier)
{
    size_t k = 0;
    while (it->networks[k].cable != carrier)
        k++;
    return &it->networks[k];
}

/* Hears what came on a cable, and sends what is to be sent for it. */
static void hear_all(gateway *it, cable *carrier, arrivals *in)
{
    for (size_t k = 0; carrier->bare != NULL && k < carrier->bare->lost_count; k++)
        gateway_lose(first_on(it, carrier), carrier->bare->lost[k]);
    for (size_t k = 0; k < in->count; k++) {
        arrival *next = &in->list[k];
        if (has_tunnel(carrier->set))
            tunnel_hear(it, first_on(it, carrier), next->bytes, next->length, &next->from);
        else if (next->is_sent)
            ether_hear_sent(it, carrier, next->bytes, next->length);
        else
            ether_hear(it, carrier, next->bytes, next->length);
    }
    gateway_flush(it);
}

/* The next that came on a cable, sent on. Returns how many: frames, datagrams, or one where nobody hears what came; 0 where there is none. */
static size_t receive_next(gateway *it, cable *carrier)
{
    arrivals *in = &it->arrivals;
    if (cable_receive(carrier, in)) {
        limits_look_at_clock(); /* (in a turn more may come than a limit lets pass at once) */
        hear_all(it, carrier, in);
        return in->count > 0 ? in->count : 1;
    }
    if (carrier->set->type == LINK_QEMU_UDP && errno == ECONNREFUSED) {
        gateway_lose(first_on(it, carrier), NOBODY_THERE);
        return 1;
    }
    if (errno != EAGAIN)
        links_look(it, carrier);
    return 0;
}

/* What came on a cable, as far as it is its turn. Returns whether there may be more. (of pages so many frames are gone through each time,
 * though the limits may let few of them through: those that went to other pages cost as much) */
static bool receive(gateway *it, cable *carrier)
{
    size_t heard = 0, next = 1, *most = &it->arrivals.most;
    uint64_t until = clock_now() + LONGEST_AT_ONCE;
    *most = FIRST_AT_ONCE;
    while (next > 0 && heard < MOST_AT_ONCE && clock_now() < until && cable_is_open(carrier)) {
        next = receive_next(it, carrier);
        heard += carrier->web != NULL && next > 0 ? *most : next;
        *most = 2 * *most < MOST_TOGETHER ? 2 * *most : MOST_TOGETHER;
    }
    carrier->is_behind = heard >= MOST_AT_ONCE;
    return next > 0;
}

/* One second for tunnels, segments and kinds of frames, however many have passed: who could not be asked meanwhile isn't put out. */
static void let_tunnels_pass(gateway *it, uint64_t passed)
{
    if (it->looked >= passed)
        return;
    it->looked = passed;
    it->seconds++;
    for (size_t k = 0; k < it->count; k++)
        if (has_tunnel(it->networks[k].set))
            tunnel_second(&it->networks[k]);
    speakers_second();
    for (size_t k = 0; k < it->count; k++)
        line_second(&it->networks[k].speaks.line);
    line_router_second();
    segments_second(it);
    for (size_t k = 0; k < it->count; k++)
        ipxr_kinds_second(&it->networks[k].kinds);
    loops_second(it);
}

/* The seconds since the start that the router hasn't heard of. */
static uint64_t seconds_due(const gateway *it)
{
    uint64_t passed = (clock_now() - it->began) / 1000;
    return passed > it->told ? passed - it->told : 0;
}

/* The router hears of the seconds up to one. (where it has no memory for it, it is given the same second again with the next) */
static void let_router_pass(gateway *it, uint64_t passed)
{
    it->refused = 0;
    while (it->told < passed && it->refused == 0) {
        if (ipxr_second(&it->router) < 0) {
            it->refused = passed;
        } else {
            it->told++;
            gateway_send_all(it);
        }
    }
}

/* Each second that passed since the last turn; late ones too, as far as they leave the router what its neighbours say still. The others have
 * passed for nobody. (links, the status socket and the capture are looked at once, whatever has passed) */
static void let_seconds_pass(gateway *it)
{
    uint64_t due = seconds_due(it), passed = it->told + due;
    if (due == 0 || passed == it->refused)
        return;
    if (passed - it->looked > MOST_LATE_SECONDS) /* (a router that has no memory for them may be behind by as many) */
        event("the gateway stood still for %" PRIu64 " s", passed - it->looked);
    if (due > MOST_LATE_SECONDS)
        it->told = passed - MOST_LATE_SECONDS;
    links_look_at_all(it);
    gateway_renew(it);
    let_tunnels_pass(it, passed);
    let_router_pass(it, passed);
    statics_second(it);
    status_second(it);
    status_page_second();
    web_second(it);
    peers_second(it);
}

/* Milliseconds to the next second, or until a client is to be pinged; none where something is there already. */
static int patience(const gateway *it)
{
    uint64_t looked = it->told > it->refused ? it->told : it->refused, next = it->began + (looked + 1) * 1000, now = clock_now();
    int left = now < next ? (int)(next - now) : 0;
    for (size_t k = 0; k < it->cable_count; k++) {
        if (cable_has_more(&it->cables[k]))
            return 0;
        left = cable_patience(&it->cables[k], left);
    }
    for (size_t k = 0; k < it->count; k++) {
        left = asks_patience(&it->networks[k].asks, pings_patience(&it->networks[k].pings, left));
        left = it->networks[k].again.count > 0 && left > LOOKS_AGAIN ? LOOKS_AGAIN : left;
        left = paced_patience(&it->networks[k].paced, left);
    }
    return status_page_patience(left);
}

/* Pings those whose pings have waited. */
static void send_pings(gateway *it)
{
    for (size_t k = 0; k < it->count; k++)
        tunnel_ping(it, &it->networks[k]);
}

/* Hears a cable, of which `list` tells what is there. Returns whether there may be more. */
static bool attend(gateway *it, cable *carrier, const watch *list, size_t count)
{
    bool has_changed = false, has_come = cable_has_more(carrier);
    for (size_t k = 0; k < count; k++) {
        bool is_packet = list[k].fd == carrier->fd && !list[k].has_changed;
        has_come = has_come || list[k].has_come;
        has_changed = has_changed || (list[k].has_come && !is_packet);
    }
    if (has_changed || cable_is_new(carrier))
        links_look(it, carrier);
    return has_come && receive(it, carrier);
}

/* Waits so many milliseconds until something comes, and hears it: of each cable as far as it is its turn. Returns whether there may be more. */
static bool hear(gateway *it, int milliseconds)
{
    watch list[MOST_WATCHED];
    size_t first[MOST_LINKS + 1] = {0};
    for (size_t k = 0; k < it->cable_count; k++)
        first[k + 1] = first[k] + cable_waits(&it->cables[k], list + first[k]);
    watch *of_pages = list + first[it->cable_count], *of_status = of_pages + sites_wait(of_pages);
    watch *of_page = of_status + status_waits(of_status), *end = of_page + status_page_waits(of_page);
    bool is_known = watch_all(list, (size_t)(end - list), milliseconds), is_more = !is_known;
    limits_look_at_clock();
    if (is_known)
        sites_attend(of_pages, (size_t)(of_status - of_pages));
    for (size_t k = 0; is_known && k < it->cable_count; k++)
        is_more = attend(it, &it->cables[k], list + first[k], first[k + 1] - first[k]) || is_more;
    web_turn(it);
    peers_turn(it);
    if (is_known) {
        status_attend(it, of_status, (size_t)(of_page - of_status));
        status_page_attend(it, of_page, (size_t)(end - of_page));
    }
    sites_push();
    return is_more;
}

/* (where the gateway stood still, as on a machine with too much else to do, what came meanwhile is heard before the seconds that passed: a
 * neighbour who spoke isn't taken for one who was silent. While the machine sleeps the clock stands still, and nothing is late) */
void gateway_turn(gateway *it, bool waits)
{
    (void)hear(it, waits ? patience(it) : 0);
    uint64_t until = clock_now() + LONGEST_FIRST;
    for (int k = 0; seconds_due(it) > 1 && k < MOST_TURNS_FIRST && clock_now() < until && hear(it, 0); k++)
        ;
    let_seconds_pass(it);
    send_pings(it);
    gateway_flush(it);
    sites_push();
}

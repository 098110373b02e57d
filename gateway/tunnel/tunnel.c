/* A client's node is a hash of the place where its datagrams come from, with a key that only the gateway has. Who wants to be one has to say
 * something by that node soon, which only the answer to his registration tells, or to answer a ping whose source node he can't guess, a cookie.
 * So nobody comes in by a forged address, and who is gone is known by his silence. Datagrams have places, packets have nodes: who is answered,
 * pinged or told of is found by his place, and whom a packet is for by his node. */
#include "tunnel/tunnel.h"

#include <string.h>

#include "ipx.h"
#include "limits/strangers.h"
#include "limits/throttle.h"
#include "links/edge.h"
#include "links/segment.h"
#include "monitoring/capture.h"
#include "tunnel/cookie.h"
#include "tunnel/nodes.h"
#include "tunnel/place.h"
#include "tunnel/waiting.h"

/* Seconds for which a cookie is a place's own. The one before counts too. */
enum { MINUTE = 60 };

/* Registrations that a tunnel remembers for nine seconds, and those of one address; and what may wait for them to be sent by a narrow line. */
enum { MOST_REMEMBERED = 1024, MOST_REMEMBERED_OF_ONE = 64, MOST_AGAIN = 2 * MOST_REMEMBERED };

/* The datagrams that a stranger's registration brings upon his place: two answers and two pings. */
enum { FOR_REGISTRATION = 4 };

/* The socket of registrations and pings. */
#define TUNNEL_SOCKET 2

/* ---- Beginning and end ---- */

int32_t tunnel_make(const network *on, ipxr_keyed *made)
{
    ipxr_keyed_setting set = {.network = on->set->network, .capacity = on->set->clients, .share = on->set->per_address,
                              .remembered = MOST_REMEMBERED, .remembered_share = MOST_REMEMBERED_OF_ONE};
    memcpy(set.node, on->node, NODE);
    return ipxr_keyed_make(made, &set);
}

int32_t tunnel_open(const gateway *it, network *on)
{
    throttle_set(&on->throttle, on->set);
    if (!roster_make(&on->roster, on->set->clients) || !strangers_make(&on->strangers, on->set->strangers, it->key) ||
        !pings_make(&on->pings, on->set->kilobits > 0 ? on->set->clients : 0) ||
        !pings_make(&on->again, on->set->kilobits > 0 ? MOST_AGAIN : 0))
        return IPXR_OUT_OF_MEMORY;
    return tunnel_make(on, &on->tunnel);
}

void tunnel_close(network *on)
{
    ipxr_keyed_free(&on->tunnel);
    roster_free(&on->roster);
    strangers_free(&on->strangers);
    pings_free(&on->pings);
    pings_free(&on->again);
}

/* ---- Sending ---- */

bool tunnel_strangers_are_by_line(const network *on)
{
    return on->set->kilobits > 0 && !on->strangers.has_no_limit;
}

void tunnel_send_counted(network *on, const ipxr_own *own, bool is_client)
{
    outgoing_own(on, own->place, own->bytes, sizeof own->bytes, is_client);
    capture_packet(own->bytes, sizeof own->bytes, on->node);
}

/* Sends a client an answer; or, where that is NULL, a stranger an answer or a ping. */
static void send_one(network *on, const ipxr_own *own, member *to)
{
    if (to != NULL && on->set->kilobits > 0)
        line_send_answer(&to->speaks->line, sizeof own->bytes);
    else if (tunnel_strangers_are_by_line(on))
        line_send_to_stranger(on->strangers.key, own->place, sizeof own->bytes);
    else if (on->set->kilobits > 0)
        line_send_ping(sizeof own->bytes);
    tunnel_send_counted(on, own, to != NULL);
}

/* Sends a client, or a stranger, what the tunnel gave. */
static void send_own(network *on, member *to)
{
    ipxr_own own;
    for (size_t k = 0; ipxr_keyed_own(&on->tunnel, k, &own) == 0; k++)
        send_one(on, &own, to);
}

/* Why a client doesn't get the copy of a packet; REASONS where it does. What it doesn't get is counted. */
static reason why_not(network *on, const uint8_t place[NODE], uint8_t queue, size_t length)
{
    member *to = roster_find(&on->roster, place);
    if (to == NULL)
        return REASONS;
    bool has_room = !to->is_by_line || line_has_room(&to->speaks->line);
    reason why = has_room ? throttle_receives(&on->throttle, to, queue, length) : TOO_MUCH_FOR_LINE;
    if (why != REASONS) {
        to->dropped[DROPPED_FOR_IT]++;
        counts_lose(&on->counts, why);
    } else if (to->is_by_line) {
        line_send(&to->speaks->line);
    }
    return why;
}

/* Copies of a packet are to go by a narrow line: somebody says it, or the router itself where that is NULL. */
static void begin_on_line(const origin *by, uint8_t queue, const uint8_t *packet, size_t length)
{
    if (by == NULL)
        line_begin_router(is_broadcast(packet + AT_TO_NODE), length);
    else if (queue == OF_PINGS)
        line_begin_ping(length);
    else
        line_begin(&by->speaks->line, length);
}

/* Sends what somebody says, or the router itself where that is NULL, to the clients that get it, as the tunnel said, and as far as each
 * receives it. Returns to how many it doesn't go since they received too much. */
static size_t send_carried(network *on, const origin *by, const uint8_t *packet, size_t length)
{
    uint8_t place[NODE];
    size_t dropped = 0;
    if (ipxr_keyed_receivers(&on->tunnel) == 0)
        return 0;
    uint8_t queue = throttle_queue(by);
    if (on->set->kilobits > 0)
        begin_on_line(by, queue, packet, length);
    outgoing_begin(on, packet, length);
    for (size_t k = 0; ipxr_keyed_receiver(&on->tunnel, k, place) == 0; k++) {
        if (why_not(on, place, queue, length) == REASONS)
            outgoing_copy(on, place);
        else
            dropped++;
    }
    return dropped;
}

/* Whether a client gets what the router itself says to it alone: an answer. (somebody may ask in its name) */
static bool lets_router_answer(network *on, const origin *by, const uint8_t *node)
{
    member *to = by == NULL && !is_broadcast(node) ? roster_of_node(&on->roster, node) : NULL;
    return to == NULL || throttle_lets_router_answer(&on->throttle, to);
}

void tunnel_send(network *on, const origin *by, const uint8_t *node, const uint8_t *packet, size_t length)
{
    if (!lets_router_answer(on, by, node)) {
        gateway_lose(on, TOO_MANY_ANSWERS);
        return;
    }
    ipxr_keyed_send(&on->tunnel, node);
    if (ipxr_keyed_receivers(&on->tunnel) == 0 && !is_broadcast(node) && on->segment == NULL)
        gateway_lose(on, NO_CLIENT); /* (else it may be a station of another link) */
    (void)send_carried(on, by, packet, length);
}

/* ---- Pings, and second answers ---- */

/* Whether so many datagrams for something may go to a stranger now, or soon. (what the network's limit holds back uses nothing of the line, which
 * others share) */
static bool lets_stranger(network *on, strangers_part what, const uint8_t place[NODE], uint32_t count)
{
    return strangers_let(&on->strangers, what, place, count) &&
           (!tunnel_strangers_are_by_line(on) || line_lets_newcomer(what, on->strangers.key, place, count));
}

bool tunnel_lets_newcomer(network *on, const uint8_t place[NODE], uint32_t count)
{
    return lets_stranger(on, FOR_REGISTRATIONS, place, count);
}

/* Whether a client's registration or ping is answered now. (somebody may ask in its name, so that it would hear nothing else) */
static bool lets_answer(network *on, member *to)
{
    bool has_room = on->set->kilobits == 0 || line_lets_answer(&to->speaks->line);
    return has_room && throttle_lets_answer(&on->throttle, to);
}

/* Pings a client, and again until it answers. */
static void ping_one(network *on, const ipxr_own *own)
{
    member *to = roster_find(&on->roster, own->place);
    if (on->set->kilobits > 0)
        line_send_ping(sizeof own->bytes);
    tunnel_send_counted(on, own, true);
    if (to != NULL)
        asked_ping(&to->ping, &on->asks, on->strangers.key, own);
}

/* Pings a client: by a narrow line one after the other, later. */
static void ping(network *on, const ipxr_own *own)
{
    if (!pings_add(&on->pings, own))
        ping_one(on, own);
}

/* A client that registered lately is answered again, where it may be; and pinged in any case, and at once: the tunnel asks it in no other way
 * meanwhile, so that it would leave by what others do with the line, or register in its name while its ping waits. */
static void send_to_client_again(network *on, const ipxr_own *own, member *to)
{
    if (is_broadcast(own->bytes + AT_TO_NODE))
        ping_one(on, own);
    else if (lets_answer(on, to))
        send_one(on, own, to);
    else
        counts_lose(&on->counts, TOO_MANY_ANSWERS);
}

void tunnel_send_again(network *on, const ipxr_own *own)
{
    member *to = roster_find(&on->roster, own->place);
    if (to != NULL)
        send_to_client_again(on, own, to);
    else if (!tunnel_strangers_are_by_line(on))
        send_one(on, own, NULL);
    else if (!pings_add(&on->again, own))
        counts_lose(&on->counts, TOO_MANY_STRANGERS);
}

void tunnel_second(network *on)
{
    ipxr_own own;
    ipxr_keyed_member gone;
    outgoing_send(on); /* (what waits is for those who are clients still) */
    ipxr_keyed_second(&on->tunnel);
    for (size_t k = 0; ipxr_keyed_leaver(&on->tunnel, k, &gone) == 0; k++)
        tunnel_tell_leaves(on, gone.place, gone.node);
    size_t pings = ipxr_keyed_pings(&on->tunnel);
    for (size_t k = 0; ipxr_keyed_own(&on->tunnel, k, &own) == 0; k++)
        (k < pings ? ping : tunnel_send_again)(on, &own);
    if (on->pings.count > 0)
        pings_pace(&on->pings, line_between_pings(sizeof own.bytes));
}

/* Pings a client once more that hasn't answered; by a narrow line only while that is nearly idle. */
static void ping_once_more(network *on, const ipxr_own *ping)
{
    if (on->set->kilobits > 0 && !line_lets_again())
        return;
    if (on->set->kilobits > 0)
        line_send_again(sizeof ping->bytes);
    tunnel_send_counted(on, ping, true);
}

/* (one that waits for the answer to its registration would take a ping for it) */
static void ping_unanswered(const gateway *it, network *on)
{
    for (size_t k = 0; k < on->roster.count; k++) {
        member *to = &on->roster.list[k];
        if (!asked_is_due(&to->ping, &on->asks))
            continue;
        if (!roster_waits(to, it->seconds))
            ping_once_more(on, &to->ping.ping);
        asked_again(&to->ping, &on->asks, on->strangers.key);
    }
}

/* The next ping that waits has its turn, unless its client left meanwhile, or registered: that will be pinged again. */
static void ping_next(const gateway *it, network *on, const ipxr_own *next)
{
    const member *to = roster_find(&on->roster, next->place);
    if (to != NULL && !roster_waits(to, it->seconds))
        ping_one(on, next);
}

void tunnel_ping(const gateway *it, network *on)
{
    const ipxr_own *next;
    waiting_send(on);
    while ((next = pings_due(&on->pings)) != NULL)
        ping_next(it, on, next);
    if (asks_are_due(&on->asks))
        ping_unanswered(it, on);
}

/* ---- Hearing ---- */

/* Whether a network lets somebody in who sends from that address. */
bool tunnel_lets_in(const network_setting *set, const address *from)
{
    return set->allowed.count == 0 || ranges_have(&set->allowed, from) || ranges_have(&set->trusted, from);
}

/* Whether somebody may have his place as his node. (also where the configuration says so no more, but he is a client by it) */
static bool is_by_address(network *on, const uint8_t place[NODE])
{
    const member *client = roster_find(&on->roster, place);
    return on->set->nodes_by_address || (client != NULL && same_node(client->node, place));
}

ipxr_keyed_sender tunnel_sender(const gateway *it, network *on, const address *from)
{
    ipxr_keyed_sender sender = {.is_trusted = ranges_have(&on->set->trusted, from), .may_register = true};
    uint64_t minute = it->seconds / MINUTE;
    place_of(from, sender.place);
    node_make(it->nodes, sender.place, on->set->type == LINK_WEB, sender.node);
    memcpy(sender.former, is_by_address(on, sender.place) ? sender.place : sender.node, NODE);
    cookie_make(it->key, sender.place, minute, sender.current);
    cookie_make(it->key, sender.place, minute - 1, sender.previous);
    return sender;
}

/* A datagram that came, and what was found of it. */
typedef struct incoming {
    gateway *it;
    const address *from;
    ipxr_keyed_sender sender;
    uint8_t *bytes;
    size_t length;
    bool is_held_back;    /* a stranger registers, and too many were answered lately */
    bool is_remembered;   /* his registration is, from now on */
    int32_t said;         /* what the tunnel took it for; */
    bool has_own;         /* whether this has a datagram of its own for its sender, */
    bool is_received;     /* clients get it, */
    bool is_for_router;   /* or the router hears it */
    member *client;       /* its sender, where he is one */
    bool is_carried;      /* somebody got it */
    bool is_let_ask;      /* it is a question that counts already, wherever a router hears it */
    origin by;            /* who said it, where it is a client; */
    arrived carried;      /* and what he said */
} incoming;

/* Whether a client did what its ping asks for: it answered, or said anything where its address is trusted. */
static bool has_replied(const member *from, int32_t said)
{
    return said == IPXR_ANSWERS || (from->is_trusted && said != IPXR_SAID_NOTHING);
}

/* Whether a datagram registers. */
static bool is_registration(const incoming *in)
{
    return has_length(in->bytes, in->length) && get16(in->bytes + AT_TO_SOCKET) == TUNNEL_SOCKET && is_no_node(in->bytes + AT_TO_NODE);
}

/* Whether a datagram is a stranger's who registers, and isn't answered now, nor remembered. (this is asked before the tunnel hears it, since
 * that may bring all four datagrams upon him) */
static bool holds_back(const incoming *in)
{
    network *on = in->carried.on;
    return is_registration(in) && roster_find(&on->roster, in->sender.place) == NULL &&
           !tunnel_lets_newcomer(on, in->sender.place, FOR_REGISTRATION);
}

/* The client who said something, or NULL. A client is a place with a node: who says something there by another node is a stranger, and so is
 * who registers there, whose answer would tell him the place's own node. */
static member *client_of(const incoming *in)
{
    const uint8_t *node = in->said == IPXR_REGISTERS ? in->sender.node : in->bytes + AT_FROM_NODE;
    member *it = in->said != IPXR_SAID_NOTHING ? roster_find(&in->carried.on->roster, in->sender.place) : NULL;
    return it != NULL && same_node(it->node, node) ? it : NULL;
}

/* A client said something that counts. */
static void note_client(incoming *in)
{
    member *from = in->client;
    in->by = (origin){.speaks = from->speaks, .client = from, .kind = ipxr_kind_of(in->bytes, in->carried.length)};
    from->heard = limit_clock();
    if (has_replied(from, in->said)) {
        ipxr_asked_answer(&from->ping.moment);
        from->silent = 0;
    }
    if (in->is_remembered)
        tunnel_note_registration(in->it, in->carried.on, from);
    segment_client(in->carried.on, from->node, true); /* (it may be a client at another link of the network, too) */
}

/* The tunnel hears a datagram, which may make its sender a client. (a driver clears its control; DOSBox' leaves there what the program left) */
static void let_tunnel_hear(incoming *in)
{
    network *on = in->carried.on;
    if (in->length >= HEADER)
        in->bytes[AT_CONTROL] = 0;
    in->is_held_back = holds_back(in);
    in->sender.may_register = !in->is_held_back;
    size_t before = ipxr_keyed_clients(&on->tunnel), remembered = ipxr_keyed_waiters(&on->tunnel);
    in->said = ipxr_keyed_hear(&on->tunnel, &in->sender, in->bytes, in->length);
    in->carried.length = ipxr_keyed_carried(&on->tunnel);
    in->has_own = ipxr_keyed_owns(&on->tunnel) > 0;
    in->is_received = ipxr_keyed_receivers(&on->tunnel) > 0;
    in->is_for_router = ipxr_keyed_is_heard(&on->tunnel) == 1;
    if (ipxr_keyed_clients(&on->tunnel) > before)
        tunnel_tell_comes(in->it, on);
    in->is_remembered = ipxr_keyed_waiters(&on->tunnel) > remembered;
    in->client = client_of(in);
    if (in->client != NULL)
        note_client(in);
}

/* What a client said goes to the other links of its network. Returns whether any of them gets it. */
static bool carry_over(gateway *it, network *on, const origin *by, const uint8_t *packet, size_t length)
{
    uint8_t to[NODE];
    if (on->segment == NULL)
        return false;
    segment_next(on, packet, to);
    return segment_hear(it, on, by, by->client->node, to, packet, length).links > 0;
}

/* Whether what a client says may go to the other links of its network. What it tells as a router may only if it is trusted: a router there would
 * learn more than this network's share, and be told so much that it hears nobody else. */
static bool may_go_over(incoming *in)
{
    bool may = in->by.kind != IPXR_KIND_TOLD || in->client->is_trusted;
    in->client->dropped[DROPPED_FOR_ROUTER] += !may && in->carried.on->segment != NULL;
    return may;
}

/* Sends what a client said before the router, which sends too, hears it. */
static void carry(incoming *in)
{
    arrived *what = &in->carried;
    in->client->dropped[DROPPED_OF_IT] += send_carried(what->on, what->by, what->packet, what->length);
    bool goes_over = may_go_over(in) && carry_over(in->it, what->on, what->by, what->packet, what->length);
    in->is_carried = goes_over || in->is_received;
}

/* Whether it is for routers of another network, or goes there, too, since it is propagated. Where it names no network as its source, they would
 * take it for a neighbour's, and learn beyond what this network may advertise; nobody else than routers says such a thing, which they say to
 * their own networks. */
static bool is_for_far_routers(incoming *in)
{
    uint16_t socket = get16(in->bytes + AT_TO_SOCKET);
    bool goes_far = in->bytes[AT_TYPE] == PROPAGATED || !is_for_here(in->carried.on, in->bytes);
    bool is = goes_far && (socket == IPXR_RIP_SOCKET || socket == IPXR_SAP_SOCKET);
    in->client->dropped[DROPPED_FOR_ROUTER] += is;
    return is;
}

/* Why what a client says goes nowhere; REASONS where it goes on. What it asks goes on to routers at other links of its network, too: there it
 * asks no more than it may ask this one. */
static reason lets_say(incoming *in)
{
    network *on = in->carried.on;
    throttle_note(&in->by);
    reason why = throttle_lets_say(&on->throttle, &in->by);
    in->is_let_ask = in->by.kind == IPXR_KIND_QUESTION && on->segment != NULL;
    return why == REASONS && in->is_let_ask ? throttle_hands(&on->throttle, &in->by) : why;
}

/* Why the router doesn't hear what a client says; REASONS where it does. */
static reason lets_hear(incoming *in)
{
    arrived *what = &in->carried;
    if (edge_holds(what->on, what->packet, what->length))
        return FROM_AFAR;
    reason why = in->is_let_ask ? REASONS : throttle_hands(&what->on->throttle, &in->by);
    return why != REASONS ? why : edge_lets_in(in->it, what);
}

/* Answers what is next with what a client says to others. (behind the tunnel, which has noted that a client answers: no limit drops that) */
static uint16_t answer_word(incoming *in, uint8_t next)
{
    network *on = in->carried.on;
    switch (next) {
    case IPXR_NEXT_WORD_IS_PING:
        return in->has_own;
    case IPXR_NEXT_WORD_LETS_REPLY:
        return lets_answer(on, in->client);
    case IPXR_NEXT_WORD_REPLY:
        send_own(on, in->client);
        return 0;
    case IPXR_NEXT_WORD_LEAVE_UNANSWERED:
        counts_lose(&on->counts, TOO_MANY_ANSWERS);
        return 0;
    case IPXR_NEXT_WORD_IS_FOR_SOMEBODY:
        return in->is_received || in->is_for_router || on->segment != NULL; /* (other links may have the node) */
    case IPXR_NEXT_WORD_IS_FOR_FAR_ROUTERS:
        return is_for_far_routers(in);
    case IPXR_NEXT_WORD_LETS_SAY:
        return (uint16_t)lets_say(in);
    case IPXR_NEXT_WORD_CARRY:
        carry(in);
        return 0;
    case IPXR_NEXT_WORD_IS_HEARD:
        return in->is_for_router;
    case IPXR_NEXT_WORD_WAS_CARRIED:
        return in->is_carried || on->segment == NULL;
    case IPXR_NEXT_ROUTER_LETS_HEAR:
        return (uint16_t)lets_hear(in);
    }
    return gateway_answer(in->it, &in->carried, next);
}

/* Answers what is next with a datagram. */
static uint16_t answer(incoming *in, uint8_t next)
{
    network *on = in->carried.on;
    switch (next) {
    case IPXR_NEXT_DATAGRAM_IS_TOO_LONG:
        return in->length > on->set->longest;
    case IPXR_NEXT_DATAGRAM_CAPTURE:
        capture_packet(in->bytes, in->length, in->sender.node);
        return 0;
    case IPXR_NEXT_DATAGRAM_IS_ALLOWED:
        return tunnel_lets_in(on->set, in->from);
    case IPXR_NEXT_DATAGRAM_HEAR:
        let_tunnel_hear(in);
        return (uint16_t)(in->is_held_back ? IPXR_REGISTERS : in->said);
    case IPXR_NEXT_DATAGRAM_IS_PACKET:
        return has_length(in->bytes, in->length);
    case IPXR_NEXT_DATAGRAM_IS_ANSWERED:
        return in->has_own || in->is_held_back;
    case IPXR_NEXT_DATAGRAM_IS_PINGED:
        return in->has_own;
    case IPXR_NEXT_DATAGRAM_IS_CLIENT:
    case IPXR_NEXT_DATAGRAM_IS_CLIENT_NOW:
    case IPXR_NEXT_DATAGRAM_IS_FROM_CLIENT:
        return in->client != NULL;
    case IPXR_NEXT_DATAGRAM_LETS_ANSWER:
        return lets_answer(on, in->client);
    case IPXR_NEXT_DATAGRAM_ANSWER:
        send_own(on, in->client);
        return 0;
    case IPXR_NEXT_DATAGRAM_LETS_STRANGER:
        return !in->is_held_back;
    case IPXR_NEXT_DATAGRAM_LETS_PING:
        return lets_stranger(on, FOR_WORDS, in->sender.place, 1);
    case IPXR_NEXT_DATAGRAM_ANSWER_STRANGER:
    case IPXR_NEXT_DATAGRAM_PING:
        send_own(on, NULL);
        return 0;
    }
    return answer_word(in, next);
}

void tunnel_hear(gateway *it, network *on, uint8_t *bytes, size_t length, const address *from)
{
    ipxr_course way;
    incoming in = {.it = it, .from = from, .sender = tunnel_sender(it, on, from), .bytes = bytes, .length = length};
    in.carried = (arrived){.on = on, .by = &in.by, .packet = bytes};
    ipxr_course_of_datagram(&way);
    while (way.next != IPXR_NEXT_END)
        ipxr_course_answer(&way, answer(&in, way.next));
    gateway_settle(it, &in.carried, &way);
    if (way.fate == IPXR_FATE_LOST && way.number == NOT_ALLOWED)
        tunnel_tell_refused(on, from);
}

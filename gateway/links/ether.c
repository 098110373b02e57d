#include "links/ether.h"

#include <inttypes.h>

#include "ipx.h"
#include "links/edge.h"
#include "links/segment.h"
#include "monitoring/capture.h"
#include "monitoring/note.h"
#include "systems/clock.h"

static const uint8_t ALL_NODES[NODE] = {0xFF, 0xFF, 0xFF, 0xFF, 0xFF, 0xFF};

/* Milliseconds from one line about somebody who speaks another kind of frames to the next. */
enum { BETWEEN = 60000 };

/* ---- Sending ---- */

/* A raw frame of an odd length gets a byte more, since old drivers drop it without. (the longest is even; and all heed the packet's length) */
static size_t make_even(uint8_t kind, uint8_t *frame, size_t length)
{
    if (kind == IPXR_FRAME_RAW && length % 2 == 1)
        frame[length++] = 0;
    return length;
}

/* The packet in a frame of a kind. Returns whether it is on its way. */
static bool put_in(network *on, uint8_t kind, const uint8_t *from, const uint8_t *node, const uint8_t *packet, size_t length)
{
    uint8_t frame[IPXR_LONGEST_FRAME];
    size_t whole = make_even(kind, frame, ipxr_frame_write(kind, node, from, packet, length, frame, sizeof frame));
    if (whole == 0 || !cable_send(on->cable, frame, whole))
        return false;
    capture_frame(frame, whole);
    return true;
}

/* Frames of a packet that are on their way, and those that are not. */
typedef struct frames {
    size_t sent, refused;
} frames;

/* The kinds of frames in which a packet goes to a node, or to all, as bits; and how many they are. */
static unsigned kinds_to(const network *on, const uint8_t *node)
{
    return on->set->kind == ANY_KIND ? kinds_for(&on->kinds, node) : kind_bits(on->set->kind);
}

static uint32_t count_of(unsigned kinds)
{
    uint32_t count = 0;
    for (; kinds != 0; kinds &= kinds - 1)
        count++;
    return count;
}

static frames put(network *on, const uint8_t *from, const uint8_t *node, const uint8_t *packet, size_t length)
{
    frames count = {0};
    unsigned kinds = kinds_to(on, node);
    for (uint8_t kind = IPXR_FRAME_ETHERNET2; kind < ANY_KIND; kind++) {
        if ((kinds & 1u << kind) == 0)
            continue;
        if (put_in(on, kind, from, node, packet, length))
            count.sent++;
        else
            count.refused++;
    }
    return count;
}

bool ether_put(network *on, const uint8_t *from, const uint8_t *node, const uint8_t *packet, size_t length)
{
    return put(on, from, node, packet, length).sent > 0;
}

/* (a packet is one, in however many kinds it goes out) */
static void send_now(network *on, const uint8_t *from, const uint8_t *node, const uint8_t *packet, size_t length)
{
    frames count = put(on, from, node, packet, length);
    on->counts.out += count.sent > 0;
    for (; count.refused > 0; count.refused--)
        gateway_lose(on, NOT_SENT);
}

/* (it goes nowhere where the link was lost since, or another configuration makes it one of DOSBox') */
static void send_paced(network *on, const paced_packet *next)
{
    if (on->is_up && !has_tunnel(on->set))
        send_now(on, next->from, ALL_NODES, next->bytes, next->length);
}

/* The router's packet for all goes out behind those that wait. (without room for one more the first of them goes at once: none overtakes) */
static void wait_for_turn(network *on, const uint8_t *from, const uint8_t *packet, size_t length)
{
    const paced_packet *first;
    while (!paced_add(&on->paced, from, packet, length)) {
        first = paced_first(&on->paced);
        if (first == NULL) {
            send_now(on, from, ALL_NODES, packet, length);
            return;
        }
        send_paced(on, first);
    }
}

void ether_send(network *on, const origin *by, const uint8_t *from, const uint8_t *node, const uint8_t *packet, size_t length)
{
    reason why = throttle_carries(&on->throttle, on->of_link, by, length, count_of(kinds_to(on, node)));
    if (why != REASONS)
        gateway_lose(on, why);
    else if (by == NULL && is_broadcast(node))
        wait_for_turn(on, from, packet, length);
    else
        send_now(on, from, node, packet, length);
}

void ether_send_due(network *on)
{
    const paced_packet *next;
    while ((next = paced_due(&on->paced)) != NULL)
        send_paced(on, next);
}

void ether_send_waiting(network *on)
{
    const paced_packet *next;
    while ((next = paced_first(&on->paced)) != NULL)
        send_paced(on, next);
}

/* ---- Hearing ---- */

/* The network that has frames of a kind on a cable; where none has, the cable's first, and *is_there is false. */
static network *network_of(gateway *it, const cable *carrier, uint8_t kind, bool *is_there)
{
    network *first = first_on(it, carrier);
    for (network *on = first; on < it->networks + it->count; on++) {
        *is_there = on->cable == carrier && (on->set->kind == kind || on->set->kind == ANY_KIND);
        if (*is_there)
            return on;
    }
    return first;
}

/* Whether another cable on the same interface hears frames of a kind. */
static bool is_heard_beside(const gateway *it, const cable *carrier, uint8_t kind)
{
    for (size_t k = 0; k < it->count; k++)
        if (it->networks[k].cable != carrier && same_link(it->networks[k].set, carrier->set) && it->networks[k].set->kind == kind)
            return true;
    return false;
}

/* Whether another link of the network has proved that a node is there: it is a client of a tunnel. */
static bool is_client_elsewhere(gateway *it, const network *on, const uint8_t *node)
{
    port *router_port = port_of(it, on);
    for (network *other = first_of(it, router_port); other < first_of(it, router_port) + router_port->count; other++)
        if (other != on && has_tunnel(other->set) && roster_of_node(&other->roster, node) != NULL)
            return true;
    return false;
}

/* Whether a packet names as its source a client of another link of its network. (the frame's own source the library judges; but the router
 * answers to where the packet says that it comes from, so somebody could bring as much upon a client as he asks for) */
static bool is_in_clients_name(gateway *it, const network *on, const uint8_t *packet)
{
    uint32_t from = get32(packet + AT_FROM_NETWORK);
    return (from == 0 || from == EVERY_NETWORK || from == on->set->network) && is_client_elsewhere(it, on, packet + AT_FROM_NODE);
}

/* Tells of a node that is heard on two links by turns. */
static void look_for_twins(gateway *it, network *on, const uint8_t *node)
{
    char words[WORDS], link[LINK_ROOM], other[LINK_ROOM];
    uint8_t before;
    port *router_port = port_of(it, on);
    if (!ipxr_twins_hear(&router_port->twins, node, on->link, it->seconds, &before))
        return;
    const network *with = first_of(it, router_port) + before;
    event("network %08" PRIX32 " hears node %s by turns on %s and on %s: each machine needs a node of its own", on->set->network,
          node_words(node, words), cable_words(with->cable, with->set, other), cable_words(on->cable, on->set, link));
}

/* Whether a frame is to be heard, as far as its kind goes: where any may come, it tells what its sender uses. */
static bool is_of_its_kind(network *on, uint8_t kind, const uint8_t *frame, const uint8_t *packet, size_t length)
{
    char link[LINK_ROOM];
    bool was_heard = ipxr_kinds_is_used(&on->kinds, kind);
    if (on->set->kind != ANY_KIND || is_broadcast(frame + NODE) || !has_length(packet, length))
        return true;
    if (!kinds_hear(&on->kinds, kind, frame + NODE, is_broadcast(frame)))
        return false;
    if (!was_heard)
        event("network %08" PRIX32 " hears %s: %s", on->set->network, kind_word(kind), cable_words(on->cable, on->set, link));
    return true;
}

/* Whether other networks have their kinds of frames on the same link. */
static bool is_shared(const gateway *it, const network *on)
{
    for (size_t k = 0; k < it->count; k++)
        if (&it->networks[k] != on && it->networks[k].of_link == on->of_link)
            return true;
    return false;
}

/* Somebody speaks a kind of frames that no network has there. Once a minute it is told, with the words for the configuration: else old
 * computers whose kind is the wrong one would seem to be silent. */
static void tell_other_kind(const gateway *it, network *on, uint8_t kind, const uint8_t *node)
{
    char who[WORDS], link[LINK_ROOM];
    network_setting other = *on->set;
    uint64_t now = clock_now();
    if (on->kind_told != 0 && now - on->kind_told < BETWEEN)
        return;
    on->kind_told = now;
    other.kind = kind;
    event("network %08" PRIX32 " speaks %s, and node %s speaks %s there: write '%s'%s", on->set->network, kind_word(on->set->kind),
          node_words(node, who), kind_word(kind), cable_words(on->cable, &other, link),
          is_shared(it, on) ? " for one more network" : ", or auto");
}

/* A frame that came, and what was found of it. */
typedef struct incoming {
    gateway *it;
    cable *carrier;
    const uint8_t *frame; /* with so many bytes, of which the first MOST_RECEIVED are there */
    size_t length;
    uint8_t kind;
    bool is_there;   /* a network has such frames on the cable */
    bool is_of_twin; /* it looks for loops, for another gateway with the same node */
    bool is_whole;   /* it holds a packet with its length, */
    size_t rest;     /* and bytes behind its front, padding too */
    origin by;       /* who said it: the network itself, whoever is there */
    heard on_links;  /* what came of it at the other links */
    arrived carried; /* what it carries */
} incoming;

/* What a packet is for the limits. (what is for routers of another network only passes here, and so does what is propagated) */
static uint8_t kind_on(const network *on, const uint8_t *packet, size_t length)
{
    uint8_t kind = ipxr_kind_of(packet, length);
    bool is_for_routers = kind == IPXR_KIND_QUESTION || kind == IPXR_KIND_TOLD;
    return is_for_routers && (packet[AT_TYPE] == PROPAGATED || !is_for_here(on, packet)) ? IPXR_KIND_OTHER : kind;
}

/* Why a frame goes nowhere; REASONS where it does. From here on its packet is looked at. */
static reason lets_in(incoming *in)
{
    arrived *what = &in->carried;
    in->by = (origin){.speaks = &what->on->speaks, .kind = kind_on(what->on, what->packet, in->rest)};
    throttle_note(&in->by);
    in->is_whole = has_length(what->packet, in->rest);
    what->length = in->is_whole ? get16(what->packet + AT_LENGTH) : in->rest;
    what->by = in->is_whole ? &in->by : NULL;
    what->came = what->packet;
    what->came_length = what->length;
    return throttle_lets_in(&what->on->throttle, in->by.kind);
}

/* A packet goes from a node to a node, or to all, on the other links that get it. */
static void put_on_links(incoming *in)
{
    const arrived *what = &in->carried;
    if (in->is_of_twin) {
        in->on_links = (heard){.links = segment_repeat(in->it, what->on, &in->by, what->packet, what->length)};
        return;
    }
    in->on_links = segment_hear(in->it, what->on, &in->by, in->frame + NODE, in->frame, what->packet, what->length);
    if (in->on_links.by_router || in->on_links.links > 0)
        look_for_twins(in->it, what->on, in->frame + NODE);
}

/* Why the router doesn't hear a packet; REASONS where it does. */
static reason lets_hear(incoming *in)
{
    arrived *what = &in->carried;
    if (edge_holds(what->on, what->packet, what->length))
        return FROM_AFAR;
    reason why = throttle_hears(&what->on->throttle, &in->by);
    return why != REASONS ? why : edge_lets_in(in->it, what);
}

/* Answers what is next with a packet whose network has several links, or this one. */
static uint16_t answer_carried(incoming *in, uint8_t next)
{
    arrived *what = &in->carried;
    switch (next) {
    case IPXR_NEXT_FRAME_HAS_LINKS:
        return what->on->segment != NULL;
    case IPXR_NEXT_FRAME_IS_PACKET:
    case IPXR_NEXT_FRAME_IS_WHOLE:
        return in->is_whole;
    case IPXR_NEXT_FRAME_IS_BEYOND_LINK:
        return what->length > what->on->set->longest;
    case IPXR_NEXT_FRAME_NAMES_CLIENT:
        return is_in_clients_name(in->it, what->on, what->packet);
    case IPXR_NEXT_FRAME_PUT_ON_LINKS:
        put_on_links(in);
        return 0;
    case IPXR_NEXT_FRAME_IS_FOR_ROUTER:
        return in->on_links.by_router;
    case IPXR_NEXT_FRAME_WAS_PUT:
        return in->on_links.links > 0;
    case IPXR_NEXT_FRAME_IS_FROM_CLIENT:
        return is_client_elsewhere(in->it, what->on, in->frame + NODE);
    case IPXR_NEXT_ROUTER_LETS_HEAR:
        return (uint16_t)lets_hear(in);
    }
    return gateway_answer(in->it, what, next);
}

/* Answers what is next with a frame. */
static uint16_t answer(incoming *in, uint8_t next)
{
    network *on = in->carried.on;
    const uint8_t *to = in->frame, *from = in->frame + NODE, *packet = in->carried.packet;
    switch (next) {
    case IPXR_NEXT_FRAME_IS_FRAME:
        return in->kind != IPXR_NO_FRAME;
    case IPXR_NEXT_FRAME_HAS_NETWORK:
        return in->is_there;
    case IPXR_NEXT_FRAME_IS_HEARD_BESIDE:
        return is_heard_beside(in->it, in->carrier, in->kind);
    case IPXR_NEXT_FRAME_IS_TOO_LONG:
        return in->length > IPXR_LONGEST_FRAME;
    case IPXR_NEXT_FRAME_IS_OWN:
        return same_node(from, on->node) && !in->is_of_twin;
    case IPXR_NEXT_FRAME_IS_PROBE:
        return loop_hears(in->it, on, packet, in->rest);
    case IPXR_NEXT_FRAME_IS_OF_ITS_KIND:
        return in->is_of_twin || is_of_its_kind(on, in->kind, in->frame, packet, in->rest);
    case IPXR_NEXT_FRAME_IS_FOR_ANOTHER:
        return on->segment == NULL && !is_broadcast(to) && !same_node(to, on->node);
    case IPXR_NEXT_FRAME_CAPTURE:
        capture_frame(in->frame, in->length);
        return 0;
    case IPXR_NEXT_FRAME_LETS_IN:
        return (uint16_t)lets_in(in);
    }
    return answer_carried(in, next);
}

/* The network of the cable, whatever its kind of frames, whose own packet it is that looks for loops; or NULL. */
static network *looks_for_loops(const incoming *in)
{
    for (network *on = in->it->networks; in->kind != IPXR_NO_FRAME && on < in->it->networks + in->it->count; on++)
        if (on->cable == in->carrier && loop_sent(in->it, on, in->carried.packet, in->rest))
            return on;
    return NULL;
}

/* Whether a frame is for all, from the gateway's own node, and yet another's that looks for loops. */
static bool is_of_twin(const incoming *in)
{
    const network *on = in->carried.on;
    return in->is_there && in->kind != IPXR_NO_FRAME && is_broadcast(in->frame) && same_node(in->frame + NODE, on->node) &&
           loop_is_of_twin(in->it, on, in->carried.packet, in->rest);
}

/* A frame as it was read. */
static incoming read_frame(gateway *it, cable *carrier, const uint8_t *frame, size_t length)
{
    size_t front = 0;
    incoming in = {.it = it, .carrier = carrier, .frame = frame, .length = length};
    in.kind = ipxr_frame_read(frame, length < MOST_RECEIVED ? length : MOST_RECEIVED, &front);
    in.carried.on = network_of(it, carrier, in.kind, &in.is_there);
    in.carried.packet = frame + front;
    in.rest = length - front;
    network *own = in.is_there ? NULL : looks_for_loops(&in);
    if (own != NULL) {
        in.carried.on = own;
        in.is_there = true;
    }
    in.is_of_twin = is_of_twin(&in);
    return in;
}

void ether_hear_sent(gateway *it, cable *carrier, const uint8_t *frame, size_t length)
{
    incoming in = read_frame(it, carrier, frame, length);
    network *own = looks_for_loops(&in);
    if (own != NULL)
        loop_hears_sent(it, own, in.carried.packet, in.rest);
}

void ether_hear(gateway *it, cable *carrier, const uint8_t *frame, size_t length)
{
    ipxr_course way;
    incoming in = read_frame(it, carrier, frame, length);
    ipxr_course_of_frame(&way);
    while (way.next != IPXR_NEXT_END)
        ipxr_course_answer(&way, answer(&in, way.next));
    gateway_settle(it, &in.carried, &way);
    if (way.fate == IPXR_FATE_LOST && way.number == OTHER_KIND)
        tell_other_kind(it, in.carried.on, in.kind, frame + NODE);
}

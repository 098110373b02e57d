#include "links/loop.h"

#include <stdio.h>
#include <string.h>

#include "gateway.h"
#include "ipx.h"
#include "links/ether.h"
#include "links/links.h"

enum {
    SEAL = 8,       /* bytes by which the gateway knows its own packet, and as many by which it knows that it was */
    MOST_ROOM = 64, /* frames that are looked at, so that some go, and there is room for it */
};

/* The data of such a packet: the link, the second, and a hash of both that nobody can make but this gateway. Once links have changed, their
 * numbers mean others: so it is also a hash of how often they have. Behind it stands one that isn't: by that the gateway knows its packets of
 * before. */
enum { AT_LINK = 0, AT_SECOND = 1, AT_SEAL = 9, AT_MARK = AT_SEAL + SEAL, DATA = AT_MARK + SEAL };

/* ---- The packets ---- */

/* What is hashed: for the seal all of it, for the mark all but how often links have changed. */
enum { AT_NETWORK = AT_SEAL, AT_CHANGES = AT_NETWORK + 4, SEALED = AT_CHANGES + 4 };

static void put_hash(const gateway *it, const network *on, size_t length, size_t at, uint8_t data[DATA])
{
    uint8_t sealed[SEALED];
    memcpy(sealed, data, AT_SEAL);
    put32(sealed + AT_NETWORK, on->set->network);
    put32(sealed + AT_CHANGES, it->changes);
    uint64_t hash = siphash(it->key, sealed, length);
    for (size_t k = 0; k < SEAL; k++)
        data[at + k] = (uint8_t)(hash >> 8 * k);
}

static void put_seal(const gateway *it, const network *on, uint8_t data[DATA])
{
    put_hash(it, on, SEALED, AT_SEAL, data);
}

static void put_mark(const gateway *it, const network *on, uint8_t data[DATA])
{
    put_hash(it, on, AT_CHANGES, AT_MARK, data);
}

static void put_second(uint8_t data[DATA], uint64_t second)
{
    put32(data + AT_SECOND, (uint32_t)(second >> 32));
    put32(data + AT_SECOND + 4, (uint32_t)second);
}

static uint64_t second_of(const uint8_t data[DATA])
{
    return (uint64_t)get32(data + AT_SECOND) << 32 | get32(data + AT_SECOND + 4);
}

/* Whether the link is one of several and carries frames, so that a bridge may join it to another. */
static bool is_cable(const network *on)
{
    return on->segment != NULL && !has_tunnel(on->set);
}

/* Whether there is another such link on the network. */
static bool has_another(gateway *it, const network *on)
{
    const port *router_port = port_of(it, on);
    for (const network *other = first_of(it, router_port); other < first_of(it, router_port) + router_port->count; other++)
        if (other != on && is_cable(other))
            return true;
    return false;
}

/* (not counted, since it is no station's) */
static void send_one(const gateway *it, network *on)
{
    static const uint8_t ALL[NODE] = {0xFF, 0xFF, 0xFF, 0xFF, 0xFF, 0xFF};
    ipxr_address from = {.network = on->set->network, .socket = LOOP_SOCKET}, to = from;
    uint8_t data[DATA], packet[HEADER + DATA];
    memcpy(from.node, on->node, NODE);
    memcpy(to.node, ALL, NODE);
    data[AT_LINK] = on->link;
    put_second(data, it->seconds);
    put_seal(it, on, data);
    put_mark(it, on, data);
    int32_t length = ipxr_write_packet(&from, &to, 0, 0, data, DATA, packet, sizeof packet);
    if (length > 0)
        (void)!ether_put(on, on->node, ALL, packet, (size_t)length);
}

void loop_ask(gateway *it, network *on)
{
    if (is_cable(on) && has_another(it, on))
        send_one(it, on);
}

/* ---- Shutting ---- */

/* Why a link is shut that is one cable with another. */
static void why_with(const network *with, char why[LOOP_WORDS])
{
    char link[LINK_ROOM];
    snprintf(why, LOOP_WORDS, "it is one cable with %s", cable_words(with->cable, with->set, link));
}

/* A link is shut now, since it is one cable with an earlier one. */
static void tell_shut(gateway *it, network *on, const network *with)
{
    why_with(with, on->loop.why);
    links_look(it, on->cable);
}

/* Whether the link with which one is one cable is still there, and before it unless it is the one beneath. */
static bool stays_shut(gateway *it, const network *on)
{
    char why[LOOP_WORDS];
    const port *router_port = port_of(it, on);
    const network *first = first_of(it, router_port), *end = on->loop.is_beneath ? first + router_port->count : on;
    for (const network *other = first; other < end; other++) {
        why_with(other, why);
        if (is_cable(other) && strcmp(why, on->loop.why) == 0)
            return true;
    }
    return false;
}

void loops_change(gateway *it)
{
    it->changes++;
    for (network *on = it->networks; on < it->networks + it->count; on++)
        if (loop_is_shut(&on->loop) && !stays_shut(it, on))
            on->loop.shut = (ipxr_loop){0};
}

static bool is_own(const gateway *it, const network *on, const uint8_t *packet)
{
    const uint8_t *data = packet + HEADER;
    uint8_t made[DATA];
    memcpy(made, data, DATA);
    put_seal(it, on, made);
    return memcmp(made, data, DATA) == 0;
}

/* Whether a packet is one of these, whichever gateway sent it. */
static bool is_probe(const network *on, const uint8_t *packet, size_t length)
{
    return is_cable(on) && length >= HEADER + DATA && get16(packet + AT_TO_SOCKET) == LOOP_SOCKET;
}

/* Whether the gateway sent one of these, now or before its links have changed. */
static bool was_own(const gateway *it, const network *on, const uint8_t *packet)
{
    uint8_t made[DATA];
    memcpy(made, packet + HEADER, DATA);
    put_mark(it, on, made);
    return memcmp(made, packet + HEADER, DATA) == 0;
}

bool loop_is_of_twin(const gateway *it, const network *on, const uint8_t *packet, size_t length)
{
    return is_probe(on, packet, length) && !was_own(it, on, packet);
}

/* The link on which the gateway sent such a packet of its own that came on another, or on itself; NULL where it is none. */
static network *sent_on(gateway *it, const network *on, const uint8_t *packet, size_t length)
{
    if (!is_probe(on, packet, length) || !is_own(it, on, packet))
        return NULL;
    port *router_port = port_of(it, on);
    uint8_t link = packet[HEADER + AT_LINK];
    return link < router_port->count ? first_of(it, router_port) + link : NULL; /* (it is: its seal is of the links as they are now) */
}

bool loop_sent(gateway *it, const network *on, const uint8_t *packet, size_t length)
{
    return sent_on(it, on, packet, length) != NULL;
}

bool loop_hears(gateway *it, network *on, const uint8_t *packet, size_t length)
{
    ipxr_loop same = {0};
    network *other = sent_on(it, on, packet, length);
    if (other == NULL)
        return false;
    uint64_t second = second_of(packet + HEADER);
    switch (ipxr_loop_probe(on->link, other->link, second, it->seconds, &on->loop.shut, other != on ? &other->loop.shut : &same)) {
    case IPXR_PROBE_LATE:
        return false;
    case IPXR_PROBE_HERE:
        on->loop.is_beneath = false;
        tell_shut(it, on, other);
        break;
    case IPXR_PROBE_THERE:
        other->loop.is_beneath = false;
        tell_shut(it, other, on);
        break;
    }
    return true;
}

/* Whether two links are on one card, which may have several names. */
static bool is_same_card(const network *a, const network *b)
{
    bool are_cards = a->set->type == LINK_INTERFACE && b->set->type == LINK_INTERFACE;
    return same_link(a->set, b->set) || (are_cards && a->cable->index != 0 && a->cable->index == b->cable->index);
}

/* (the one beneath counts as the later, since whoever is on it is on the other too) */
void loop_hears_sent(gateway *it, network *on, const uint8_t *packet, size_t length)
{
    enum { EARLIER, LATER };
    network *other = sent_on(it, on, packet, length);
    if (other == NULL || other == on)
        return;
    if (is_same_card(other, on)) {
        (void)loop_hears(it, on, packet, length);
        return;
    }
    if (ipxr_loop_probe(LATER, EARLIER, second_of(packet + HEADER), it->seconds, &on->loop.shut, &other->loop.shut) == IPXR_PROBE_HERE) {
        on->loop.is_beneath = true;
        tell_shut(it, on, other);
    }
}

/* Hears of what came what is for one node alone. */
static void hear_of_one(gateway *it, cable *carrier, arrivals *in)
{
    for (size_t k = 0; k < in->count; k++) {
        arrival *next = &in->list[k];
        bool is_for_one = next->length > 0 && (next->bytes[0] & 1) == 0;
        if (is_for_one && next->is_sent)
            ether_hear_sent(it, carrier, next->bytes, next->length);
        else if (is_for_one)
            ether_hear(it, carrier, next->bytes, next->length);
    }
    gateway_flush(it);
}

/* Where three links or more are one cable, each packet for all comes back more than once, and soon the system's room for what waits is full: then
 * a probe that comes back is lost. So some of them that wait go, unheard; as many would find no room anyway. */
static void make_room(gateway *it, network *on)
{
    size_t looked_at = 0;
    it->arrivals.most = MOST_TOGETHER;
    while (on->cable->is_behind && on->cable->fd >= 0 && looked_at < MOST_ROOM && cable_receive(on->cable, &it->arrivals)) {
        looked_at += it->arrivals.count;
        hear_of_one(it, on->cable, &it->arrivals);
    }
}

/* Whether a second counts of those for which a link stays shut: one of two does, by chance. (so of two gateways that shut links in one moment, each
 * because of the other's, one opens its link again before the other, and then it alone stays open) */
static bool is_counted(const gateway *it, const network *on)
{
    uint8_t of[DATA] = {[AT_LINK] = on->link};
    put_second(of, it->seconds);
    put32(of + AT_SEAL, on->set->network);
    return (siphash(it->key, of, sizeof of) & 1) != 0;
}

void loops_second(gateway *it)
{
    for (size_t k = 0; k < it->count; k++)
        if (is_cable(&it->networks[k]) && has_another(it, &it->networks[k]))
            make_room(it, &it->networks[k]);
    for (size_t k = 0; k < it->count; k++) {
        network *on = &it->networks[k];
        if (on->is_up)
            loop_ask(it, on);
        if (is_counted(it, on) && ipxr_loop_second(&on->loop.shut))
            links_look(it, on->cable);
    }
}

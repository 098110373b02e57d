#include "fates.h"

#include <string.h>

#include "chance.h"
#include "configuration/change.h"
#include "ipx.h"
#include "links/edge.h"
#include "links/ether.h"
#include "links/segment.h"
#include "monitoring/status.h"
#include "peace.h"
#include "play.h"
#include "tunnel/outgoing.h"
#include "tunnel/tunnel.h"
#include "weather.h"

/* What happened to a packet, or in a turn. */
typedef struct tally {
    unsigned heard, by_status, by_loop; /* by the router, by somebody who asked, as the gateway's own */
    uint8_t port;
    int32_t became;
    int32_t said;
    unsigned receivers, links; /* that got it, as the library said */
    unsigned copies, own, own_to_clients, settled;
    const network *networks;     /* once something of them was to go out; */
    uint64_t denied[MOST_LINKS]; /* and what of each was denied */
} tally;

/* Of the blocks that a reload takes the first so many are refused now and then, one at a time. */
enum { MOST_OF_RELOAD = 40 };

static tally now, turn;
static unsigned long seen;
static bool is_other_gateway; /* the configuration changed in this turn */
static const network *hears_now; /* the network where a datagram came */
static uint64_t lost_before;

unsigned long fates_seen(void)
{
    return seen;
}

/* What copies are lost by. */
static uint64_t lost_copies(const counts *it)
{
    return it->packets.lost[TOO_MUCH_FOR_CLIENT] + it->packets.lost[TOO_MUCH_FOR_ADDRESS] + it->packets.lost[TOO_MUCH_FOR_LINE];
}

static uint64_t all_lost_copies(const gateway *it)
{
    uint64_t sum = 0;
    for (size_t k = 0; it != NULL && k < it->count; k++)
        sum += lost_copies(&it->networks[k].counts);
    return sum;
}

/* ---- What is watched ---- */

/* What the router hears names the network where it comes from; and routers say what they know to their own network. */
static void judge_entered(const uint8_t *bytes, size_t length)
{
    if (!has_length(bytes, length) || length > LONGEST)
        return;
    uint16_t socket = get16(bytes + AT_TO_SOCKET);
    uint32_t to = get32(bytes + AT_TO_NETWORK);
    bool is_for_routers = bytes[AT_TYPE] != PROPAGATED && (socket == IPXR_RIP_SOCKET || socket == IPXR_SAP_SOCKET);
    if (get32(bytes + AT_FROM_NETWORK) == 0)
        wrong("the router hears of network 0");
    if (hears_now != NULL && is_for_routers && bytes[AT_CONTROL] != 0 && (to == 0 || to == hears_now->set->network))
        wrong("the router hears what another router carried there");
}

int32_t __real_ipxr_packet(ipxr *router, uint8_t number, const uint8_t *bytes, size_t length);
int32_t __wrap_ipxr_packet(ipxr *router, uint8_t number, const uint8_t *bytes, size_t length);
int32_t __wrap_ipxr_packet(ipxr *router, uint8_t number, const uint8_t *bytes, size_t length)
{
    now.heard++;
    now.port = number;
    judge_entered(bytes, length);
    return now.became = __real_ipxr_packet(router, number, bytes, length);
}

int32_t __real_ipxr_keyed_hear(ipxr_keyed *tunnel, const ipxr_keyed_sender *sender, const uint8_t *bytes, size_t length);
int32_t __wrap_ipxr_keyed_hear(ipxr_keyed *tunnel, const ipxr_keyed_sender *sender, const uint8_t *bytes, size_t length);
int32_t __wrap_ipxr_keyed_hear(ipxr_keyed *tunnel, const ipxr_keyed_sender *sender, const uint8_t *bytes, size_t length)
{
    return now.said = __real_ipxr_keyed_hear(tunnel, sender, bytes, length);
}

int32_t __real_ipxr_keyed_receiver(ipxr_keyed *tunnel, size_t index, uint8_t place[6]);
int32_t __wrap_ipxr_keyed_receiver(ipxr_keyed *tunnel, size_t index, uint8_t place[6]);
int32_t __wrap_ipxr_keyed_receiver(ipxr_keyed *tunnel, size_t index, uint8_t place[6])
{
    int32_t found = __real_ipxr_keyed_receiver(tunnel, index, place);
    now.receivers += found == 0;
    turn.receivers += found == 0;
    return found;
}

int32_t __real_ipxr_segment_receiver(ipxr_segment *segment, size_t index, uint8_t *link);
int32_t __wrap_ipxr_segment_receiver(ipxr_segment *segment, size_t index, uint8_t *link);
int32_t __wrap_ipxr_segment_receiver(ipxr_segment *segment, size_t index, uint8_t *link)
{
    int32_t found = __real_ipxr_segment_receiver(segment, index, link);
    now.links += found == 0;
    return found;
}

size_t __real_segment_repeat(gateway *it, network *on, const origin *by, const uint8_t *packet, size_t length);
size_t __wrap_segment_repeat(gateway *it, network *on, const origin *by, const uint8_t *packet, size_t length);
size_t __wrap_segment_repeat(gateway *it, network *on, const origin *by, const uint8_t *packet, size_t length)
{
    size_t links = __real_segment_repeat(it, on, by, packet, length);
    now.links += (unsigned)links;
    return links;
}

/* What came on a network goes there to the client whose node it is for, or to all. (or by a client that is a router to another network) */
static void judge_copy(network *on, const uint8_t place[6], const uint8_t *packet)
{
    const member *to = roster_find(&on->roster, place);
    const uint8_t *node = packet + AT_TO_NODE;
    if (to == NULL || (is_for_here(on, packet) && !is_broadcast(node) && !same_node(node, to->node)))
        wrong("10.0.0.%u:%u on network %X gets what isn't for it", place[3], get16(place + 4), (unsigned)on->set->network);
}

void __real_outgoing_copy(network *on, const uint8_t place[6]);
void __wrap_outgoing_copy(network *on, const uint8_t place[6]);
void __wrap_outgoing_copy(network *on, const uint8_t place[6])
{
    turn.copies++;
    if (hears_now == on)
        judge_copy(on, place, on->outgoing.packet);
    __real_outgoing_copy(on, place);
}

void __real_outgoing_own(network *on, const uint8_t place[6], const uint8_t *bytes, size_t length, bool is_client);
void __wrap_outgoing_own(network *on, const uint8_t place[6], const uint8_t *bytes, size_t length, bool is_client);
void __wrap_outgoing_own(network *on, const uint8_t place[6], const uint8_t *bytes, size_t length, bool is_client)
{
    now.own++;
    turn.own_to_clients += is_client;
    __real_outgoing_own(on, place, bytes, length, is_client);
}

size_t __real_cable_send_all(cable *it, const departure *list, size_t count);
size_t __wrap_cable_send_all(cable *it, const departure *list, size_t count);
size_t __wrap_cable_send_all(cable *it, const departure *list, size_t count)
{
    size_t sent = __real_cable_send_all(it, list, count);
    turn.settled += sent > 0 ? (unsigned)sent : 1;
    return sent;
}

size_t __real_edge_lets_out(gateway *it, network *on, uint8_t *packet, size_t length);
size_t __wrap_edge_lets_out(gateway *it, network *on, uint8_t *packet, size_t length);
size_t __wrap_edge_lets_out(gateway *it, network *on, uint8_t *packet, size_t length)
{
    uint64_t before = on->counts.packets.lost[DENIED];
    size_t left = __real_edge_lets_out(it, on, packet, length);
    now.networks = it->networks;
    now.denied[on - it->networks] += on->counts.packets.lost[DENIED] - before;
    if (left > length || (left == 0 && on->set->rule_count == 0 && !on->set->adopts))
        wrong("%d bytes of %d go out", (int)left, (int)length);
    return left;
}

bool __real_status_hears(const uint8_t *packet, size_t length);
bool __wrap_status_hears(const uint8_t *packet, size_t length);
bool __wrap_status_hears(const uint8_t *packet, size_t length)
{
    bool is_heard = __real_status_hears(packet, length);
    now.by_status += is_heard;
    return is_heard;
}

bool __real_loop_hears(gateway *it, network *on, const uint8_t *packet, size_t length);
bool __wrap_loop_hears(gateway *it, network *on, const uint8_t *packet, size_t length);
bool __wrap_loop_hears(gateway *it, network *on, const uint8_t *packet, size_t length)
{
    bool is_heard = __real_loop_hears(it, on, packet, length);
    now.by_loop += is_heard;
    return is_heard;
}

changed __real_gateway_change(gateway *it, const settings *set);
changed __wrap_gateway_change(gateway *it, const settings *set);
changed __wrap_gateway_change(gateway *it, const settings *set)
{
    is_other_gateway = true;
    if (!is_peace() && one_in(3))
        the_weather.nth = between(1, MOST_OF_RELOAD);
    return __real_gateway_change(it, set);
}

/* ---- Fates ---- */

/* Reasons for which nobody gets anything of a packet. */
static const reason WHOLLY[] = {TOO_LONG,    FALSE_SOURCE, STRANGER,  NO_ROOM,            NOT_ALLOWED,    NO_IPX,         OTHER_KIND,
                                SECOND_KIND, FOR_ANOTHER,  OWN_FRAME, TOO_MANY_STRANGERS, TOO_MANY_PINGS, FOR_FAR_ROUTERS};

/* Those for which the router doesn't hear it, though others may get it. */
static const reason BY_ROUTER[] = {TOO_MANY_QUESTIONS, TOO_MANY_ADVERTISEMENTS, TOO_MUCH_FOR_ROUTER, FROM_AFAR, DENIED};

/* (a reason more or fewer has to be put among these, or left to what else is looked at: of copies, of what is sent, and of no client) */
typedef char has_all_reasons[REASONS == 31 ? 1 : -1];

static uint64_t lost_since(const counts *it, const counts *before, const reason *list, size_t count)
{
    uint64_t sum = 0;
    for (size_t k = 0; k < count; k++)
        sum += it->packets.lost[list[k]] - before->packets.lost[list[k]];
    return sum;
}

static uint64_t dropped_since(const counts *it, const counts *before)
{
    uint64_t sum = 0;
    for (size_t k = 0; k < IPXR_DROPS; k++)
        sum += it->packets.dropped[k] - before->packets.dropped[k];
    return sum;
}

/* What the router said of a packet is what was counted. */
static void judge_router(const network *on, const counts *before)
{
    uint64_t dropped = dropped_since(&on->counts, before), refused = on->counts.packets.lost[NO_MEMORY] - before->packets.lost[NO_MEMORY];
    bool is_drop = now.heard > 0 && now.became >= 100, is_fault = now.heard > 0 && now.became < 0;
    if (now.heard > 0 && now.port != on->set->port)
        wrong("the router hears a packet of port %u on port %u", on->set->port, now.port);
    if (dropped != is_drop || refused != is_fault)
        wrong("the router says %d of a packet, and %d drops and %d faults are counted", now.became, (int)dropped, (int)refused);
}

/* One packet came on a network: it was lost wholly, or heard, handed on or answered. */
static void judge(const network *on, const counts *before)
{
    const counts *it = &on->counts;
    uint64_t wholly = lost_since(it, before, WHOLLY, sizeof WHOLLY / sizeof *WHOLLY);
    uint64_t denied = now.networks != NULL ? now.denied[on - now.networks] : 0;
    uint64_t by_router = lost_since(it, before, BY_ROUTER, sizeof BY_ROUTER / sizeof *BY_ROUTER) - denied;
    uint64_t unanswered = it->packets.lost[TOO_MANY_ANSWERS] - before->packets.lost[TOO_MANY_ANSWERS];
    uint64_t nowhere = it->packets.lost[NO_CLIENT] - before->packets.lost[NO_CLIENT];
    uint64_t heard = now.heard + now.by_status + by_router, handed = now.receivers + now.links + now.by_loop;
    bool is_answer = has_tunnel(on->set) && now.said == IPXR_ANSWERS;
    seen++;
    if (wholly > 1 || heard > 1)
        wrong("a packet is lost %d times, and heard %d times", (int)wholly, (int)heard);
    if (wholly == 1 && heard + handed > 0)
        wrong("a packet is lost, and heard %d times, and handed on %d times", (int)heard, (int)handed);
    if (wholly + heard + handed + now.own + unanswered + nowhere + is_answer == 0)
        wrong("nothing becomes of a packet on %X", (unsigned)on->set->network);
    judge_router(on, before);
}

void __real_tunnel_hear(gateway *it, network *on, uint8_t *bytes, size_t length, const address *from);
void __wrap_tunnel_hear(gateway *it, network *on, uint8_t *bytes, size_t length, const address *from);
void __wrap_tunnel_hear(gateway *it, network *on, uint8_t *bytes, size_t length, const address *from)
{
    counts before = on->counts;
    memset(&now, 0, sizeof now);
    hears_now = on;
    __real_tunnel_hear(it, on, bytes, length, from);
    hears_now = NULL;
    if (on->counts.packets.in != before.packets.in + 1)
        wrong("a datagram is counted %d times", (int)(on->counts.packets.in - before.packets.in));
    judge(on, &before);
}

/* The network on a cable that counted a frame; NULL where none did. */
static network *counted_on(gateway *it, const cable *at, const counts *before)
{
    network *found = NULL;
    for (size_t k = 0; k < it->count; k++) {
        network *on = &it->networks[k];
        if (on->cable != at || on->counts.packets.in == before[k].packets.in)
            continue;
        if (found != NULL || on->counts.packets.in != before[k].packets.in + 1)
            wrong("a frame is counted more than once");
        found = on;
    }
    return found;
}

void __real_ether_hear(gateway *it, cable *on, const uint8_t *frame, size_t length);
void __wrap_ether_hear(gateway *it, cable *on, const uint8_t *frame, size_t length);
void __wrap_ether_hear(gateway *it, cable *on, const uint8_t *frame, size_t length)
{
    static counts before[MOST_LINKS];
    for (size_t k = 0; k < it->count; k++)
        if (it->networks[k].cable == on)
            before[k] = it->networks[k].counts;
    memset(&now, 0, sizeof now);
    __real_ether_hear(it, on, frame, length);
    const network *counted = counted_on(it, on, before);
    if (counted != NULL)
        judge(counted, &before[counted - it->networks]);
    else if (now.heard + now.links + now.own > 0)
        wrong("a frame that isn't counted is heard");
}

/* ---- Turns ---- */

void fates_begin(gateway *it)
{
    memset(&turn, 0, sizeof turn);
    is_other_gateway = false;
    lost_before = all_lost_copies(it);
}

void fates_are_well(gateway *it)
{
    uint64_t lost = all_lost_copies(it) - lost_before;
    if (turn.settled != turn.copies + turn.own_to_clients)
        wrong("%u datagrams are for clients, and the system was given %u", turn.copies + turn.own_to_clients, turn.settled);
    if (!is_other_gateway && turn.receivers != turn.copies + lost)
        wrong("%u clients were to get copies, %u got one, and %d are lost", turn.receivers, turn.copies, (int)lost);
}

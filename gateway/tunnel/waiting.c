#include "tunnel/waiting.h"

#include <string.h>

#include "ipx.h"
#include "tunnel/place.h"
#include "tunnel/tunnel.h"

/* Whether somebody at a place registered lately, and waits for his answer: he would take a ping for it. */
static bool waits_for_answer(network *on, const uint8_t place[NODE])
{
    ipxr_keyed_member waiter;
    for (size_t k = 0; ipxr_keyed_waiter(&on->tunnel, k, &waiter) == 0; k++)
        if (same_node(waiter.place, place))
            return waiter.seconds_left > PINGED_AT;
    return false;
}

/* Whether what waited for who registered is still for him: a client is pinged as such, and who registered anew later. */
static bool is_still_due(network *on, const ipxr_own *own)
{
    bool is_ping = is_broadcast(own->bytes + AT_TO_NODE);
    return roster_find(&on->roster, own->place) == NULL && !(is_ping && waits_for_answer(on, own->place));
}

/* The same datagram as the tunnel would say it now: an answer comes from the gateway's node, which may be another than before. */
static ipxr_own of_now(const network *on, const ipxr_own *own)
{
    ipxr_own now = *own;
    if (!is_broadcast(now.bytes + AT_TO_NODE))
        memcpy(now.bytes + AT_FROM_NODE, on->node, NODE);
    return now;
}

void waiting_take(network *on, network *old)
{
    const ipxr_own *next;
    while ((next = pings_first(&old->again)) != NULL) {
        ipxr_own now = of_now(on, next);
        address to = address_of(now.place);
        if (tunnel_lets_in(on->set, &to) && is_still_due(on, &now) && (!tunnel_strangers_are_by_line(on) || !line_is_narrower()))
            tunnel_send_again(on, &now);
        pings_end_first(&old->again);
    }
}

void waiting_send(network *on)
{
    const ipxr_own *next;
    while ((next = pings_first(&on->again)) != NULL && line_lets_more(sizeof next->bytes)) {
        if (is_still_due(on, next)) {
            line_send_more(sizeof next->bytes);
            tunnel_send_counted(on, next, false);
        }
        pings_end_first(&on->again);
    }
}

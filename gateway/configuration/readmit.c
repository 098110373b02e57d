#include "configuration/readmit.h"

#include <string.h>

#include "ipx.h"
#include "limits/line.h"
#include "tunnel/place.h"
#include "tunnel/tunnel.h"
#include "tunnel/waiting.h"

/* The socket of registrations, pings and their answers. */
#define TUNNEL_SOCKET 2

/* Seconds for which a registration is remembered; and how many are left when its answer goes out again. */
enum { REMEMBERED = 9, ANSWERED_AT = 8 };

void readmit(network *on, const ipxr_keyed_sender *sender, const uint8_t node[NODE], const uint8_t to_node[NODE])
{
    uint8_t packet[HEADER];
    ipxr_address from = {.socket = TUNNEL_SOCKET}, to = {.socket = TUNNEL_SOCKET};
    memcpy(from.node, node, NODE);
    memcpy(to.node, to_node, NODE);
    ipxr_write_packet(&from, &to, 0, 0, (const uint8_t *)"", 0, packet, HEADER);
    ipxr_keyed_hear(&on->tunnel, sender, packet, sizeof packet);
}

/* Lets a client into the new tunnel, if he may and can: he answers the ping that he would have been sent. (by the node that he has, also where
 * the network has no nodes by address any more: he was asked whether he hears) */
static bool is_let_in(const gateway *it, network *on, const known_client *client)
{
    size_t before = ipxr_keyed_clients(&on->tunnel);
    if (!tunnel_lets_in(on->set, &client->at))
        return false;
    ipxr_keyed_sender sender = tunnel_sender(it, on, &client->at);
    memcpy(sender.former, client->node, NODE);
    readmit(on, &sender, client->node, sender.current);
    return ipxr_keyed_clients(&on->tunnel) > before;
}

/* How many datagrams are to go to one who registered, and has so many seconds left. */
static uint32_t due(uint8_t left)
{
    return (left > ANSWERED_AT) + (left > PINGED_AT) + (left > 0);
}

/* Whether one who registered lately is remembered in the new tunnel. (what goes to him was counted when he registered, by a line that was no
 * narrower, if strangers had a limit then; else what is left of it counts now, unless he is a client) */
static bool stays_remembered(network *on, network *old, const address *from, const ipxr_keyed_member *waiter)
{
    bool was_by_line = old->again.room > 0 && !old->strangers.has_no_limit, is_client = roster_find(&old->roster, waiter->place) != NULL;
    bool is_counted = is_client || !tunnel_strangers_are_by_line(on) || (was_by_line && !line_is_narrower());
    return tunnel_lets_in(on->set, from) && (is_counted || tunnel_lets_newcomer(on, waiter->place, due(waiter->seconds_left)));
}

/* Those who registered lately, and have so many seconds left, register in the new tunnel. */
static void keep_waiters_with(const gateway *it, network *on, network *old, uint8_t left)
{
    static const uint8_t NOBODY[NODE] = {0};
    ipxr_keyed_member waiter;
    for (size_t k = 0; ipxr_keyed_waiter(&old->tunnel, k, &waiter) == 0; k++) {
        address from = address_of(waiter.place);
        ipxr_keyed_sender sender = tunnel_sender(it, on, &from);
        if (waiter.seconds_left == left && stays_remembered(on, old, &from, &waiter))
            readmit(on, &sender, NOBODY, NOBODY);
    }
}

/* They go on waiting: first comes who has the fewest seconds left, and then a second passes in the new tunnel, which has no client yet. (what it
 * would send them they were sent, or it waits for the line) */
static void keep_waiters(const gateway *it, network *on, network *old)
{
    for (uint8_t left = 0; left < REMEMBERED; left++) {
        keep_waiters_with(it, on, old, left);
        ipxr_keyed_second(&on->tunnel);
    }
    keep_waiters_with(it, on, old, REMEMBERED);
}

/* A client stays in the list of clients, with what was counted of it, and how long it has been silent. (where it is trusted now and wasn't,
 * or was and isn't, that means something else, and begins anew) */
static void keep_client(const gateway *it, network *on, network *old, const known_client *client)
{
    tunnel_list(on, client->place, client->node);
    member *kept = roster_find(&on->roster, client->place), *was = roster_find(&old->roster, client->place);
    if (kept == NULL || was == NULL)
        return;
    tunnel_note_registration(it, on, kept);
    kept->refused = client->refused;
    memcpy(kept->dropped, client->dropped, sizeof kept->dropped);
    kept->kept = it->seconds;
    kept->silent = kept->is_trusted == was->is_trusted ? roster_silence(was, it->seconds, client->heard) : 0;
}

/* Those who were clients stay as far as they may and can. */
static void keep_clients(const gateway *it, network *on, network *old)
{
    known_client client;
    for (size_t k = 0; tunnel_client(old, k, &client); k++)
        if (is_let_in(it, on, &client))
            keep_client(it, on, old, &client);
        else
            tunnel_tell_leaves(on, client.place, client.node);
}

/* The tunnel of a network as another one is to have it: its clients, their limits, and who isn't one. */
static void take_tunnel(network *on, const network *from)
{
    on->tunnel = from->tunnel;
    on->roster = from->roster;
    on->throttle = from->throttle;
    on->strangers = from->strangers;
    on->pings = from->pings;
    on->again = from->again;
}

void tunnel_again(const gateway *it, network *on, const network *made)
{
    network old = *on;
    take_tunnel(on, made);
    keep_waiters(it, on, &old);
    keep_clients(it, on, &old);
    waiting_take(on, &old);
    tunnel_close(&old);
}

void tunnel_end(network *on)
{
    known_client client;
    for (size_t k = 0; tunnel_client(on, k, &client); k++)
        tunnel_tell_leaves(on, client.place, client.node);
    tunnel_close(on);
}

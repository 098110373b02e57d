/* The library's tunnel puts out who is silent, and nobody else. So whoever is gone leaves by a new one, which hears of the others what they did
 * to be there, in their order: they are clients as before, and have answered just now. How long they were silent is kept beside it. */
#include "tunnel/leaving.h"

#include <string.h>

#include "configuration/readmit.h"
#include "ipx.h"
#include "tunnel/place.h"
#include "tunnel/tunnel.h"

/* Seconds for which a registration is remembered. */
enum { REMEMBERED = 9 };

/* Whether any client is gone. */
static bool is_any_gone(const network *on, bool is_there(const network *, const uint8_t *))
{
    size_t k = 0;
    while (k < on->roster.count && is_there(on, on->roster.list[k].place))
        k++;
    return k < on->roster.count;
}

/* From now on the tunnel says how long ago a client answered as if it had done so now. */
static void note_silence(const gateway *it, network *on)
{
    known_client client;
    for (size_t k = 0; tunnel_client(on, k, &client); k++) {
        member *known = roster_find(&on->roster, client.place);
        int silence = tunnel_silence(on, it->seconds, &client);
        if (known == NULL)
            continue;
        known->kept = it->seconds;
        known->silent = silence;
    }
}

/* Those who registered and have so many seconds left are remembered in the new tunnel, in which a second passes then. */
static void remember(const gateway *it, network *on, ipxr_keyed *was, uint8_t left)
{
    static const uint8_t NOBODY[NODE] = {0};
    ipxr_keyed_member waiter;
    for (size_t k = 0; ipxr_keyed_waiter(was, k, &waiter) == 0; k++) {
        address from = address_of(waiter.place);
        ipxr_keyed_sender sender = tunnel_sender(it, on, &from);
        if (waiter.seconds_left == left)
            readmit(on, &sender, NOBODY, NOBODY);
    }
    if (left < REMEMBERED)
        ipxr_keyed_second(&on->tunnel);
}

static void stay(const gateway *it, network *on, const ipxr_keyed_member *client)
{
    address from = address_of(client->place);
    ipxr_keyed_sender sender = tunnel_sender(it, on, &from);
    memcpy(sender.former, client->node, NODE);
    readmit(on, &sender, client->node, sender.current);
}

static void stay_or_leave(const gateway *it, network *on, ipxr_keyed *was, bool is_there(const network *, const uint8_t *))
{
    ipxr_keyed_member client;
    for (size_t k = 0; ipxr_keyed_client(was, k, &client) == 0; k++) {
        size_t before = ipxr_keyed_clients(&on->tunnel);
        if (is_there(on, client.place))
            stay(it, on, &client);
        if (ipxr_keyed_clients(&on->tunnel) == before)
            tunnel_tell_leaves(on, client.place, client.node);
    }
}

void tunnel_lets_leave(const gateway *it, network *on, bool is_there(const network *, const uint8_t place[NODE]))
{
    static const ipxr_keyed NONE = IPXR_KEYED_NONE;
    ipxr_keyed was = on->tunnel, made = NONE;
    if (!is_any_gone(on, is_there) || tunnel_make(on, &made) < 0)
        return;
    note_silence(it, on);
    on->tunnel = made;
    for (uint8_t left = 0; left <= REMEMBERED; left++)
        remember(it, on, &was, left);
    stay_or_leave(it, on, &was, is_there);
    ipxr_keyed_free(&was);
}

#include "tunnel/outgoing.h"

#include "gateway.h"
#include "tunnel/place.h"

/* The system refused what was for a place. */
static void refuse(network *on, const address *to)
{
    uint8_t place[NODE];
    place_of(to, place);
    member *client = roster_find(&on->roster, place);
    counts_lose(&on->counts, NOT_SENT);
    if (client != NULL)
        client->refused++;
}

/* ---- Copies ---- */

void outgoing_begin(network *on, const uint8_t *packet, size_t length)
{
    on->outgoing.packet = packet;
    on->outgoing.length = length;
    on->outgoing.begins = true;
}

void outgoing_copy(network *on, const uint8_t place[NODE])
{
    outgoing *it = &on->outgoing;
    const member *to = roster_find(&on->roster, place);
    if (it->count == MOST_TOGETHER)
        outgoing_send(on);
    it->list[it->count] = (departure){address_of(place), it->length, it->packet, to == NULL || roster_only_listens(to)};
    it->is_first[it->count++] = it->begins;
    it->begins = false;
}

/* What became of a copy. */
static void settle(network *on, size_t index, bool is_sent)
{
    outgoing *it = &on->outgoing;
    if (it->is_first[index])
        it->is_counted = false;
    if (is_sent) {
        on->counts.out += !it->is_counted;
        it->is_counted = true;
    } else {
        refuse(on, &it->list[index].to);
    }
}

/* Sends those from one on, up to the first that the system refuses. Returns how many it knows what became of. */
static size_t send_from(network *on, size_t from)
{
    outgoing *it = &on->outgoing;
    size_t sent = cable_send_all(on->cable, it->list + from, it->count - from);
    for (size_t k = 0; k < sent; k++)
        settle(on, from + k, true);
    if (sent == 0)
        settle(on, from, false);
    return sent > 0 ? sent : 1;
}

void outgoing_send(network *on)
{
    outgoing *it = &on->outgoing;
    for (size_t next = 0; next < it->count;)
        next += send_from(on, next);
    it->count = 0;
}

/* ---- The gateway's own datagrams ---- */

void outgoing_own(network *on, const uint8_t place[NODE], const uint8_t *bytes, size_t length, bool is_client)
{
    departure what = {.to = address_of(place), .length = length, .bytes = bytes};
    outgoing_send(on);
    if (is_client ? cable_send_all(on->cable, &what, 1) == 1 : cable_send_to(on->cable, &what))
        on->counts.out++;
    else
        refuse(on, &what.to);
}

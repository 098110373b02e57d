/* What is told of a tunnel's clients. */
#include <inttypes.h>
#include <stdio.h>
#include <string.h>

#include "configuration/words.h"
#include "ipx.h"
#include "monitoring/note.h"
#include "monitoring/output.h"
#include "tunnel/place.h"
#include "tunnel/tunnel.h"

/* Seconds with which a client is kept: from its answer on, and from each word of one that is trusted. */
enum { ANSWER_LASTS = 30, TRUST_LASTS = 180 };

bool tunnel_client(network *on, size_t index, known_client *client)
{
    ipxr_keyed_member listed;
    if (ipxr_keyed_client(&on->tunnel, index, &listed) != 0)
        return false;
    const member *known = roster_find(&on->roster, listed.place);
    memset(client, 0, sizeof *client);
    memcpy(client->place, listed.place, NODE);
    memcpy(client->node, listed.node, NODE);
    client->at = address_of(listed.place);
    client->is_trusted = ranges_have(&on->set->trusted, &client->at);
    client->heard = (client->is_trusted ? TRUST_LASTS : ANSWER_LASTS) - listed.seconds_left;
    if (known != NULL) {
        client->refused = known->refused;
        memcpy(client->dropped, known->dropped, sizeof client->dropped);
    }
    return true;
}

int tunnel_silence(network *on, uint64_t second, const known_client *client)
{
    const member *known = roster_find(&on->roster, client->place);
    return known != NULL ? roster_silence(known, second, client->heard) : client->heard;
}

/* What was dropped of a client, behind its line. */
static void show_dropped(const known_client *it)
{
    static const char *const OF[DROPS] = {[DROPPED_FOR_IT] = "for it", [DROPPED_OF_IT] = "copies of what it said",
        [DROPPED_PINGS] = "pings", [DROPPED_QUESTIONS] = "questions", [DROPPED_ADVERTISEMENTS] = "advertisements",
        [DROPPED_FOR_ROUTER] = "for the router", [DROPPED_ANSWERS] = "answers"};
    char words[240] = "";
    size_t length = 0;
    for (int k = 0; k < DROPS; k++)
        if (it->dropped[k] > 0)
            length += (size_t)snprintf(words + length, sizeof words - length, "%s %" PRIu64 " %s", length > 0 ? "," : "",
                                       it->dropped[k], OF[k]);
    if (length > 0)
        say("      dropped:%s", words);
}

static void show_client(const known_client *client, int silence)
{
    char node[WORDS], where[ADDRESS_ROOM], refused[40] = "";
    if (client->refused > 0)
        snprintf(refused, sizeof refused, ", %" PRIu64 " not sent", client->refused);
    say("    %s at %s, %s %d s ago%s", node_words(client->node, node), address_words(&client->at, where),
        client->is_trusted ? "trusted, heard" : "answered", silence, refused);
    show_dropped(client);
}

void tunnel_show(network *on, uint64_t second)
{
    known_client client;
    say("  clients: %zu of %u", ipxr_keyed_clients(&on->tunnel), on->set->clients);
    for (size_t k = 0; tunnel_client(on, k, &client); k++)
        show_client(&client, tunnel_silence(on, second, &client));
}

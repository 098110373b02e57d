#include "links/node.h"

#include <inttypes.h>
#include <string.h>

#include "ipx.h"
#include "ipxr_cable.h"
#include "siphash.h"
#include "systems/machine.h"

/* (not secret: it makes the hash the gateway's own, so that what is made of the machine's number elsewhere is another one) */
static const uint8_t KEY[SIPHASH_KEY] = "a made-up node.";

enum { MACHINE_ROOM = 128 };

/* The machine, as it was known when it was asked for first: where it can't be read later, nodes stay as they are. */
static const char *machine(void)
{
    static char words[MACHINE_ROOM];
    static bool was_asked;
    if (!was_asked)
        machine_words(words, sizeof words);
    was_asked = true;
    return words;
}

static uint64_t hash_of(const network_setting *set)
{
    char link[LINK_ROOM], words[MACHINE_ROOM + LINK_ROOM + 16];
    int length = snprintf(words, sizeof words, "%s %08" PRIX32 " %s", machine(), set->network,
                          set->is_of_several ? "" : link_words(set, link));
    return siphash(KEY, (const uint8_t *)words, (size_t)length);
}

void node_of_address(const uint8_t host[4], uint8_t node[6])
{
    enum { HOST = 4 };
    memset(node, 0, NODE - HOST);
    memcpy(node + NODE - HOST, host, HOST);
}

void node_choose(const network_setting *set, const uint8_t card[6], uint8_t node[6])
{
    if (set->type == LINK_RFC1234) {
        node_of_address(set->local.host, node);
        return;
    }
    ipxr_node_choose(has_tunnel(set), set->is_of_several, set->has_node, set->node, card, hash_of(set), node);
}

size_t internal_port_add(const internal_setting *internal, ipxr_port ports[IPXR_MOST_PORTS], size_t count)
{
    if (internal == NULL)
        return count;
    ports[count] = (ipxr_port){.network = internal->network, .cost = 1, .longest = LONGEST}; /* (nobody there says anything that is learned) */
    memcpy(ports[count].node, internal->node, NODE);
    return count + 1;
}

ipxr_port node_port(const network_setting *first, const uint8_t card[6])
{
    ipxr_port port = {.network = first->network, .cost = first->cost, .longest = first->longest, .routes = first->routes,
                      .services = first->services};
    node_choose(first, card, port.node);
    return port;
}

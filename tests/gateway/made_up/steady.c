#include "steady.h"

#include <string.h>

#include "chance.h"
#include "clocks.h"
#include "descriptors.h"
#include "ipx.h"
#include "play.h"
#include "world.h"

enum { MOST_PLAYERS = 8, HUNDREDTH = SECOND_NS / 100, USUAL = 35, FASTEST = 600, GAME = 0x4003, DATA = 40 };

static struct {
    int fd;
    size_t count;
    uint8_t places[MOST_PLAYERS][NODE], nodes[MOST_PLAYERS][NODE];
    unsigned rates[MOST_PLAYERS]; /* packets a second */
    unsigned owed[MOST_PLAYERS];  /* hundredths of a packet */
    bool is_to_all;
    size_t length;
} steady;

bool steady_begins(void)
{
    ipxr_keyed_member client;
    int fd = descriptor_any(DATAGRAMS);
    network *on = fd >= 0 ? network_at(fd) : NULL;
    if (on == NULL || on->set->type != LINK_DOSBOX || ipxr_keyed_clients(&on->tunnel) == 0)
        return false;
    steady.fd = fd;
    steady.is_to_all = !one_in(4);
    steady.length = one_in(3) ? between(0, 1300) : DATA;
    steady.count = 0;
    while (steady.count < MOST_PLAYERS && ipxr_keyed_client(&on->tunnel, steady.count, &client) == 0) {
        memcpy(steady.places[steady.count], client.place, NODE);
        memcpy(steady.nodes[steady.count], client.node, NODE);
        steady.rates[steady.count++] = one_in(6) ? between(USUAL, FASTEST) : USUAL;
    }
    told("%zu players play on %d", steady.count, fd);
    return true;
}

/* A player says something to all of his network, or to another. */
static void say(network *on, size_t player)
{
    made_packet made = {.length = 0};
    uint8_t data[MOST_MADE] = {0};
    const uint8_t *to_node = steady.nodes[below((uint32_t)steady.count)], *own = steady.places[player];
    ipxr_address from = {.network = on->set->network, .socket = GAME}, to = from;
    address at = {.port = get16(own + 4)};
    memcpy(at.host, own, sizeof at.host);
    memcpy(from.node, steady.nodes[player], NODE);
    memcpy(to.node, to_node, NODE);
    if (steady.is_to_all)
        memset(to.node, IPXR_BROADCAST_BYTE, NODE);
    int32_t length = ipxr_write_packet(&from, &to, 4, 0, data, steady.length, made.bytes, sizeof made.bytes);
    if (length > 0)
        comes(descriptor_at(steady.fd, DATAGRAMS), &at, made.bytes, (size_t)length);
}

void steady_passes(void)
{
    const descriptor *it = descriptor_if_open(steady.fd);
    network *on = it != NULL && it->is == DATAGRAMS ? network_at(steady.fd) : NULL;
    clock_passes(HUNDREDTH);
    if (on == NULL || on->set->type != LINK_DOSBOX)
        return; /* (another configuration) */
    for (size_t k = 0; k < steady.count; k++)
        for (steady.owed[k] += steady.rates[k]; steady.owed[k] >= 100; steady.owed[k] -= 100)
            say(on, k);
}

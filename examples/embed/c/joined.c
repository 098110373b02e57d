/* A tunnel of DOSBox clients and a card joined into one network, without their sockets: how the segment learns who came and who left, and
 * that it never gets a stranger's packet. What goes where is printed, except for the tunnel's own datagrams: keyed.c shows these. */
#include <stdbool.h>
#include <stdio.h>
#include <string.h>

#include "ipxr_keyed.h"
#include "ipxr_segment.h"
#include "packets.h"

enum { CARD, TUNNEL, LINKS, NETWORK = 0x10, TUNNEL_SOCKET = 2, GAME_SOCKET = 0x4545 };

static const uint8_t NOBODY[6] = {0}, OLD_PC[6] = {2, 0, 0, 0, 0, 0xAA};

/* Places, and Anna's node. (Nodes and cookies that anybody could guess, as in keyed.c.) */
static const uint8_t ANNA[6] = {10, 0, 0, 1, 0x08, 0x52}, STRANGER[6] = {192, 0, 2, 7, 0x03, 0xE8};
static const uint8_t ANNAS_NODE[6] = {2, 0, 0, 1, 0x08, 0x52};

struct network {
    ipxr_keyed tunnel;
    ipxr_segment segment;
};

/* Whether a client is at a place and has a node. (what its place says under another node is a stranger's) */
static bool is_client(ipxr_keyed *tunnel, const uint8_t *place, const uint8_t *node)
{
    ipxr_keyed_member client;
    for (size_t k = 0; ipxr_keyed_client(tunnel, k, &client) == 0; k++)
        if (memcmp(client.place, place, sizeof client.place) == 0 && memcmp(client.node, node, sizeof client.node) == 0)
            return true;
    return false;
}

/* The links that get a packet. The link of the tunnel gets it as a packet of the router's: ipxr_keyed_send says which clients. */
static void put_on_links(struct network *on, const uint8_t *to)
{
    uint8_t link;
    for (size_t k = 0; ipxr_segment_receiver(&on->segment, k, &link) == 0; k++) {
        if (link == CARD) {
            printf("  to the card\n");
            continue;
        }
        ipxr_keyed_send(&on->tunnel, to);
        printf("  to %zu in the tunnel\n", ipxr_keyed_receivers(&on->tunnel));
    }
}

/* A client spoke: the tunnel has said who of its clients gets it, and whether the router hears it. */
static void carry_over(struct network *on, const uint8_t *node, const ipxr_address *destination)
{
    uint8_t to[6];
    printf("  to %zu others in the tunnel\n", ipxr_keyed_receivers(&on->tunnel));
    bool is_heard = ipxr_keyed_is_heard(&on->tunnel) == 1;
    ipxr_segment_next_node(&on->segment, destination, to);
    ipxr_segment_hear(&on->segment, TUNNEL, node, to);
    put_on_links(on, to);
    if (is_heard)
        printf("  to the router\n");
}

static ipxr_keyed_sender sender_at(const uint8_t *place)
{
    ipxr_keyed_sender sender = {.node = {2}, .current = {6}, .previous = {6}, .may_register = true};
    memcpy(sender.place, place, sizeof sender.place);
    memcpy(sender.node + 1, place + 1, sizeof sender.node - 1);
    memcpy(sender.former, place, sizeof sender.former);
    return sender;
}

/* A datagram comes from a place: a packet from a node to a node and a socket. Whoever came by it is the last client. */
static void hear_datagram(struct network *on, const char *what, const uint8_t *place, ipxr_address source, ipxr_address destination)
{
    const uint8_t data[4] = {0};
    uint8_t bytes[HEADER + sizeof data];
    ipxr_keyed_sender sender = sender_at(place);
    ipxr_keyed_member client;
    int32_t length = ipxr_write_packet(&source, &destination, 4, 0, data, sizeof data, bytes, sizeof bytes);
    printf("%s\n", what);
    size_t before = ipxr_keyed_clients(&on->tunnel);
    int32_t said = ipxr_keyed_hear(&on->tunnel, &sender, bytes, (size_t)length);
    if (ipxr_keyed_client(&on->tunnel, before, &client) == 0) {
        ipxr_segment_come(&on->segment, TUNNEL, client.node);
        printf("  came to the tunnel\n");
    }
    if (said == IPXR_SPEAKS && is_client(&on->tunnel, place, source.node))
        carry_over(on, source.node, &destination);
}

/* A frame comes to the card, from a node to a node. */
static void hear_frame(struct network *on, const char *what, const uint8_t *from, const uint8_t *to)
{
    printf("%s\n", what);
    int32_t heard = ipxr_segment_hear(&on->segment, CARD, from, to);
    put_on_links(on, to);
    if (heard == 1)
        printf("  to the router\n");
}

static void pass(struct network *on, int seconds)
{
    ipxr_keyed_member client;
    printf("%d seconds pass\n", seconds);
    for (; seconds > 0; seconds--) {
        ipxr_segment_second(&on->segment);
        ipxr_keyed_second(&on->tunnel);
        for (size_t k = 0; ipxr_keyed_leaver(&on->tunnel, k, &client) == 0; k++) {
            ipxr_segment_leave(&on->segment, TUNNEL, client.node);
            printf("  one left the tunnel\n");
        }
    }
}

static ipxr_address address(const uint8_t *node, uint16_t socket)
{
    ipxr_address it = {.network = NETWORK, .socket = socket};
    memcpy(it.node, node, sizeof it.node);
    return it;
}

static void play(struct network *on)
{
    const ipxr_address nobody = address(NOBODY, TUNNEL_SOCKET), anna = address(ANNAS_NODE, GAME_SOCKET);
    const ipxr_address all = address(EVERYONE, GAME_SOCKET), old_pc = address(OLD_PC, GAME_SOCKET);
    hear_datagram(on, "Anna's DOSBox registers", ANNA, nobody, nobody);
    hear_frame(on, "the old PC calls all, and she doesn't hear it yet", OLD_PC, EVERYONE);
    hear_datagram(on, "Anna calls all, and is a client by that", ANNA, anna, all);
    hear_frame(on, "the old PC writes to Anna", OLD_PC, ANNAS_NODE);
    hear_datagram(on, "Anna writes to the old PC", ANNA, anna, old_pc);
    hear_datagram(on, "Anna's place speaks under its former node", ANNA, address(ANNA, GAME_SOCKET), all);
    hear_datagram(on, "a stranger calls all", STRANGER, address(STRANGER, GAME_SOCKET), all);
    hear_datagram(on, "a stranger writes to the old PC in her name", STRANGER, anna, old_pc);
    hear_frame(on, "somebody at the card writes in Anna's name", ANNAS_NODE, EVERYONE);
    pass(on, 30);
    printf("stations: %zu\n", ipxr_segment_stations(&on->segment));
}

int main(void)
{
    const ipxr_keyed_setting clients = {NETWORK, {0, 0, 0, 0, 0, 1}, 64, 16, 1024, 64};
    const ipxr_segment_setting stations = {NETWORK, {0, 0, 0, 0, 0, 1}, LINKS, 1024};
    const ipxr_link wire = {IPXR_LINK_CABLE, 512}, tunnel = {IPXR_LINK_SURE, 64};
    struct network on = {IPXR_KEYED_NONE, IPXR_SEGMENT_NONE};
    bool made = ipxr_keyed_make(&on.tunnel, &clients) == 0 && ipxr_segment_make(&on.segment, &stations) == 0;
    if (made) {
        ipxr_segment_change(&on.segment, CARD, &wire);
        ipxr_segment_change(&on.segment, TUNNEL, &tunnel);
        play(&on);
    }
    ipxr_segment_free(&on.segment);
    ipxr_keyed_free(&on.tunnel);
    return !made;
}

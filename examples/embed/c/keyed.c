/* A server of DOSBox' IPX tunnel that hands out nodes, without its socket: a player registers, her first word is carried, another only
 * listens, and one who names her node from elsewhere isn't heard. What is to be sent is printed. */
#include <stdio.h>
#include <string.h>

#include "ipxr_keyed.h"
#include "packets.h"

enum { NETWORK = 0x10, TUNNEL_SOCKET = 2, GAME_SOCKET = 0x4545 };

static const uint8_t NOBODY[6] = {0};

/* Places: an address and a port. */
static const uint8_t ANNA[6] = {10, 0, 0, 1, 0x08, 0x52}, BEN[6] = {10, 0, 0, 2, 0x08, 0x52}, STRANGER[6] = {192, 0, 2, 7, 0x03, 0xE8};

/* The node of a place, and its cookie, by their first bytes. Anybody could guess these: yours are keyed hashes of the place, and the
 * cookie's of the minute, too. */
enum { NODE = 2, COOKIE = 6 };

static void put_hash(uint8_t *hash, uint8_t first, const uint8_t *place)
{
    hash[0] = first;
    for (size_t k = 1; k < 6; k++)
        hash[k] = place[k] ^ 0x5A;
}

static void print_place(const uint8_t *place)
{
    printf("%u.%u.%u.%u", place[0], place[1], place[2], place[3]);
}

static void print_node(const uint8_t *node)
{
    for (size_t k = 0; k < 6; k++)
        printf("%02X", node[k]);
}

/* What is to be sent after an event: the tunnel's own datagrams first, then the packet. */
static void send_all(ipxr_keyed *tunnel)
{
    ipxr_own own;
    uint8_t place[6];
    for (size_t k = 0; ipxr_keyed_own(tunnel, k, &own) == 0; k++) {
        printf("  to ");
        print_place(own.place);
        if (memcmp(own.bytes + 10, EVERYONE, 6) == 0) {
            printf(": a ping\n");
        } else {
            printf(": its node is ");
            print_node(own.bytes + 10);
            printf("\n");
        }
    }
    for (size_t k = 0; ipxr_keyed_receiver(tunnel, k, place) == 0; k++) {
        printf("  to ");
        print_place(place);
        printf(": the packet\n");
    }
}

/* A datagram comes from a place: a packet of some node's, to another node and a socket. */
static void hear(ipxr_keyed *tunnel, const uint8_t *place, const uint8_t *from, const uint8_t *to, uint16_t socket)
{
    static const char *const SAID[] = {"nothing", "it registers", "it answers", "it speaks"};
    const struct address destination = {NETWORK, to, socket}, source = {NETWORK, from, socket};
    uint8_t bytes[HEADER + 4] = {0};
    ipxr_keyed_sender sender = {.may_register = 1};
    put_header(bytes, sizeof bytes, 0, destination, source);
    memcpy(sender.place, place, sizeof sender.place);
    put_hash(sender.node, NODE, place);
    put_hash(sender.former, NODE, place);
    put_hash(sender.current, COOKIE, place);
    put_hash(sender.previous, COOKIE, place);
    int32_t said = ipxr_keyed_hear(tunnel, &sender, bytes, sizeof bytes);
    if (said < 0)
        return;
    printf("from ");
    print_place(place);
    printf(": %s\n", SAID[said]);
    send_all(tunnel);
}

static void pass(ipxr_keyed *tunnel, int seconds)
{
    printf("%d second%s\n", seconds, seconds > 1 ? "s pass" : " passes");
    for (; seconds > 0; seconds--) {
        ipxr_keyed_second(tunnel);
        send_all(tunnel);
    }
}

static void show_clients(ipxr_keyed *tunnel)
{
    ipxr_keyed_member client;
    printf("clients: %zu\n", ipxr_keyed_clients(tunnel));
    for (size_t k = 0; ipxr_keyed_client(tunnel, k, &client) == 0; k++) {
        printf("  ");
        print_node(client.node);
        printf(" at ");
        print_place(client.place);
        printf(" stays for %u seconds\n", client.seconds_left);
    }
}

int main(void)
{
    const ipxr_keyed_setting setting = {NETWORK, {0, 0, 0, 0, 0, 1}, 64, 16, 1024, 64};
    uint8_t anna[6], ben[6], cookie[6];
    ipxr_keyed tunnel = IPXR_KEYED_NONE;
    if (ipxr_keyed_make(&tunnel, &setting) < 0)
        return 1;
    put_hash(anna, NODE, ANNA);
    put_hash(ben, NODE, BEN);
    put_hash(cookie, COOKIE, BEN);
    hear(&tunnel, ANNA, NOBODY, NOBODY, TUNNEL_SOCKET);
    hear(&tunnel, BEN, NOBODY, NOBODY, TUNNEL_SOCKET);
    hear(&tunnel, ANNA, anna, EVERYONE, GAME_SOCKET);
    pass(&tunnel, 1);
    pass(&tunnel, 6);
    hear(&tunnel, BEN, ben, cookie, TUNNEL_SOCKET);
    hear(&tunnel, ANNA, anna, EVERYONE, GAME_SOCKET);
    hear(&tunnel, STRANGER, anna, EVERYONE, GAME_SOCKET);
    show_clients(&tunnel);
    ipxr_keyed_free(&tunnel);
    return 0;
}

/* A server of DOSBox' IPX tunnel, without its socket: two players come, a stranger only says that he is there, a broadcast goes round, and
 * seconds pass. What is to be sent is printed. */
#include <stdio.h>
#include <string.h>

#include "ipxr_tunnel.h"
#include "packets.h"

enum { NETWORK = 0x10, TUNNEL_SOCKET = 2, GAME_SOCKET = 0x4545 };

static const uint8_t NOBODY[6] = {0};

/* Places: an address and a port. A player's place is his node too. */
static const uint8_t ANNA[6] = {10, 0, 0, 1, 0x08, 0x52}, BEN[6] = {10, 0, 0, 2, 0x08, 0x52}, STRANGER[6] = {192, 0, 2, 7, 0x03, 0xE8};

/* The cookie of a place. Anybody could guess this one: yours is a keyed hash of the place and the minute. */
static void put_cookie(uint8_t *cookie, const uint8_t *place)
{
    cookie[0] = 2;
    for (size_t k = 1; k < 6; k++)
        cookie[k] = place[k] ^ 0x5A;
}

static void print_place(const char *before, const uint8_t *place)
{
    printf("%s%u.%u.%u.%u:%u", before, place[0], place[1], place[2], place[3], (unsigned)number_at(place + 4, 2));
}

/* What is to be sent after an event: the tunnel's own datagrams first, then the packet. */
static void send_all(ipxr_tunnel *tunnel, size_t length)
{
    ipxr_own own;
    uint8_t place[6];
    for (size_t k = 0; ipxr_tunnel_own(tunnel, k, &own) == 0; k++) {
        print_place("  to ", own.place);
        printf(": %s of %zu bytes\n", memcmp(own.bytes + 10, EVERYONE, 6) == 0 ? "a ping" : "an answer", sizeof own.bytes);
    }
    for (size_t k = 0; ipxr_tunnel_receiver(tunnel, k, place) == 0; k++) {
        print_place("  to ", place);
        printf(": the packet of %zu bytes\n", length);
    }
    if (ipxr_tunnel_is_heard(tunnel))
        printf("  to the router: the packet of %zu bytes\n", length);
    for (size_t k = 0; ipxr_tunnel_leaver(tunnel, k, place) == 0; k++) {
        print_place("  ", place);
        printf(" has left\n");
    }
}

/* A datagram comes from a place: a packet to that node and socket. */
static void hear(ipxr_tunnel *tunnel, const uint8_t *place, const uint8_t *to, uint16_t socket)
{
    static const char *const SAID[] = {"nothing", "it registers", "it answers", "it speaks"};
    const struct address destination = {NETWORK, to, socket}, source = {NETWORK, place, socket};
    uint8_t bytes[HEADER + 4] = {0};
    ipxr_sender sender;
    put_header(bytes, sizeof bytes, 0, destination, source);
    memcpy(sender.place, place, sizeof sender.place);
    put_cookie(sender.current, place);
    put_cookie(sender.previous, place);
    sender.is_trusted = false;
    int32_t said = ipxr_tunnel_hear(tunnel, &sender, bytes, sizeof bytes);
    if (said < 0)
        return;
    print_place("from ", place);
    printf(": %s\n", SAID[said]);
    send_all(tunnel, ipxr_tunnel_carried(tunnel));
}

/* A player's DOSBox registers, and answers the ping. */
static void come(ipxr_tunnel *tunnel, const uint8_t *place)
{
    uint8_t cookie[6];
    put_cookie(cookie, place);
    hear(tunnel, place, NOBODY, TUNNEL_SOCKET);
    hear(tunnel, place, cookie, TUNNEL_SOCKET);
}

static void pass(ipxr_tunnel *tunnel, int seconds)
{
    printf("%d seconds pass\n", seconds);
    for (; seconds > 0; seconds--) {
        ipxr_tunnel_second(tunnel);
        send_all(tunnel, 0);
    }
}

static void show_clients(ipxr_tunnel *tunnel)
{
    ipxr_client client;
    printf("clients: %zu\n", ipxr_tunnel_clients(tunnel));
    for (size_t k = 0; ipxr_tunnel_client(tunnel, k, &client) == 0; k++) {
        print_place("  ", client.place);
        printf(" stays for %u seconds\n", client.seconds_left);
    }
}

int main(void)
{
    const ipxr_tunnel_setting setting = {NETWORK, {0, 0, 0, 0, 0, 1}, 64, 16};
    uint8_t cookie[6];
    ipxr_tunnel tunnel = IPXR_TUNNEL_NONE;
    if (ipxr_tunnel_make(&tunnel, &setting) < 0)
        return 1;
    come(&tunnel, ANNA);
    come(&tunnel, BEN);
    hear(&tunnel, STRANGER, EVERYONE, GAME_SOCKET);
    hear(&tunnel, ANNA, EVERYONE, GAME_SOCKET);
    hear(&tunnel, BEN, ANNA, GAME_SOCKET);
    printf("the router sends to all\n");
    ipxr_tunnel_send(&tunnel, EVERYONE);
    send_all(&tunnel, 40);
    pass(&tunnel, 5);
    put_cookie(cookie, ANNA);
    hear(&tunnel, ANNA, cookie, TUNNEL_SOCKET);
    show_clients(&tunnel);
    pass(&tunnel, 25);
    show_clients(&tunnel);
    ipxr_tunnel_free(&tunnel);
    return 0;
}

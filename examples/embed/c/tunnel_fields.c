/* Gives each field of the structs of ipxr_tunnel.h, and each argument, a value of its own, and reads it back. Where fields or arguments
 * stand in another order than in the header, another value comes back. */
#include <stdio.h>
#include <string.h>

#include "ipxr_tunnel.h"
#include "packets.h"

enum { TUNNEL_SOCKET = 2, GAME_SOCKET = 0x4142, FAR = 0x31323334 };

static const ipxr_tunnel_setting SETTING = {
    .network = 0x11121314, .node = {0x21, 0x22, 0x23, 0x24, 0x25, 0x26}, .capacity = 5, .share = 3};

static const ipxr_sender SENDER = {.place = {0x51, 0x52, 0x53, 0x54, 0x55, 0x56},
                                   .current = {0x61, 0x62, 0x63, 0x64, 0x65, 0x66},
                                   .previous = {0x71, 0x72, 0x73, 0x74, 0x75, 0x76},
                                   .is_trusted = false};

static const uint8_t NOBODY[6] = {0};

static void print_hex(const uint8_t *bytes, size_t length)
{
    for (size_t k = 0; k < length; k++)
        printf("%02X", bytes[k]);
}

static void tell(const char *event, int32_t answer)
{
    char word[IPXR_MOST_WORD] = "";
    if (answer < 0)
        ipxr_text(answer, word, sizeof word);
    printf("%s: %d%s%s\n", event, (int)answer, answer < 0 ? " " : "", word);
}

/* A datagram from a sender to that node and socket; some bytes stand behind its packet. */
static int32_t hear(ipxr_tunnel *tunnel, const ipxr_sender *sender, const uint8_t *to, uint16_t socket)
{
    const struct address destination = {SETTING.network, to, socket}, source = {SETTING.network, sender->place, socket};
    uint8_t bytes[HEADER + 9] = {0};
    put_header(bytes, HEADER + 2, 0, destination, source);
    return ipxr_tunnel_hear(tunnel, sender, bytes, sizeof bytes);
}

static void show_owns(ipxr_tunnel *tunnel)
{
    ipxr_own own;
    for (size_t k = 0; ipxr_tunnel_own(tunnel, k, &own) == 0; k++) {
        printf("own %zu of %zu: place ", k, ipxr_tunnel_owns(tunnel));
        print_hex(own.place, sizeof own.place);
        printf(", bytes ");
        print_hex(own.bytes, sizeof own.bytes);
        printf("\n");
    }
}

static void show_packet(ipxr_tunnel *tunnel)
{
    uint8_t place[6];
    printf("carried %zu, heard %d\n", ipxr_tunnel_carried(tunnel), ipxr_tunnel_is_heard(tunnel));
    for (size_t k = 0; ipxr_tunnel_receiver(tunnel, k, place) == 0; k++) {
        printf("receiver %zu of %zu: ", k, ipxr_tunnel_receivers(tunnel));
        print_hex(place, sizeof place);
        printf("\n");
    }
    for (size_t k = 0; ipxr_tunnel_leaver(tunnel, k, place) == 0; k++) {
        printf("leaver %zu of %zu: ", k, ipxr_tunnel_leavers(tunnel));
        print_hex(place, sizeof place);
        printf("\n");
    }
}

static void show_clients(ipxr_tunnel *tunnel)
{
    ipxr_client client;
    for (size_t k = 0; ipxr_tunnel_client(tunnel, k, &client) == 0; k++) {
        printf("client %zu of %zu: place ", k, ipxr_tunnel_clients(tunnel));
        print_hex(client.place, sizeof client.place);
        printf(", seconds left %u\n", client.seconds_left);
    }
}

/* Trusted players register, first of one address, then of others, until there is room for none. */
static void fill(ipxr_tunnel *tunnel)
{
    ipxr_sender sender = SENDER;
    sender.is_trusted = true;
    for (uint8_t k = 1; k <= 10; k++) {
        if (k <= 5)
            sender.place[5] = k;
        else
            sender.place[3] = k;
        size_t before = ipxr_tunnel_clients(tunnel);
        hear(tunnel, &sender, NOBODY, TUNNEL_SOCKET);
        size_t now = ipxr_tunnel_clients(tunnel);
        printf("registration %u: %s, clients: %zu\n", k, now > before ? "taken" : "refused", now);
    }
}

/* One of two sockets is asked for, and then neither. */
static void copy(void)
{
    const uint16_t sockets[2] = {GAME_SOCKET + 1, GAME_SOCKET}, others[1] = {GAME_SOCKET + 2};
    const struct address to = {SETTING.network, EVERYONE, GAME_SOCKET}, from = {SETTING.network, SENDER.place, GAME_SOCKET};
    uint8_t bytes[HEADER];
    put_header(bytes, sizeof bytes, 0, to, from);
    printf("copied by another socket: %d\n", ipxr_tunnel_extend(SETTING.network, others, 1, FAR, bytes, sizeof bytes));
    printf("copied but for its last byte: %d\n", ipxr_tunnel_extend(SETTING.network, sockets, 2, FAR, bytes, sizeof bytes - 1));
    printf("copied by the first of two sockets: %d\n", ipxr_tunnel_extend(SETTING.network, sockets, 1, FAR, bytes, sizeof bytes));
    printf("copied on another network: %d\n", ipxr_tunnel_extend(FAR, sockets, 2, SETTING.network, bytes, sizeof bytes));
    printf("copied by both: %d, for network ", ipxr_tunnel_extend(SETTING.network, sockets, 2, FAR, bytes, sizeof bytes));
    print_hex(bytes + 6, 4);
    printf("\n");
}

static void show_faults(ipxr_tunnel *tunnel)
{
    const ipxr_tunnel_setting large = {1, {0}, IPXR_MOST_CLIENTS + 1, 1};
    ipxr_own own;
    ipxr_client client;
    uint8_t place[6];
    tell("made with a client too many", ipxr_tunnel_make(tunnel, &large));
    tell("heard without a tunnel", hear(tunnel, &SENDER, NOBODY, TUNNEL_SOCKET));
    tell("a second without a tunnel", ipxr_tunnel_second(tunnel));
    tell("sent without a tunnel", ipxr_tunnel_send(tunnel, EVERYONE));
    tell("an own datagram without a tunnel", ipxr_tunnel_own(tunnel, 0, &own));
    tell("a receiver without a tunnel", ipxr_tunnel_receiver(tunnel, 0, place));
    tell("a leaver without a tunnel", ipxr_tunnel_leaver(tunnel, 0, place));
    tell("a client without a tunnel", ipxr_tunnel_client(tunnel, 0, &client));
}

int main(void)
{
    const ipxr_sender other = {{0x81, 0x82, 0x83, 0x84, 0x85, 0x86}, {0x91}, {0xA1}, true};
    ipxr_tunnel tunnel = {0};
    ipxr_own own;
    if (ipxr_tunnel_make(&tunnel, &SETTING) < 0)
        return 1;
    tell("registers", hear(&tunnel, &SENDER, NOBODY, TUNNEL_SOCKET));
    show_owns(&tunnel);
    tell("answers an older ping", hear(&tunnel, &SENDER, SENDER.previous, TUNNEL_SOCKET));
    tell("one that is trusted registers", hear(&tunnel, &other, NOBODY, TUNNEL_SOCKET));
    tell("the record behind the last", ipxr_tunnel_own(&tunnel, ipxr_tunnel_owns(&tunnel), &own));
    show_clients(&tunnel);
    tell("it speaks to all", hear(&tunnel, &other, EVERYONE, GAME_SOCKET));
    show_packet(&tunnel);
    tell("the router sends to the other", ipxr_tunnel_send(&tunnel, other.place));
    show_packet(&tunnel);
    for (int seconds = 0; seconds < 30; seconds++)
        ipxr_tunnel_second(&tunnel);
    show_packet(&tunnel);
    show_clients(&tunnel);
    show_owns(&tunnel);
    fill(&tunnel);
    copy();
    ipxr_tunnel_free(&tunnel);
    ipxr_tunnel_free(&tunnel);
    show_faults(&tunnel);
    return 0;
}

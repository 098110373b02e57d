/* An allocator of the embedder's own in the place of include/heap.c: a tunnel takes one block, events take none, and where that block is
 * refused the handle is as it was. */
#include <stdbool.h>
#include <stdio.h>
#include <string.h>

#include "counted.h"
#include "ipxr_tunnel.h"
#include "packets.h"

enum { TUNNEL_SOCKET = 2, GAME_SOCKET = 0x4545 };

static const uint8_t NOBODY[6] = {0};

static int32_t make(ipxr_tunnel *tunnel, bool is_refused_now)
{
    const ipxr_tunnel_setting setting = {0x10, {0, 0, 0, 0, 0, 1}, IPXR_MOST_CLIENTS, IPXR_MOST_CLIENTS};
    until_refused = is_refused_now;
    return ipxr_tunnel_make(tunnel, &setting);
}

static void hear(ipxr_tunnel *tunnel, const ipxr_sender *sender, const uint8_t *to, uint16_t socket)
{
    const struct address destination = {0x10, to, socket}, source = {0x10, sender->place, socket};
    uint8_t bytes[HEADER];
    put_header(bytes, sizeof bytes, 0, destination, source);
    ipxr_tunnel_hear(tunnel, sender, bytes, sizeof bytes);
}

/* As many clients come as there is room for, and one more; one of them speaks to all, and the router does. */
static void fill(ipxr_tunnel *tunnel)
{
    ipxr_sender sender;
    memset(&sender, 0, sizeof sender);
    sender.is_trusted = true;
    for (uint32_t k = 0; k <= IPXR_MOST_CLIENTS; k++) {
        put_number(sender.place, 4, k + 1);
        hear(tunnel, &sender, NOBODY, TUNNEL_SOCKET);
    }
    put_number(sender.place, 4, 1);
    hear(tunnel, &sender, EVERYONE, GAME_SOCKET);
    printf("clients: %zu, receivers: %zu\n", ipxr_tunnel_clients(tunnel), ipxr_tunnel_receivers(tunnel));
    ipxr_tunnel_send(tunnel, EVERYONE);
    printf("receivers of what the router sends: %zu\n", ipxr_tunnel_receivers(tunnel));
}

/* Until all have left; says how many pings went out in the fifth second, and how many left in the last. */
static void pass(ipxr_tunnel *tunnel)
{
    for (int second = 1; ipxr_tunnel_clients(tunnel) > 0; second++) {
        ipxr_tunnel_second(tunnel);
        if (second == 5)
            printf("pings: %zu\n", ipxr_tunnel_owns(tunnel));
    }
    printf("left: %zu\n", ipxr_tunnel_leavers(tunnel));
}

int main(void)
{
    ipxr_tunnel tunnel = IPXR_TUNNEL_NONE;
    int32_t answer = make(&tunnel, true);
    printf("refused: %d, then a second: %d\n", (int)answer, (int)ipxr_tunnel_second(&tunnel));
    answer = make(&tunnel, false);
    printf("made: %d, blocks in use: %ld\n", (int)answer, in_use);
    long before = requests;
    fill(&tunnel);
    printf("requests of the events: %ld\n", requests - before);
    answer = make(&tunnel, true);
    printf("refused in its place: %d, and the clients are there: %zu\n", (int)answer, ipxr_tunnel_clients(&tunnel));
    before = requests;
    pass(&tunnel);
    printf("requests of the seconds: %ld\n", requests - before);
    answer = make(&tunnel, false);
    printf("made in its place: %d, blocks in use: %ld\n", (int)answer, in_use);
    ipxr_tunnel_free(&tunnel);
    printf("blocks that weren't freed: %ld\n", in_use);
    return 0;
}

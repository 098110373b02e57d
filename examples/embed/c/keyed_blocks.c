/* An allocator of the embedder's own in the place of include/heap.c: a tunnel that hands out nodes takes one block, events take none, and
 * where that block is refused the handle is as it was. */
#include <stdbool.h>
#include <stdio.h>
#include <string.h>

#include "counted.h"
#include "ipxr_keyed.h"
#include "packets.h"

enum { TUNNEL_SOCKET = 2, GAME_SOCKET = 0x4545 };

static const uint8_t NOBODY[6] = {0};

static int32_t make(ipxr_keyed *tunnel, bool is_refused_now)
{
    enum { MOST = IPXR_MOST_CLIENTS };
    const ipxr_keyed_setting setting = {0x10, {0, 0, 0, 0, 0, 1}, MOST, MOST, MOST, MOST};
    until_refused = is_refused_now;
    return ipxr_keyed_make(tunnel, &setting);
}

/* A player of that number registers, or speaks to all. */
static void hear(ipxr_keyed *tunnel, uint32_t number, const uint8_t *to, uint16_t socket)
{
    ipxr_keyed_sender sender = {{0}, {2}, {2}, {3}, {3}, 0, 1};
    put_number(sender.place, 4, number);
    put_number(sender.node + 1, 4, number);
    const struct address destination = {0x10, to, socket}, source = {0x10, sender.node, socket};
    uint8_t bytes[HEADER];
    put_header(bytes, sizeof bytes, 0, destination, source);
    ipxr_keyed_hear(tunnel, &sender, bytes, sizeof bytes);
}

/* As many register as are remembered, and one more; then each speaks, and one of them once more. */
static void fill(ipxr_keyed *tunnel)
{
    for (uint32_t k = 0; k <= IPXR_MOST_CLIENTS; k++)
        hear(tunnel, k + 1, NOBODY, TUNNEL_SOCKET);
    printf("remembered: %zu\n", ipxr_keyed_waiters(tunnel));
    for (uint32_t k = 0; k <= IPXR_MOST_CLIENTS; k++)
        hear(tunnel, k + 1, EVERYONE, GAME_SOCKET);
    hear(tunnel, 1, EVERYONE, GAME_SOCKET);
    printf("clients: %zu, receivers: %zu\n", ipxr_keyed_clients(tunnel), ipxr_keyed_receivers(tunnel));
    ipxr_keyed_send(tunnel, EVERYONE);
    printf("receivers of what the router sends: %zu\n", ipxr_keyed_receivers(tunnel));
}

/* Until all have left; says how many datagrams of the tunnel's own go out in the first second and in the tenth, and how many left in the
 * last. */
static void pass(ipxr_keyed *tunnel)
{
    for (int second = 1; ipxr_keyed_clients(tunnel) > 0; second++) {
        ipxr_keyed_second(tunnel);
        if (second == 1 || second == 10)
            printf("second %d: %zu, of which pings of clients %zu\n", second, ipxr_keyed_owns(tunnel), ipxr_keyed_pings(tunnel));
    }
    printf("left: %zu\n", ipxr_keyed_leavers(tunnel));
}

int main(void)
{
    ipxr_keyed tunnel = IPXR_KEYED_NONE;
    int32_t answer = make(&tunnel, true);
    printf("refused: %d, then a second: %d\n", (int)answer, (int)ipxr_keyed_second(&tunnel));
    answer = make(&tunnel, false);
    printf("made: %d, blocks in use: %ld\n", (int)answer, in_use);
    long before = requests;
    fill(&tunnel);
    printf("requests of the events: %ld\n", requests - before);
    answer = make(&tunnel, true);
    printf("refused in its place: %d, and the clients are there: %zu\n", (int)answer, ipxr_keyed_clients(&tunnel));
    before = requests;
    pass(&tunnel);
    printf("requests of the seconds: %ld\n", requests - before);
    answer = make(&tunnel, false);
    printf("made in its place: %d, blocks in use: %ld\n", (int)answer, in_use);
    ipxr_keyed_free(&tunnel);
    printf("blocks that weren't freed: %ld\n", in_use);
    return 0;
}

/* An allocator of the embedder's own in the place of include/heap.c: it refuses one request of many.
 *
 * The same events are played again and again: first none is refused, then the first allocation, then the second, and so on until
 * all were. A call that was refused says so, changes nothing, and when it is made again it does what it did where nothing was refused:
 * answers, packets and tables are compared. Run it under the sanitizers: they see what is lost or used wrongly. */
#include <stdbool.h>
#include <stdio.h>
#include <string.h>

#include "counted.h"
#include "ipxr.h"

static long told;   /* answers that memory was refused */
static int changed; /* refused calls that changed something: there are none */
static int other;   /* plays that gave something else than the one in which nothing was refused: there are none */

/* All that a play gave. */
struct given {
    size_t length;
    uint8_t bytes[65536];
};

/* What a refused call must leave as it was. */
struct seen {
    int32_t running;
    size_t sent, routes, services;
};

static struct seen look(ipxr *router)
{
    struct seen seen = {ipxr_is_running(router), ipxr_sent(router), ipxr_routes(router), ipxr_services(router)};
    return seen;
}

static bool is_same(struct seen a, struct seen b)
{
    return a.running == b.running && a.sent == b.sent && a.routes == b.routes && a.services == b.services;
}

typedef int32_t event(ipxr *router);

static int32_t make(ipxr *router)
{
    const ipxr_port ports[] = {
        {0x10, {0, 0, 0, 0, 0, 1}, 1, 576, IPXR_NO_LIMIT, IPXR_NO_LIMIT},
        {0x20, {0, 0, 0, 0, 0, 2}, 1, 576, IPXR_NO_LIMIT, IPXR_NO_LIMIT},
    };
    return ipxr_make(router, ports, 2);
}

/* BB on network 20 advertises network 30. */
static int32_t learn(ipxr *router)
{
    static const uint8_t bytes[] = {
        0xFF, 0xFF, 0, 40, 0, 1, 0, 0, 0, 0x20, 0xFF, 0xFF, 0xFF, 0xFF, 0xFF, 0xFF, 0x04, 0x53,
        0, 0, 0, 0x20, 0, 0, 0, 0, 0, 0xBB, 0x04, 0x53, 0, 2, 0, 0, 0, 0x30, 0, 1, 0, 2,
    };
    return ipxr_packet(router, 1, bytes, sizeof bytes);
}

/* AA on network 10 sends CC on network 20 as much as fits. */
static int32_t forward(ipxr *router)
{
    static const uint8_t header[] = {
        0xFF, 0xFF, 0x02, 0x40, 0, 0, 0, 0, 0, 0x20, 0, 0, 0, 0, 0, 0xCC, 0x40, 0x03,
        0, 0, 0, 0x10, 0, 0, 0, 0, 0, 0xAA, 0x40, 0x03,
    };
    uint8_t bytes[576] = {0};
    memcpy(bytes, header, sizeof header);
    return ipxr_packet(router, 0, bytes, sizeof bytes);
}

static int32_t port_1_down(ipxr *router)
{
    return ipxr_port_down(router, 1);
}

static int32_t port_1_up(ipxr *router)
{
    return ipxr_port_up(router, 1);
}

static event *const EVENTS[] = {make, ipxr_start, learn, forward, ipxr_second, port_1_down, port_1_up, ipxr_stop};

/* Makes a call, and where memory was refused makes it again. */
static int32_t insist(ipxr *router, event *call)
{
    struct seen before = look(router);
    int32_t answer = call(router);
    if (answer != IPXR_OUT_OF_MEMORY)
        return answer;
    told++;
    if (!is_same(before, look(router)))
        changed++;
    return call(router);
}

/* Appends some bytes, or says no. */
static bool append(struct given *given, const void *bytes, size_t length)
{
    if (length > sizeof given->bytes - given->length)
        return false;
    memcpy(given->bytes + given->length, bytes, length);
    given->length += length;
    return true;
}

/* Appends each packet that is to be sent, and the first route. */
static bool append_all(struct given *given, ipxr *router)
{
    ipxr_packet_sent sent;
    ipxr_route_record route;
    uint8_t bytes[576];
    bool fits = true;
    memset(&sent, 0, sizeof sent);
    memset(&route, 0, sizeof route);
    for (size_t k = 0; ipxr_get(router, k, &sent, bytes, sizeof bytes) == 0; k++)
        fits = fits && append(given, &sent.port, 1) && append(given, sent.node, 6) && append(given, bytes, sent.length);
    if (ipxr_route(router, 0, &route) == 0)
        fits = fits && append(given, &route, sizeof route);
    return fits;
}

/* Plays all events to a new router; what doesn't fit is told as nothing given. */
static void play(struct given *given)
{
    ipxr router = {0};
    bool fits = true;
    given->length = 0;
    for (size_t k = 0; k < sizeof EVENTS / sizeof *EVENTS; k++) {
        int32_t answer = insist(&router, EVENTS[k]);
        fits = fits && append(given, &answer, sizeof answer) && append_all(given, &router);
    }
    ipxr_free(&router);
    if (!fits)
        given->length = 0;
}

int main(void)
{
    static struct given whole, given;
    long rounds = 0;
    long before;
    play(&whole);
    do {
        before = refused;
        until_refused = ++rounds;
        play(&given);
        if (given.length == 0 || given.length != whole.length || memcmp(given.bytes, whole.bytes, given.length) != 0)
            other++;
    } while (refused > before);
    printf("each allocation was refused once: %s\n", refused == rounds - 1 && refused > 1 && told == refused ? "yes" : "no");
    printf("refused calls that changed something: %d\n", changed);
    printf("plays that gave something else than with all memory: %d\n", other);
    printf("blocks that weren't freed: %ld\n", in_use);
    return 0;
}

/* A router of the library for C that made-up events come to. It is built with AddressSanitizer; what it is given lies right before
 * a page that can't be read. After each event it sees that the answer has words, that the packets are no more and no longer than the
 * event may send, that the tables are in order, and in the end that each block was freed.
 *
 * An input begins with the number of ports. Then come events: a byte for the kind, one for the port, and of a packet two for the
 * length and its bytes. */
#include <sys/mman.h>

#include "../examples/embed/c/counted.h"
#include "../include/ipxr.h"
#include "fuzz_inputs.h"

enum { PAGE = 4096, ROOM = 2 * PAGE, HEADER = 30, OWN = 480, SENT = 2000 };
enum kind { SECOND = 10, START, STOP, DOWN, UP, CLEAR, KINDS };

/* Behind its ROOM bytes is the page that can't be read. */
static uint8_t *room;

/* An event, and what was there before it. */
struct event {
    uint8_t kind, port;
    size_t ports, sent, longest, routes, services;
};

static void begin(char **words)
{
    (void)words;
    room = mmap(NULL, ROOM + PAGE, PROT_READ | PROT_WRITE, MAP_PRIVATE | MAP_ANONYMOUS, -1, 0);
    if (room == MAP_FAILED || mprotect(room + ROOM, PAGE, PROT_NONE) != 0)
        abort();
}

static void ask(bool holds)
{
    if (!holds)
        abort();
}

static int32_t make(ipxr *router, size_t count)
{
    ipxr_port ports[4];
    for (size_t k = 0; k < count; k++) {
        uint8_t number = (uint8_t)(k + 1);
        const ipxr_port port = {(uint32_t)number << 4, {0, 0, 0, 0, 0, number}, number, k % 2 ? 1500 : 576, 1000, 500};
        ports[k] = port;
    }
    return ipxr_make(router, ports, count);
}

static size_t sheets(size_t size, size_t items)
{
    return (items + size - 1) / size;
}

/* The most packets that an event may send, as docs/ROUTER.md has it. */
static size_t most_packets(const struct event *event)
{
    size_t routes = sheets(50, event->routes + event->ports - 1), services = sheets(7, event->services);
    size_t larger = routes > services ? routes : services;
    switch (event->kind) {
    case START:
        return 3 * event->ports;
    case SECOND:
    case STOP:
        return event->ports * (routes + services);
    case DOWN:
        return (event->ports - 1) * (routes + services);
    case UP:
        return event->ports + 1 + routes + services;
    default:
        return event->ports > larger ? event->ports : larger;
    }
}

/* Of the packets that an event sent each has a header that says its length, came through sixteen routers at most, and fits. */
static void ask_of_packets(ipxr *router, const struct event *event)
{
    static uint8_t bytes[ROOM];
    ipxr_packet_sent sent;
    size_t count = ipxr_sent(router);
    ask(count >= event->sent && count - event->sent <= most_packets(event));
    for (size_t k = event->sent; k < count; k++) {
        ask(ipxr_get(router, k, &sent, bytes, sizeof bytes) == 0 && sent.port < event->ports);
        ask(sent.length >= HEADER && sent.length <= event->longest && sent.length == (size_t)(bytes[2] << 8 | bytes[3]) && bytes[4] <= 16);
        tell((uint32_t)(0x10000u | (uint32_t)bytes[5] << 8 | (uint32_t)(k - event->sent < 8 ? k - event->sent : 8)));
    }
}

static void ask_of_routes(ipxr *router, size_t ports)
{
    ipxr_route_record route;
    uint32_t last = 0;
    size_t count = ipxr_routes(router);
    ask(count <= IPXR_MOST_ROUTES);
    for (size_t k = 0; k < count; k++) {
        ask(ipxr_route(router, k, &route) == 0 && route.network > last && route.hops < 16 && route.age < 180 && route.port < ports);
        last = route.network;
    }
    ask(ipxr_route(router, count, &route) == IPXR_NO_RECORD);
    tell(0x20000u | (uint32_t)count);
}

static void ask_of_services(ipxr *router, size_t ports)
{
    ipxr_service_record service;
    size_t count = ipxr_services(router);
    ask(count <= IPXR_MOST_SERVICES);
    for (size_t k = 0; k < count; k++) {
        ask(ipxr_service(router, k, &service) == 0 && service.hops < 16 && service.age < 180 && service.port < ports);
        ask(service.name[0] != 0 && service.name[47] == 0);
    }
    ask(ipxr_service(router, count, &service) == IPXR_NO_RECORD);
    tell(0x30000u | (uint32_t)count);
}

/* A frame's packet lies within the frame, and is found again in the frame that is written for it. */
static void ask_of_frame(const uint8_t *frame, size_t length)
{
    uint8_t written[IPXR_LONGEST_FRAME];
    size_t front = 0, again = 0;
    uint8_t kind = ipxr_frame_read(frame, length, &front);
    tell(0x40000u | kind);
    if (kind == IPXR_NO_FRAME)
        return;
    ask(front <= length);
    size_t size = ipxr_frame_write(kind, frame, frame + 6, frame + front, length - front, written, sizeof written);
    if (size == 0)
        return;
    ask(size >= IPXR_SHORTEST_FRAME && ipxr_frame_read(written, size, &again) == kind && again <= size);
    ask(size - again >= length - front && memcmp(written + again, frame + front, length - front) == 0);
}

/* A packet's bytes right before the page that can't be read. */
static const uint8_t *at_the_edge(const uint8_t *bytes, size_t length)
{
    memcpy(room + ROOM - length, bytes, length);
    return room + ROOM - length;
}

static int32_t happen(ipxr *router, struct event *event, const uint8_t *bytes, size_t length)
{
    const uint8_t *edge;
    switch (event->kind) {
    case SECOND:
        return ipxr_second(router);
    case START:
        return ipxr_start(router);
    case STOP:
        return ipxr_stop(router);
    case DOWN:
        return ipxr_port_down(router, event->port);
    case UP:
        return ipxr_port_up(router, event->port);
    default:
        edge = at_the_edge(bytes, length);
        ask_of_frame(edge, length);
        return ipxr_packet(router, event->port, edge, length);
    }
}

/* One event, and all that is to hold behind it. */
static void ask_of_event(ipxr *router, struct event *event, const uint8_t *bytes, size_t length)
{
    uint8_t word[IPXR_MOST_WORD];
    event->sent = ipxr_sent(router);
    event->routes = ipxr_routes(router);
    event->services = ipxr_services(router);
    event->longest = length > OWN ? length : OWN;
    int32_t answer = happen(router, event, bytes, length);
    ask((answer >= 0 || (answer == IPXR_NO_PORT && event->port >= event->ports)) && ipxr_word(answer, word, sizeof word) > 0);
    tell(0x50000u | (uint32_t)event->kind << 16 | (uint16_t)answer);
    ask(!IPXR_DROPPED(answer) || ipxr_sent(router) == event->sent);
    ask_of_packets(router, event);
    ask_of_routes(router, event->ports);
    ask_of_services(router, event->ports);
    if (ipxr_sent(router) > SENT)
        ipxr_clear(router);
}

static void play(const uint8_t *bytes, size_t length)
{
    ipxr router = {0};
    const uint8_t *end = bytes + length;
    struct event event = {0};
    event.ports = length > 0 ? 1 + *bytes++ % 4 : 1;
    ask(make(&router, event.ports) == 0);
    while (end - bytes >= 2) {
        size_t times = 1, size = 0;
        event.kind = bytes[0] % KINDS;
        event.port = bytes[1];
        bytes += 2;
        if (event.kind < SECOND && end - bytes >= 2) {
            size = (size_t)(bytes[0] << 8 | bytes[1]);
            bytes += 2;
            size = size > (size_t)(end - bytes) ? (size_t)(end - bytes) : size;
        } else if (event.kind == SECOND)
            times = 1 + event.port % 181;
        for (; times > 0; times--)
            event.kind == CLEAR ? ipxr_clear(&router) : ask_of_event(&router, &event, bytes, size);
        bytes += size;
    }
    ipxr_free(&router);
    ask(in_use == 0);
}

/* Counts the blocks that the library has, over each way in which a router is made and freed; then fills a router of the most ports,
 * and plays it the largest events. The allocator refuses nothing then, so no call may say that memory was refused. */
#include <stdio.h>
#include <string.h>

#include "counted.h"
#include "ipxr.h"
#include "packets.h"

enum { LONGEST = 65535 };

static const uint8_t NEIGHBOUR[6] = {0, 0, 0, 0, 0, 0xBB};
static const uint32_t FAR = 0x10000;

/* Answers below 0 where the allocator refused nothing. */
static int faults;

static void show(const char *what)
{
    printf("%s: %ld block%s\n", what, in_use, in_use == 1 ? "" : "s");
}

/* What is answered, and whether as many blocks are there as before the call. */
static void show_answer(const char *what, int32_t answer, long before)
{
    uint8_t word[IPXR_MOST_WORD];
    ipxr_word(answer, word, sizeof word);
    printf("%s: %s, and as many blocks as before: %s\n", what, (const char *)word, in_use == before ? "yes" : "no");
}

/* A call that does its work. */
static void done(int32_t answer)
{
    if (answer < 0)
        faults++;
}

/* Ports on networks 1, 2 and so on. */
static int32_t make(ipxr *router, size_t count)
{
    ipxr_port ports[IPXR_MOST_PORTS];
    for (size_t k = 0; k < count; k++) {
        const ipxr_port port = {(uint32_t)k + 1, {0, 0, 0, 0, 0, (uint8_t)(k + 1)}, 1, LONGEST, IPXR_NO_LIMIT, IPXR_NO_LIMIT};
        ports[k] = port;
    }
    return ipxr_make(router, ports, count);
}

/* ---- Each way in which a router is made and freed ---- */

/* A making that is refused leaves the router that was there, and its blocks. */
static void refuse(ipxr *router)
{
    long before = in_use;
    int32_t answer = make(router, 0);
    show_answer("made of no ports", answer, before);
    until_refused = 1;
    answer = make(router, 2);
    show_answer("made with no memory", answer, before);
    printf("the router that was there runs: %d\n", (int)ipxr_is_running(router));
}

/* Clearing keeps the room: what was sent before is sent again without a request. */
static void send_again(ipxr *router)
{
    long before = requests;
    for (int turn = 0; turn < 100; turn++) {
        ipxr_clear(router);
        done(ipxr_stop(router));
        ipxr_clear(router);
        done(ipxr_start(router));
    }
    printf("requests of a hundred more starts and stops: %ld\n", requests - before);
}

static void make_and_free(ipxr *router)
{
    ipxr_free(router);
    show("an empty handle is freed");
    done(make(router, 2));
    show("a router is made");
    done(ipxr_start(router));
    printf("it starts, and has blocks for what is to be sent: %s\n", in_use > 1 ? "yes" : "no");
    send_again(router);
    refuse(router);
    done(make(router, 2));
    show("another is made in its place");
    done(ipxr_start(router));
    ipxr_free(router);
    show("it is freed");
    ipxr_free(router);
    show("it is freed again");
}

/* ---- A router that is full ---- */

/* Fifty routes to networks that nobody advertised yet. */
static void learn_routes(ipxr *router, uint32_t first)
{
    uint8_t bytes[HEADER + 2 + ENTRIES * ENTRY];
    uint8_t *at = put_response(bytes, RIP, ENTRIES, 1, NEIGHBOUR);
    for (uint32_t k = 0; k < ENTRIES; k++)
        at = put_entry(at, FAR + first + k, 1, 2);
    done(ipxr_packet(router, 0, bytes, sizeof bytes));
}

/* Seven services that nobody advertised yet. */
static void learn_services(ipxr *router, unsigned first)
{
    uint8_t bytes[HEADER + 2 + SERVICES * SERVICE];
    uint8_t *at = put_response(bytes, SAP, SERVICES, 1, NEIGHBOUR);
    for (unsigned k = 0; k < SERVICES; k++) {
        const struct address offered = {FAR, NEIGHBOUR, 0x451};
        char name[16];
        snprintf(name, sizeof name, "S%05u", first + k);
        at = put_service(at, 4, name, offered, 1);
    }
    done(ipxr_packet(router, 0, bytes, sizeof bytes));
}

/* All routes are asked for on port 1. */
static void ask(ipxr *router)
{
    const struct address to = {2, EVERYONE, RIP_SOCKET}, from = {2, NEIGHBOUR, RIP_SOCKET};
    uint8_t bytes[HEADER + 2 + ENTRY];
    put_entry(put_number(put_header(bytes, sizeof bytes, RIP, to, from), 2, 1), 0xFFFFFFFF, 0xFFFF, 0xFFFF);
    done(ipxr_packet(router, 1, bytes, sizeof bytes));
}

/* The longest packet goes from port 0 to port 1. */
static void forward(ipxr *router)
{
    static uint8_t bytes[LONGEST];
    const struct address to = {2, NEIGHBOUR, 0x4003}, from = {1, NEIGHBOUR, 0x4003};
    put_header(bytes, sizeof bytes, 0, to, from);
    done(ipxr_packet(router, 0, bytes, sizeof bytes));
}

static void show_sent(ipxr *router, const char *what)
{
    ipxr_packet_sent sent;
    static uint8_t bytes[LONGEST];
    size_t longest = 0;
    for (size_t k = 0; k < ipxr_sent(router); k++) {
        done(ipxr_get(router, k, &sent, bytes, sizeof bytes));
        if (sent.length > longest)
            longest = sent.length;
    }
    printf("%s: %zu to be sent, the longest of %zu bytes\n", what, ipxr_sent(router), longest);
    ipxr_clear(router);
}

static void fill(ipxr *router)
{
    done(make(router, 2));
    done(make(router, IPXR_MOST_PORTS));
    done(ipxr_start(router));
    show_sent(router, "a start on 32 ports");
    for (uint32_t first = 0; first < IPXR_MOST_ROUTES; first += ENTRIES)
        learn_routes(router, first);
    for (unsigned first = 0; first < IPXR_MOST_SERVICES; first += SERVICES)
        learn_services(router, first);
    show_sent(router, "what is learned, on 31 ports");
    printf("routes %zu, services %zu\n", ipxr_routes(router), ipxr_services(router));
}

static void play_full(ipxr *router)
{
    ask(router);
    show_sent(router, "a request for all routes");
    forward(router);
    show_sent(router, "a long packet");
    for (int second = 0; second < 60; second++)
        done(ipxr_second(router));
    show_sent(router, "sixty seconds");
    done(ipxr_port_down(router, 31));
    show_sent(router, "port 31 goes down");
    done(ipxr_port_up(router, 31));
    show_sent(router, "port 31 comes up");
    done(ipxr_stop(router));
    show_sent(router, "a stop");
}

int main(void)
{
    ipxr router = {0};
    make_and_free(&router);
    fill(&router);
    play_full(&router);
    ipxr_free(&router);
    show("the full router is freed");
    printf("faults where nothing was refused: %d\n", faults);
    return 0;
}

/* Fills the tables of a router, on a thread with IPXR_STACK bytes of stack: says how much it has, where that is what the header says and no
 * more. With the word figures it prints what events of the full router take, of each the fastest of some. */
#define _POSIX_C_SOURCE 200809L
#include <pthread.h>
#include <stdio.h>
#include <time.h>

#include "ipxr.h"
#include "../../examples/embed/c/packets.h"

enum { LONGEST = 576, FAR = 0x1000, LAST = IPXR_MOST_PORTS - 1, GONE = 16, PERIOD = 60, TIMES = 10, TURNS = 200, STRIDE = 40503 };

static const uint8_t NEIGHBOUR[6] = {0, 0, 0, 0, 0, 0xBB};

/* Ports on networks 1, 2 and so on. */
static int32_t make(ipxr *router, size_t count)
{
    ipxr_port ports[IPXR_MOST_PORTS + 1];
    for (size_t k = 0; k < count; k++) {
        const ipxr_port port = {(uint32_t)k + 1, {0, 0, 0, 0, 0, (uint8_t)(k + 1)}, 1, LONGEST, IPXR_NO_LIMIT, IPXR_NO_LIMIT};
        ports[k] = port;
    }
    return ipxr_make(router, ports, count);
}

/* ---- Events; everything is learned on the last port ---- */

static int32_t hear_routes(ipxr *router, uint32_t first, uint32_t count, uint16_t hops, uint16_t ticks)
{
    uint8_t bytes[HEADER + 2 + ENTRIES * ENTRY];
    uint8_t *at = put_response(bytes, RIP, count, LAST + 1, NEIGHBOUR);
    for (uint32_t k = 0; k < count; k++)
        at = put_entry(at, FAR + first + k, hops, ticks);
    return ipxr_packet(router, LAST, bytes, (size_t)(at - bytes));
}

static int32_t hear_services(ipxr *router, unsigned first)
{
    uint8_t bytes[HEADER + 2 + SERVICES * SERVICE];
    uint8_t *at = put_response(bytes, SAP, SERVICES, LAST + 1, NEIGHBOUR);
    for (unsigned k = 0; k < SERVICES; k++) {
        const struct address offered = {FAR, NEIGHBOUR, 0x451};
        char name[16];
        snprintf(name, sizeof name, "S%05u", first + k);
        at = put_service(at, 4, name, offered, 1);
    }
    return ipxr_packet(router, LAST, bytes, (size_t)(at - bytes));
}

/* Offers more than the tables have room for. Whether all was taken as it should. */
static bool fill(ipxr *router)
{
    bool is_well = true;
    for (uint32_t first = 0; first <= IPXR_MOST_ROUTES; first += ENTRIES)
        is_well = is_well && hear_routes(router, first, ENTRIES, 1, 2) == IPXR_LEARNED;
    for (unsigned first = 0; first <= IPXR_MOST_SERVICES; first += SERVICES)
        is_well = is_well && hear_services(router, first) == IPXR_LEARNED;
    ipxr_clear(router);
    return is_well && ipxr_routes(router) == IPXR_MOST_ROUTES && ipxr_services(router) == IPXR_MOST_SERVICES;
}

static bool is_full(ipxr *router)
{
    bool is_well = make(router, IPXR_MOST_PORTS + 1) == IPXR_MANY_PORTS && make(router, IPXR_MOST_PORTS) == 0;
    is_well = is_well && ipxr_start(router) == IPXR_STARTED && fill(router);
    for (int second = 0; second < PERIOD; second++)
        is_well = is_well && ipxr_second(router) == IPXR_TICKED;
    return is_well && fill(router);
}

/* ---- Figures ---- */

static void forward(ipxr *router, uint32_t turn)
{
    uint8_t bytes[HEADER];
    const struct address to = {FAR + turn * STRIDE % IPXR_MOST_ROUTES, NEIGHBOUR, 0x4003}, from = {1, NEIGHBOUR, 0x4003};
    put_header(bytes, sizeof bytes, 0, to, from);
    ipxr_packet(router, 0, bytes, sizeof bytes);
}

static void refresh(ipxr *router, uint32_t turn)
{
    hear_routes(router, turn * STRIDE % IPXR_MOST_ROUTES / ENTRIES * ENTRIES, ENTRIES, 1, 2);
}

static void change(ipxr *router, uint32_t turn) { hear_routes(router, 0, ENTRIES, 1, 3 - turn % 2); }

static void exchange(ipxr *router, uint32_t turn) { hear_routes(router, IPXR_MOST_ROUTES / 2, 1, turn % 2 ? 1 : GONE, 2); }

static void quiet(ipxr *router, uint32_t turn)
{
    (void)turn;
    ipxr_second(router);
}

/* The nanoseconds of one of so many events, each with what it sends cleared. */
static double took(ipxr *router, void event(ipxr *, uint32_t), uint32_t turns)
{
    struct timespec from, to;
    clock_gettime(CLOCK_MONOTONIC, &from);
    for (uint32_t turn = 0; turn < turns; turn++) {
        event(router, turn);
        ipxr_clear(router);
    }
    clock_gettime(CLOCK_MONOTONIC, &to);
    return ((double)(to.tv_sec - from.tv_sec) * 1e9 + (double)(to.tv_nsec - from.tv_nsec)) / turns;
}

/* Seconds are timed from one broadcast of everything to the next, and the tables are filled before. */
static void tell_figures(ipxr *router)
{
    static const struct {
        const char *name;
        void (*event)(ipxr *, uint32_t);
        uint32_t turns;
    } MEASURED[] = {
        {"forward a packet", forward, TURNS},   {"hear fifty routes again", refresh, TURNS},
        {"hear fifty that change", change, TURNS}, {"withdraw a route in the middle, or admit it", exchange, TURNS},
        {"a quiet second", quiet, PERIOD - 1},  {"advertise everything", quiet, 1},
    };
    double least[sizeof MEASURED / sizeof *MEASURED] = {0};
    for (int time = 0; time < TIMES; time++) {
        fill(router);
        for (size_t k = 0; k < sizeof MEASURED / sizeof *MEASURED; k++) {
            double each = took(router, MEASURED[k].event, MEASURED[k].turns);
            if (time == 0 || each < least[k])
                least[k] = each;
        }
    }
    for (size_t k = 0; k < sizeof MEASURED / sizeof *MEASURED; k++)
        printf("%s: %.0f ns\n", MEASURED[k].name, least[k]);
}

static void *play(void *tells)
{
    static char well;
    ipxr router = IPXR_NONE;
    bool is_well = is_full(&router);
    if (is_well && tells != NULL)
        tell_figures(&router);
    ipxr_free(&router);
    return is_well ? &well : NULL;
}

int main(int count, char **words)
{
    void *answer = NULL;
    pthread_attr_t how;
    pthread_t thread;
    if (pthread_attr_init(&how) != 0 || pthread_attr_setstacksize(&how, IPXR_STACK) != 0 ||
        pthread_create(&thread, &how, play, count > 1 ? words[1] : NULL) != 0 || pthread_join(thread, &answer) != 0)
        return 2;
    pthread_attr_destroy(&how);
    if (answer == NULL)
        return 1;
    printf("%d ports, %d routes, %d services: full, and no more\n", IPXR_MOST_PORTS, IPXR_MOST_ROUTES, IPXR_MOST_SERVICES);
    return 0;
}

/* What the library for C and the plain router take for the same events: dev/plain_speed events. Both have eight ports, 256 routes and 64
 * services. First every event is compared: the two must send the same packets. Then a block of events goes to one, the same to the other,
 * and what was sent is copied or, where nothing is sent, a list of 256 records is read; and so on by turns. Of each the fastest block counts,
 * so it hardly matters what else the machine does. With the word `check` it only compares. */
#include <stdio.h>
#include <stdlib.h>
#include <string.h>
#include <time.h>

#include "ipxr.h"
#include "plain.h"
#include "traffic.h"

enum { COST = 1, LONGEST = 1500, PERIOD = 60 };

/* How many packets a block has, how many blocks are timed, and how many packets of a kind are compared. */
enum { TURNS = 60, BLOCKS = 3000, COMPARED = 1000 };

static const char *const NAMES[KINDS] = {
    [FORWARD] = "forward a unicast packet",
    [UNCHANGED] = "hear fifty routes that change nothing",
    [CHANGED] = "hear fifty routes that all change",
    [ALL_ROUTES_ASKED] = "answer a request for all routes",
    [SERVICES_UNCHANGED] = "hear seven services that change nothing",
    [SERVICES_CHANGED] = "hear seven services that all change",
    [ALL_SERVICES_ASKED] = "answer a query for all services",
    [NEAREST_ASKED] = "answer a query for the nearest service",
    [PROPAGATE] = "send a packet on to all networks",
    [QUIET_SECOND] = "let a quiet second pass",
    [ADVERTISE] = "advertise everything",
};

static ipxr measured = IPXR_NONE;
static plain_router plain;
static ipxr_route_record records[ROUTES];

/* It depends on each event, copy and reading, so that none is left out. */
static volatile size_t seen;

static void end(const char *what)
{
    fprintf(stderr, "%s\n", what);
    exit(1);
}

/* ---- The two routers ---- */

/* What takes events. A call returns how many packets were sent. */
typedef struct player {
    size_t (*hear)(coming);
    size_t (*pass)(void);
} player;

static size_t measured_hears(coming it)
{
    ipxr_clear(&measured);
    ipxr_packet(&measured, it.port, it.bytes, it.length);
    return ipxr_sent(&measured);
}

static size_t measured_passes(void)
{
    ipxr_clear(&measured);
    ipxr_second(&measured);
    return ipxr_sent(&measured);
}

static size_t plain_hears(coming it)
{
    plain_packet(&plain, it.port, it.bytes, it.length);
    return plain.out.count;
}

static size_t plain_passes(void)
{
    plain_second(&plain);
    return plain.out.count;
}

static const player MEASURED = {measured_hears, measured_passes}, PLAIN = {plain_hears, plain_passes};

static void make(void)
{
    ipxr_port ports[PORTS];
    plain_port plain_ports[PORTS];
    for (uint8_t k = 0; k < PORTS; k++) {
        ports[k] = (ipxr_port){traffic_network(k), {0, 0, 0, 0, 0, (uint8_t)(k + 1)}, COST, LONGEST, IPXR_NO_LIMIT, IPXR_NO_LIMIT};
        plain_ports[k] = (plain_port){.node = k + 1u, .network = traffic_network(k), .cost = COST, .longest = LONGEST};
    }
    if (ipxr_make(&measured, ports, PORTS) < 0)
        end("no router is made");
    plain_make(&plain, plain_ports, PORTS, IPXR_MOST_ROUTES, IPXR_MOST_SERVICES);
    ipxr_start(&measured);
    plain_start(&plain);
}

/* ---- Whether both send the same ---- */

static uint64_t number_of(const uint8_t node[6])
{
    uint64_t number = 0;
    for (int k = 0; k < 6; k++)
        number = number << 8 | node[k];
    return number;
}

static bool is_same(size_t index)
{
    const plain_sent *other = plain.out.sent + index;
    uint8_t bytes[LONGEST];
    ipxr_packet_sent sent;
    return ipxr_get(&measured, index, &sent, bytes, sizeof bytes) == 0 && sent.port == other->port &&
           number_of(sent.node) == other->link && sent.length == other->length &&
           memcmp(bytes, plain.out.bytes + other->start, sent.length) == 0;
}

static void compare(const char *what)
{
    bool is_alike = ipxr_sent(&measured) == plain.out.count;
    for (size_t k = 0; is_alike && k < plain.out.count; k++)
        is_alike = is_same(k);
    if (is_alike)
        return;
    fprintf(stderr, "%s: ", what);
    end("the two routers send different packets");
}

static void both_hear(coming it, const char *what)
{
    measured_hears(it);
    plain_hears(it);
    compare(what);
}

static void fill(void)
{
    for (uint32_t k = 0; k < ROUTE_RESPONSES + SERVICE_RESPONSES; k++)
        both_hear(k < ROUTE_RESPONSES ? traffic_routes(k) : traffic_services(k - ROUTE_RESPONSES), "fill the tables");
    if (ipxr_routes(&measured) != ROUTES || ipxr_services(&measured) != SERVICES)
        end("the tables aren't filled");
}

static void compare_packets(kind of)
{
    for (uint32_t turn = 0; turn < COMPARED; turn++)
        both_hear(traffic_packet(of, turn), NAMES[of]);
}

/* From one broadcast of everything to the next. */
static void compare_seconds(void)
{
    for (int k = 0; k < PERIOD; k++) {
        measured_passes();
        plain_passes();
        compare("let a second pass");
    }
}

static void compare_all(void)
{
    for (kind of = 0; of < QUIET_SECOND; of++)
        compare_packets(of);
    compare_seconds();
}

/* ---- Blocks of events ---- */

static void refresh(const player *it)
{
    for (uint32_t k = 0; k < ROUTE_RESPONSES; k++)
        it->hear(traffic_routes(k));
    for (uint32_t k = 0; k < SERVICE_RESPONSES; k++)
        it->hear(traffic_services(k));
}

static size_t seconds(const player *it, int count)
{
    size_t sent = 0;
    for (int k = 0; k < count; k++)
        sent += it->pass();
    return sent;
}

static size_t packets(const player *it, kind of, uint32_t first)
{
    size_t sent = 0;
    for (uint32_t k = 0; k < TURNS; k++)
        sent += it->hear(traffic_packet(of, first + k));
    return sent;
}

static int turns_of(kind of)
{
    return of == QUIET_SECOND ? PERIOD - 1 : of == ADVERTISE ? 1 : TURNS;
}

static double now(void)
{
    struct timespec at;
    clock_gettime(CLOCK_MONOTONIC, &at);
    return (double)at.tv_sec * 1e9 + (double)at.tv_nsec;
}

/* How long a block takes. Before seconds the tables are refreshed, untimed, and before everything is advertised a period passes. */
static double block(const player *it, kind of, uint32_t first)
{
    if (of == QUIET_SECOND || of == ADVERTISE)
        refresh(it);
    if (of == ADVERTISE)
        seconds(it, PERIOD - 1);
    double began = now();
    seen += of == QUIET_SECOND || of == ADVERTISE ? seconds(it, turns_of(of)) : packets(it, of, first);
    return now() - began;
}

/* ---- What events are compared with ---- */

static void read_all(void)
{
    for (size_t k = 0; k < ROUTES; k++)
        ipxr_route(&measured, k, records + k);
}

static size_t copy_sent(int turn)
{
    static uint8_t copied[LONGEST];
    size_t sum = 0;
    for (size_t k = 0; k < plain.out.count; k++) {
        const plain_sent *sent = plain.out.sent + k;
        memcpy(copied, plain.out.bytes + sent->start, sent->length);
        sum += copied[turn];
    }
    return sum;
}

static size_t read_records(int turn)
{
    size_t sum = 0;
    records[turn % ROUTES].age = (uint8_t)turn;
    for (size_t k = 0; k < ROUTES; k++)
        sum += (size_t)records[k].age + records[k].ticks;
    return sum;
}

/* How long it takes to copy what was sent last or, if nothing was, to read the records, as often as a block has events. */
static double beside(kind of)
{
    bool is_sent = plain.out.count > 0;
    double began = now();
    for (int k = 0; k < turns_of(of); k++)
        seen += is_sent ? copy_sent(k) : read_records(k);
    return now() - began;
}

/* ---- Measuring ---- */

typedef struct timed {
    double measured, plain, beside;
} timed;

static double least(double one, double other)
{
    return one < other ? one : other;
}

static timed measure(kind of)
{
    timed it = {1e18, 1e18, 1e18};
    for (uint32_t k = 0; k < BLOCKS; k++) {
        it.measured = least(it.measured, block(&MEASURED, of, k * TURNS));
        it.plain = least(it.plain, block(&PLAIN, of, k * TURNS));
        compare(NAMES[of]);
        it.beside = least(it.beside, beside(of));
        if (of == QUIET_SECOND)
            seen += seconds(&MEASURED, 1) + seconds(&PLAIN, 1);
    }
    return it;
}

static void report(kind of)
{
    timed it = measure(of);
    size_t bytes = of == QUIET_SECOND ? 0 : plain.out.used;
    printf("%s: %.1f ns, in the plain way %.1f: %.2f times, %.1f %s, %zu\n", NAMES[of], it.measured / turns_of(of),
           it.plain / turns_of(of), it.measured / it.plain, it.measured / it.beside,
           bytes ? "copies of the bytes sent" : "readings of the records", bytes ? bytes : ROUTES);
    fflush(stdout);
}

int main(int count, char **words)
{
    traffic_make();
    make();
    fill();
    read_all();
    compare_all();
    if (count == 2 && strcmp(words[1], "check") == 0) {
        puts("both routers send the same");
        return 0;
    }
    for (kind of = 0; of < KINDS; of++)
        report(of);
    ipxr_free(&measured);
    plain_free(&plain);
    return 0;
}

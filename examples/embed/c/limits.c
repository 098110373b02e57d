/* A tunnel's gateway decides what goes on, and why the rest is dropped. A player speaks to all 35 times a second. Somebody floods all with
 * 2,000 packets a second for a while, then pings all and asks the router again and again. Strangers register, perhaps in another's name.
 * What becomes of all that is counted: of packets at one client, who listens. */
#include <stdio.h>

#include "ipxr_limits.h"

enum { PLAYER, FLOODER, SECONDS = 4, FIRST_OF_FLOOD = 1, LAST_OF_FLOOD = 2, TRIES = 10, PAGES = 50, REGISTRATIONS = 60 };
enum { NETWORK = 0x10, GAME_SOCKET = 0x4003, PING_SOCKET = 2, REGISTRATION = 2, DECISIONS = IPXR_TOO_MUCH_FOR_STRANGERS + 1 };

/* Times in nanoseconds: a second, and those from one packet of somebody to his next one. */
static const uint64_t SECOND = 1000000000, OF_PLAYER = 1000000000 / 35, OF_FLOOD = 500000;

static const char *const WORDS[DECISIONS] = {
    "pass", "too many pings", "too many questions", "too many advertisements", "too much for the router", "too much for the client",
    "too much for the address", "too much for the link", "too many answers", "too much for strangers"};

/* A client, the only one at its address: its queue at all others, and what it uses of the limits. */
typedef struct speaker {
    uint8_t queue;
    ipxr_client_use client;
    ipxr_address_use address;
    ipxr_meter handed, advertised;
    uint64_t clock_of_client, clock_of_address;
} speaker;

typedef struct gateway {
    ipxr_limits limits;
    ipxr_strangers_limits strangers;
    ipxr_reader listener;
    uint64_t clock_of_listener, clock_of_meters;
    ipxr_meter pinged, to_strangers; /* by all clients; and datagrams to all strangers */
} gateway;

/* How often each became of something. */
typedef struct counts {
    unsigned of[DECISIONS];
} counts;

static void show(const char *what, const counts *counted)
{
    const char *before = ": ";
    printf("%s", what);
    for (size_t k = 0; k < DECISIONS; k++) {
        if (counted->of[k] == 0)
            continue;
        printf("%s%u %s", before, counted->of[k], WORDS[k]);
        before = ", ";
    }
    puts(before[0] == ':' ? ": nothing" : "");
}

/* ---- Packets; all are for everyone ---- */

static size_t put_packet(uint16_t socket, uint8_t *bytes, size_t room)
{
    static const uint8_t data[40] = {0};
    const ipxr_address from = {NETWORK, {192, 168, 0, 2, 8, 82}, socket}, to = {NETWORK, {255, 255, 255, 255, 255, 255}, socket};
    int32_t length = ipxr_write_packet(&from, &to, 0, 0, data, sizeof data, bytes, room);
    return length < 0 ? 0 : (size_t)length;
}

static size_t put_question(uint8_t *bytes, size_t room)
{
    const ipxr_address from = {NETWORK, {192, 168, 0, 2, 8, 82}, IPXR_RIP_SOCKET};
    const ipxr_address to = {NETWORK, {255, 255, 255, 255, 255, 255}, IPXR_RIP_SOCKET};
    const ipxr_route_entry all = {0xFFFFFFFF, 0xFFFF, 0xFFFF};
    int32_t length = ipxr_write_rip(&from, &to, IPXR_RIP_REQUEST, &all, 1, bytes, room);
    return length < 0 ? 0 : (size_t)length;
}

/* ---- Decisions ---- */

/* Time passes for the gateway, and for all that a client uses. */
static void look(gateway *gate, speaker *from, uint64_t now)
{
    ipxr_meter_pass(&gate->pinged, now - gate->clock_of_meters);
    ipxr_meter_pass(&gate->to_strangers, now - gate->clock_of_meters);
    gate->clock_of_meters = now;
    ipxr_meter_pass(&from->handed, now - from->clock_of_client);
    ipxr_meter_pass(&from->advertised, now - from->clock_of_client);
    ipxr_reader_look(&gate->listener, &gate->clock_of_listener, now);
    ipxr_client_look(&from->client, &from->clock_of_client, now);
    ipxr_address_look(&from->address, &from->clock_of_address, now);
}

/* What becomes of a client's packet for the listener, and for the router. */
static uint8_t for_listener(gateway *gate, speaker *from, const uint8_t *bytes, size_t length)
{
    uint8_t said = ipxr_limits_says(&gate->limits, ipxr_kind_of(bytes, length), &from->client, &gate->pinged);
    return said == IPXR_PASSES ? ipxr_limits_receives(&gate->limits, &gate->listener, from->queue, length) : said;
}

static uint8_t for_router(gateway *gate, speaker *from, const uint8_t *bytes, size_t length)
{
    uint8_t kind = ipxr_kind_of(bytes, length), said = ipxr_limits_says(&gate->limits, kind, &from->client, &gate->pinged);
    if (said != IPXR_PASSES)
        return said;
    return ipxr_limits_hands(&gate->limits, 1, kind, &from->client, &from->address, &from->handed, &from->advertised);
}

/* ---- The story ---- */

/* Whether somebody who speaks so often says a packet between two moments. */
static bool speaks(uint64_t before, uint64_t now, uint64_t often)
{
    return before / often != now / often;
}

static void play_second(gateway *gate, speaker *speakers, int second)
{
    counts counted[2] = {{{0}}, {{0}}};
    uint8_t bytes[100];
    char what[40];
    size_t length = put_packet(GAME_SOCKET, bytes, sizeof bytes);
    for (uint64_t before = (uint64_t)second * SECOND, end = before + SECOND; before < end; before += OF_FLOOD) {
        uint64_t now = before + OF_FLOOD;
        look(gate, &speakers[PLAYER], now);
        look(gate, &speakers[FLOODER], now);
        if (speaks(before, now, OF_PLAYER))
            counted[PLAYER].of[for_listener(gate, &speakers[PLAYER], bytes, length)]++;
        if (second >= FIRST_OF_FLOOD && second <= LAST_OF_FLOOD)
            counted[FLOODER].of[for_listener(gate, &speakers[FLOODER], bytes, length)]++;
    }
    snprintf(what, sizeof what, "second %d, the player", second);
    show(what, &counted[PLAYER]);
    snprintf(what, sizeof what, "second %d, the flood", second);
    show(what, &counted[FLOODER]);
}

/* Pings and questions, as fast as they come. The router answers each question that it hears by so many packets. */
static void insist(gateway *gate, speaker *from, uint64_t now)
{
    counts pings = {{0}}, questions = {{0}}, pages = {{0}};
    uint8_t bytes[100];
    look(gate, from, now);
    for (int k = 0; k < TRIES; k++) {
        size_t length = put_packet(PING_SOCKET, bytes, sizeof bytes);
        pings.of[for_listener(gate, from, bytes, length)]++;
        length = put_question(bytes, sizeof bytes);
        uint8_t asked = for_router(gate, from, bytes, length);
        questions.of[asked]++;
        for (int page = 0; asked == IPXR_PASSES && page < PAGES; page++)
            pages.of[ipxr_limits_router_answers(&gate->limits, 1, &from->client, &from->address)]++;
    }
    show("pings to all", &pings);
    show("questions to the router", &questions);
    show("packets of its answers", &pages);
}

/* Each registration is answered by two datagrams to an address that nobody has proved to have. */
static void registers(gateway *gate, const char *who)
{
    counts counted = {{0}};
    ipxr_meter address = {0};
    for (int k = 0; k < REGISTRATIONS; k++)
        counted.of[ipxr_strangers_send(&gate->strangers, REGISTRATION, &address, &gate->to_strangers)]++;
    show(who, &counted);
}

int main(void)
{
    static gateway gate;
    speaker speakers[2] = {{.queue = PLAYER}, {.queue = FLOODER}};
    if (!ipxr_limits_make(&gate.limits, IPXR_LIMITS_TUNNEL, 800, 50, 300, 100) || !ipxr_strangers_make(&gate.strangers, 100) ||
        !ipxr_fair_make(&gate.listener.packets, &gate.limits.received.packets) ||
        !ipxr_fair_make(&gate.listener.pieces, &gate.limits.received.pieces))
        return 1;
    for (int second = 0; second < SECONDS; second++)
        play_second(&gate, speakers, second);
    insist(&gate, &speakers[FLOODER], SECONDS * SECOND);
    puts("a second later");
    insist(&gate, &speakers[FLOODER], (SECONDS + 1) * SECOND);
    registers(&gate, "registrations of a stranger");
    registers(&gate, "of another");
    registers(&gate, "of a third, when all strangers were sent too much");
    puts("a second later");
    look(&gate, &speakers[FLOODER], (SECONDS + 2) * SECOND);
    registers(&gate, "registrations of a newcomer");
    return 0;
}

/* Datagrams to the gateway at a rate, as somebody sends them who wants to do harm: from sockets of many places, or in the name of places
 * that are others'.
 *
 *     flood sockets|forged KIND name=value ..
 *
 *     to=ADDRESS:PORT              the gateway
 *     host=ADDRESS hosts=COUNT     where the datagrams come from: the first address, and how many
 *     first=PORT ports=COUNT       the same of the ports of each address
 *     rate=COUNT count=COUNT       datagrams a second, and in all
 *     seed=NUMBER                  what the bytes begin with that are made up
 *     for=NODE                     whom a packet of the kind `tell` is for: twelve digits
 *     key=KEY                      of the gateway's nodes, 32 digits: each place is named by the node that it has as a client. Without it, by its
 *                                  own six bytes
 *     network=NUMBER               the network of the source of a `chat`, or a `frame`, else 0
 *     size=COUNT                   bytes of a packet of the kind `chat`, or `frame`
 *     gateway=PROCESS              waits while much of it waits for the gateway: nothing is lost then since a machine is slow
 *
 * The last line is what was sent: `COUNT datagrams in SECONDS s, RATE a second`. */
#define _DEFAULT_SOURCE
#include "siphash.h"

#include <arpa/inet.h>
#include <errno.h>
#include <stdbool.h>
#include <stdint.h>
#include <stdio.h>
#include <stdlib.h>
#include <string.h>
#include <sys/resource.h>
#include <sys/socket.h>
#include <time.h>
#include <unistd.h>

enum {
    HEADER = 30,
    NODE = 6,
    AT_LENGTH = 2,
    AT_TYPE = 5,
    AT_TO_NODE = 10,
    AT_TO_SOCKET = 16,
    AT_FROM_NETWORK = 18,
    AT_FROM_NODE = 22,
    AT_FROM_SOCKET = 28,
    TUNNEL = 2, /* the socket of registrations and pings */
    KEYED = 0x02, COOKIE = 0x06, /* the first bytes of a client's node, and of what answers a ping */
    SAP = 0x452,
    RIP = 0x453,
    GAME = 0x4003,
    CHAT = 0x4004,
    LONGEST = 1514,
    FRAME = 14,     /* bytes in front of a packet in a frame */
    STATION = 0x02, /* each byte of the card's address in it */
    IP_HEADER = 20,
    UDP_HEADER = 8,
    MOST_PLACES = 4096,
    BETWEEN_LOOKS = 64,   /* datagrams that are sent before one looks what the gateway has to do */
    MOST_WAITING = 100000, /* bytes of the system's that may wait for the gateway */
    MOST_PATIENCE = 20     /* seconds that one waits for a gateway which does nothing more */
};

typedef struct place {
    uint32_t host;
    uint16_t port;
} place;

typedef struct order {
    bool is_forged;
    const char *kind;
    place to, first;
    uint8_t receiver[NODE], key[SIPHASH_KEY];
    bool has_key;
    unsigned long hosts, ports, rate, count, seed, gateway, network, size;
} order;

static void stop(const char *what)
{
    fprintf(stderr, "flood: %s: %s\n", what, strerror(errno));
    exit(1);
}

/* ---- The command line ---- */

static place place_of(char *words)
{
    place it = {0, 0};
    char *colon = strchr(words, ':');
    if (colon != NULL) {
        *colon = 0;
        it.port = (uint16_t)atoi(colon + 1);
    }
    it.host = ntohl(inet_addr(words));
    return it;
}

/* Bytes by two digits each. */
static void read_bytes(const char *digits, uint8_t *bytes, size_t count)
{
    unsigned byte;
    for (size_t k = 0; k < count; k++) {
        if (sscanf(digits + 2 * k, "%2x", &byte) != 1)
            stop(digits);
        bytes[k] = (uint8_t)byte;
    }
}

static void read_key(order *it, const char *digits)
{
    read_bytes(digits, it->key, sizeof it->key);
    it->has_key = true;
}

static void read_word(order *it, char *word)
{
    const struct {
        const char *name;
        unsigned long *number;
    } numbers[] = {{"hosts", &it->hosts}, {"ports", &it->ports}, {"rate", &it->rate},
                   {"count", &it->count}, {"seed", &it->seed},   {"gateway", &it->gateway},
                   {"size", &it->size},   {"network", &it->network}};
    char *value = strchr(word, '=');
    if (value == NULL)
        stop(word);
    *value++ = 0;
    if (strcmp(word, "to") == 0)
        it->to = place_of(value);
    else if (strcmp(word, "host") == 0)
        it->first.host = place_of(value).host;
    else if (strcmp(word, "for") == 0)
        read_bytes(value, it->receiver, sizeof it->receiver);
    else if (strcmp(word, "key") == 0)
        read_key(it, value);
    else if (strcmp(word, "first") == 0)
        it->first.port = (uint16_t)atoi(value);
    for (size_t k = 0; k < sizeof numbers / sizeof *numbers; k++)
        if (strcmp(word, numbers[k].name) == 0)
            *numbers[k].number = strtoul(value, NULL, 10);
}

static order read_order(int count, char **words)
{
    order it = {.hosts = 1, .ports = 1, .rate = 1000, .count = 1, .seed = 1, .size = HEADER + 16};
    if (count < 3)
        stop("flood sockets|forged KIND name=value ..");
    it.is_forged = strcmp(words[1], "forged") == 0;
    it.kind = words[2];
    for (int k = 3; k < count; k++)
        read_word(&it, words[k]);
    if (it.hosts * it.ports == 0 || (!it.is_forged && it.hosts * it.ports > MOST_PLACES))
        stop("places");
    return it;
}

/* The place that has a number: the addresses by turns, then their next port. */
static place place_at(const order *it, unsigned long number)
{
    place at = it->first;
    at.host += (uint32_t)(number % it->hosts);
    at.port = (uint16_t)(at.port + number / it->hosts % it->ports);
    return at;
}

/* ---- Datagrams ---- */

static void put16(uint8_t *at, unsigned value)
{
    at[0] = (uint8_t)(value >> 8);
    at[1] = (uint8_t)value;
}

static void put32(uint8_t *at, uint32_t value)
{
    put16(at, value >> 16);
    put16(at + 2, value & 0xFFFF);
}

static uint64_t made_up(uint64_t *seed)
{
    *seed ^= *seed << 13;
    *seed ^= *seed >> 7;
    *seed ^= *seed << 17;
    return *seed;
}

/* The node by which a place is named. */
static void put_node(const order *it, uint8_t node[NODE], const place *from)
{
    uint8_t bytes[NODE];
    put32(bytes, from->host);
    put16(bytes + 4, from->port);
    uint64_t hash = siphash(it->key, bytes, sizeof bytes);
    for (int k = 1; it->has_key && k < NODE; k++)
        bytes[k] = (uint8_t)(hash >> 8 * k);
    if (it->has_key)
        bytes[0] = KEYED;
    memcpy(node, bytes, NODE);
}

/* A packet to all of a socket. */
static size_t to_all(const order *it, uint8_t *bytes, const place *from, unsigned socket, unsigned type, size_t length)
{
    memset(bytes, 0, length);
    put16(bytes, 0xFFFF);
    put16(bytes + AT_LENGTH, (unsigned)length);
    bytes[AT_TYPE] = (uint8_t)type;
    memset(bytes + AT_TO_NODE, 0xFF, NODE);
    put16(bytes + AT_TO_SOCKET, socket);
    put_node(it, bytes + AT_FROM_NODE, from);
    put16(bytes + AT_FROM_SOCKET, socket);
    return length;
}

/* The same, for one client. */
static size_t to_one(const order *it, uint8_t *bytes, const place *from, unsigned socket)
{
    size_t length = to_all(it, bytes, from, socket, 4, HEADER + 16);
    memcpy(bytes + AT_TO_NODE, it->receiver, NODE);
    return length;
}

/* Something that a client, or a machine on an Ethernet, says to all. */
static size_t chat(const order *it, uint8_t *bytes, const place *from)
{
    size_t length = to_all(it, bytes, from, CHAT, 4, it->size);
    put32(bytes + AT_FROM_NETWORK, (uint32_t)it->network);
    return length;
}

/* The same in a frame of the kind that only has its length in front. */
static size_t frame(const order *it, uint8_t *bytes, const place *from)
{
    size_t length = chat(it, bytes + FRAME, from);
    memset(bytes, 0xFF, NODE);
    memset(bytes + NODE, STATION, NODE);
    put16(bytes + FRAME - 2, (unsigned)length);
    return FRAME + length;
}

static size_t registration(const order *it, uint8_t *bytes, const place *from)
{
    size_t length = to_all(it, bytes, from, TUNNEL, 0, HEADER);
    memset(bytes + AT_TO_NODE, 0, NODE);
    memset(bytes + AT_FROM_NODE, 0, NODE);
    return length;
}

/* An answer to a ping that one hasn't seen. */
static size_t guessed_answer(const order *it, uint8_t *bytes, const place *from, uint64_t *seed)
{
    size_t length = to_all(it, bytes, from, TUNNEL, 0, HEADER);
    bytes[AT_TO_NODE] = COOKIE;
    put32(bytes + AT_TO_NODE + 1, (uint32_t)made_up(seed));
    bytes[AT_TO_NODE + 5] = (uint8_t)made_up(seed);
    return length;
}

/* A request of SAP for all services of all types. */
static size_t sap_request(const order *it, uint8_t *bytes, const place *from)
{
    size_t length = to_all(it, bytes, from, SAP, 0, HEADER + 4);
    put16(bytes + HEADER, 1);
    put16(bytes + HEADER + 2, 0xFFFF);
    return length;
}

/* A request of RIP for the routes to all networks. */
static size_t rip_request(const order *it, uint8_t *bytes, const place *from)
{
    size_t length = to_all(it, bytes, from, RIP, 1, HEADER + 10);
    put16(bytes + HEADER, 1);
    memset(bytes + HEADER + 2, 0xFF, 8);
    return length;
}

static size_t junk(uint8_t *bytes, uint64_t *seed)
{
    size_t length = made_up(seed) % LONGEST;
    for (size_t k = 0; k < length; k++)
        bytes[k] = (uint8_t)made_up(seed);
    return length;
}

static size_t datagram(const order *it, const char *kind, uint8_t *bytes, const place *from, uint64_t *seed);

/* One of the others, some bytes of which are altered, and which may be cut. */
static size_t mutated(const order *it, uint8_t *bytes, const place *from, uint64_t *seed)
{
    static const char *const kinds[] = {"register", "speak", "guess", "sap", "rip"};
    size_t length = datagram(it, kinds[made_up(seed) % 5], bytes, from, seed);
    for (uint64_t left = 1 + made_up(seed) % 4; left > 0; left--)
        bytes[made_up(seed) % length] = (uint8_t)made_up(seed);
    return made_up(seed) % 4 == 0 ? made_up(seed) % length : length;
}

static size_t datagram(const order *it, const char *kind, uint8_t *bytes, const place *from, uint64_t *seed)
{
    if (strcmp(kind, "register") == 0)
        return registration(it, bytes, from);
    if (strcmp(kind, "speak") == 0)
        return to_all(it, bytes, from, GAME, 4, HEADER + 16);
    if (strcmp(kind, "chat") == 0)
        return chat(it, bytes, from);
    if (strcmp(kind, "frame") == 0)
        return frame(it, bytes, from);
    if (strcmp(kind, "tell") == 0)
        return to_one(it, bytes, from, CHAT);
    if (strcmp(kind, "ping") == 0)
        return to_all(it, bytes, from, TUNNEL, 0, HEADER);
    if (strcmp(kind, "guess") == 0)
        return guessed_answer(it, bytes, from, seed);
    if (strcmp(kind, "sap") == 0)
        return sap_request(it, bytes, from);
    if (strcmp(kind, "rip") == 0)
        return rip_request(it, bytes, from);
    if (strcmp(kind, "junk") == 0)
        return junk(bytes, seed);
    return mutated(it, bytes, from, seed);
}

/* ---- Sending ---- */

static struct sockaddr_in to_system(const place *at)
{
    struct sockaddr_in it = {0};
    it.sin_family = AF_INET;
    it.sin_addr.s_addr = htonl(at->host);
    it.sin_port = htons(at->port);
    return it;
}

/* A socket for each place, or one that writes the headers of IP itself. */
static void open_all(const order *it, int *sockets)
{
    struct rlimit most;
    if (it->is_forged) {
        sockets[0] = socket(AF_INET, SOCK_RAW, IPPROTO_RAW);
        if (sockets[0] < 0)
            stop("a raw socket");
        return;
    }
    if (getrlimit(RLIMIT_NOFILE, &most) == 0) {
        most.rlim_cur = most.rlim_max;
        (void)!setrlimit(RLIMIT_NOFILE, &most);
    }
    for (unsigned long k = 0; k < it->hosts * it->ports; k++) {
        place at = place_at(it, k);
        struct sockaddr_in from = to_system(&at);
        sockets[k] = socket(AF_INET, SOCK_DGRAM, 0);
        if (sockets[k] < 0 || bind(sockets[k], (const struct sockaddr *)&from, sizeof from) != 0)
            stop("a socket");
    }
}

/* Sends a datagram in the name of a place. The system writes the sums of IP; a datagram needs none. */
static void send_forged(int fd, const order *it, const place *from, const uint8_t *bytes, size_t length)
{
    uint8_t whole[IP_HEADER + UDP_HEADER + LONGEST] = {0x45, [8] = 64, [9] = IPPROTO_UDP};
    uint8_t *udp = whole + IP_HEADER;
    struct sockaddr_in to = to_system(&it->to);
    put16(whole + 2, (unsigned)(IP_HEADER + UDP_HEADER + length));
    put32(whole + 12, from->host);
    put32(whole + 16, it->to.host);
    put16(udp, from->port);
    put16(udp + 2, it->to.port);
    put16(udp + 4, (unsigned)(UDP_HEADER + length));
    memcpy(udp + UDP_HEADER, bytes, length);
    (void)!sendto(fd, whole, IP_HEADER + UDP_HEADER + length, 0, (const struct sockaddr *)&to, sizeof to);
}

static void send_one(const order *it, const int *sockets, unsigned long number, uint64_t *seed)
{
    uint8_t bytes[LONGEST];
    struct sockaddr_in to = to_system(&it->to);
    place from = place_at(it, number);
    size_t length = datagram(it, it->kind, bytes, &from, seed);
    if (it->is_forged)
        send_forged(sockets[0], it, &from, bytes, length);
    else
        (void)!sendto(sockets[number % (it->hosts * it->ports)], bytes, length, 0, (const struct sockaddr *)&to, sizeof to);
}

/* ---- Time ---- */

static double now(void)
{
    struct timespec at;
    clock_gettime(CLOCK_MONOTONIC, &at);
    return (double)at.tv_sec + (double)at.tv_nsec / 1e9;
}

static void wait_for(double seconds)
{
    struct timespec at = {(time_t)seconds, (long)((seconds - (double)(time_t)seconds) * 1e9)};
    nanosleep(&at, NULL);
}

/* Whether much has come for the gateway that it hasn't heard yet. */
static bool is_busy(const order *it)
{
    char name[64], line[256];
    unsigned port, queued;
    bool is_much = false;
    snprintf(name, sizeof name, "/proc/%lu/net/udp", it->gateway);
    FILE *file = it->gateway != 0 ? fopen(name, "r") : NULL;
    while (file != NULL && fgets(line, sizeof line, file) != NULL)
        if (sscanf(line, "%*s %*8x:%x %*8x:%*x %*x %*8x:%x", &port, &queued) == 2 && port == it->to.port)
            is_much = is_much || queued > MOST_WAITING;
    if (file != NULL)
        fclose(file);
    return is_much;
}

/* Waits while the gateway has much to do. Returns by how many seconds that delays the rest. */
static double wait_for_gateway(const order *it)
{
    double began = now();
    if (!is_busy(it))
        return 0;
    do
        wait_for(0.001);
    while (is_busy(it) && now() - began < MOST_PATIENCE);
    return now() - began;
}

int main(int count, char **words)
{
    static int sockets[MOST_PLACES];
    order it = read_order(count, words);
    uint64_t seed = it.seed * 0x9E3779B97F4A7C15u + 1;
    open_all(&it, sockets);
    double began = now(), due = began;
    for (unsigned long k = 0; k < it.count; k++) {
        if (k % BETWEEN_LOOKS == 0)
            due += wait_for_gateway(&it);
        if (due > now())
            wait_for(due - now());
        send_one(&it, sockets, k, &seed);
        due += 1.0 / (double)it.rate;
    }
    double passed = now() - began;
    printf("%lu datagrams in %.2f s, %.0f a second\n", it.count, passed, (double)it.count / passed);
    return 0;
}

/* A server for DOSBox on POSIX: cc -O2 server.c libipxr.c -o server
 *
 *     ./server 2130          and in each DOSBox IPXNET CONNECT ADDRESS 2130
 *
 * All players are on one network, where a router answers what programs ask of one. Each gets a node that tells nobody its address
 * (ipxr_keyed.h). */
#include <arpa/inet.h>
#include <poll.h>
#include <stdio.h>
#include <stdlib.h>
#include <string.h>
#include <sys/socket.h>
#include <time.h>

#include "ipxr_keyed.h"

/* Bytes of the longest packet, since DOSBox has room for no more; milliseconds; and the first bytes of nodes and of cookies. Only so many
 * registrations count in a second: each may bring its place four datagrams, and a place may be forged. */
enum { LONGEST = 1424, SECOND = 1000, NODE = 2, COOKIE = 6, MOST_REGISTER = 16 };

static int udp;
static uint64_t key[2];
static ipxr router = IPXR_NONE;
static ipxr_keyed tunnel = IPXR_KEYED_NONE;
static int registered; /* how many did in this second */

/* ---- Nodes and cookies: hashes that nobody guesses who doesn't know the key (SipHash-2-4 of 17 bytes) ---- */

static uint64_t turned(uint64_t word, int by) { return word << by | word >> (64 - by); }

static void mix(uint64_t v[4], int rounds)
{
    while (rounds-- > 0) {
        v[0] += v[1], v[2] += v[3];
        v[1] = turned(v[1], 13) ^ v[0], v[3] = turned(v[3], 16) ^ v[2];
        v[0] = turned(v[0], 32) + v[3], v[2] += v[1];
        v[3] = turned(v[3], 21) ^ v[0], v[1] = turned(v[1], 17) ^ v[2];
        v[2] = turned(v[2], 32);
    }
}

static uint64_t hash(const uint64_t words[3])
{
    uint64_t v[4] = {key[0] ^ 0x736F6D6570736575, key[1] ^ 0x646F72616E646F6D, key[0] ^ 0x6C7967656E657261, key[1] ^ 0x7465646279746573};
    for (int k = 0; k < 3; k++) {
        v[3] ^= words[k];
        mix(v, 2);
        v[0] ^= words[k];
    }
    v[2] ^= 0xFF;
    mix(v, 4);
    return v[0] ^ v[1] ^ v[2] ^ v[3];
}

/* Six bytes of a place, of what they are, which is their first byte, and of a minute. */
static void put_hash(uint8_t hashed[6], uint8_t first, const uint8_t place[6], uint64_t minute)
{
    uint64_t words[3] = {0, minute, (uint64_t)17 << 56 | first};
    memcpy(words, place, 6);
    words[0] = hash(words);
    hashed[0] = first;
    memcpy(hashed + 1, words, 5);
}

static ipxr_keyed_sender sender_at(const struct sockaddr_in *from, uint64_t minute)
{
    ipxr_keyed_sender sender = {0};
    memcpy(sender.place, &from->sin_addr, 4);
    memcpy(sender.place + 4, &from->sin_port, 2);
    put_hash(sender.node, NODE, sender.place, 0);
    put_hash(sender.current, COOKIE, sender.place, minute);
    put_hash(sender.previous, COOKIE, sender.place, minute - 1);
    memcpy(sender.former, sender.node, sizeof sender.node);
    sender.may_register = registered < MOST_REGISTER;
    return sender;
}

/* ---- What goes out ---- */

static void send_to(const uint8_t place[6], const uint8_t *bytes, size_t length)
{
    struct sockaddr_in to = {0};
    to.sin_family = AF_INET;
    memcpy(&to.sin_addr, place, 4);
    memcpy(&to.sin_port, place + 4, 2);
    sendto(udp, bytes, length, 0, (struct sockaddr *)&to, sizeof to); /* what is lost is lost, as on a cable */
}

static void send_owns(void)
{
    ipxr_own own;
    for (size_t k = 0; ipxr_keyed_own(&tunnel, k, &own) == 0; k++)
        send_to(own.place, own.bytes, sizeof own.bytes);
}

static void send_packet(const uint8_t *bytes, size_t length)
{
    uint8_t place[6];
    for (size_t k = 0; ipxr_keyed_receiver(&tunnel, k, place) == 0; k++)
        send_to(place, bytes, length);
}

static void send_routers(void)
{
    uint8_t bytes[LONGEST];
    ipxr_packet_sent sent;
    for (size_t k = 0; ipxr_get(&router, k, &sent, bytes, sizeof bytes) == 0; k++) {
        ipxr_keyed_send(&tunnel, sent.node);
        send_packet(bytes, sent.length);
    }
    ipxr_clear(&router);
}

/* ---- What comes in ---- */

static void hear(time_t now)
{
    uint8_t bytes[LONGEST + 1];
    struct sockaddr_in from;
    socklen_t size = sizeof from;
    ipxr_keyed_sender sender;
    ssize_t length = recvfrom(udp, bytes, sizeof bytes, 0, (struct sockaddr *)&from, &size);
    if (length < 30 || length > LONGEST)
        return;
    bytes[4] = 0; /* DOSBox leaves here what its program wrote */
    sender = sender_at(&from, (uint64_t)now / 60);
    if (ipxr_keyed_hear(&tunnel, &sender, bytes, (size_t)length) == IPXR_REGISTERS)
        registered++;
    send_owns();
    send_packet(bytes, ipxr_keyed_carried(&tunnel));
    if (ipxr_keyed_is_heard(&tunnel))
        ipxr_packet(&router, 0, bytes, ipxr_keyed_carried(&tunnel));
}

static void second(void)
{
    registered = 0;
    ipxr_keyed_second(&tunnel);
    send_owns();
    ipxr_second(&router);
}

static int begin(uint16_t port)
{
    static const ipxr_port network = {0x10, {2, 0, 0, 0, 0, 1}, 1, LONGEST, IPXR_NO_LIMIT, IPXR_NO_LIMIT};
    static const ipxr_keyed_setting setting = {0x10, {2, 0, 0, 0, 0, 1}, 64, 16, 1024, 64};
    struct sockaddr_in here = {0};
    FILE *chance = fopen("/dev/urandom", "rb"); /* (if the key is kept, players keep their nodes when the server starts again) */
    if (!chance || fread(key, sizeof key, 1, chance) != 1 || fclose(chance) != 0)
        return -1;
    here.sin_family = AF_INET;
    here.sin_port = htons(port);
    udp = socket(AF_INET, SOCK_DGRAM, 0);
    if (udp < 0 || bind(udp, (struct sockaddr *)&here, sizeof here) != 0)
        return -1;
    return ipxr_make(&router, &network, 1) < 0 || ipxr_keyed_make(&tunnel, &setting) < 0 ? -1 : 0;
}

int main(int count, char **words)
{
    if (begin((uint16_t)(count > 1 ? atoi(words[1]) : 213)) < 0) {
        perror("server");
        return 1;
    }
    ipxr_start(&router);
    for (time_t told = time(NULL);;) {
        struct pollfd it = {udp, POLLIN, 0};
        time_t now;
        if (poll(&it, 1, SECOND) > 0)
            hear(time(NULL));
        now = time(NULL);
        if (now != told)
            second();
        told = now;
        send_routers();
    }
}

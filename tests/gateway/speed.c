/* How many packets a second the gateway hands on, from one client of DOSBox' tunnel to another on another network, and to all on its own;
 * by turns, how many a program that only hands on what it gets, by a call for each datagram. And how much of a processor a packet takes each.
 *
 *     speed PROCESS PORT PORT PORT    the gateway's number, and its ports on 127.0.0.1: of the networks with a client, with 9 and with 65 */
#define _POSIX_C_SOURCE 200809L
#include <arpa/inet.h>
#include <signal.h>
#include <stdbool.h>
#include <stdint.h>
#include <stdio.h>
#include <stdlib.h>
#include <string.h>
#include <sys/socket.h>
#include <sys/time.h>
#include <sys/wait.h>
#include <time.h>
#include <unistd.h>

enum { HEADER = 30, MOST = 2048, MOST_CLIENTS = 65, ROUNDS = 15 };

static const double SECONDS = 0.3;

/* What the first client of the last network sends to the one of the first; or a network's first client to all others there. How many bytes, how
 * many packets are under way at once, and to how many clients each goes. */
typedef struct load {
    const char *name;
    size_t size;
    int at_once;
    int receivers;
} load;

static const load LOADS[] = {
    {"1 of 576 bytes at a time", 576, 1, 1},
    {"16 of 576 bytes at a time", 576, 16, 1},
    {"16 of 62 bytes at a time", 62, 16, 1},
    {"broadcasts of 62 bytes to 8, 4 at a time", 62, 4, 8},
    {"broadcasts of 62 bytes to 64, 2 at a time", 62, 2, 64},
};

enum { ALL_LOADS = sizeof LOADS / sizeof *LOADS };

/* A client: its socket, the gateway's port, and its network and node. */
typedef struct client {
    int fd;
    struct sockaddr_in gateway;
    uint8_t address[10];
} client;

/* ---- Sockets ---- */

static struct sockaddr_in loopback(unsigned port)
{
    struct sockaddr_in at = {0};
    at.sin_family = AF_INET;
    at.sin_addr.s_addr = htonl(INADDR_LOOPBACK);
    at.sin_port = htons((uint16_t)port);
    return at;
}

static int opened(void)
{
    struct sockaddr_in at = loopback(0);
    struct timeval patience = {1, 0};
    int fd = socket(AF_INET, SOCK_DGRAM, 0);
    setsockopt(fd, SOL_SOCKET, SO_RCVTIMEO, &patience, sizeof patience);
    return bind(fd, (struct sockaddr *)&at, sizeof at) == 0 ? fd : -1;
}

static struct sockaddr_in place_of(int fd)
{
    struct sockaddr_in at = {0};
    socklen_t size = sizeof at;
    getsockname(fd, (struct sockaddr *)&at, &size);
    return at;
}

static void send_to(int fd, const struct sockaddr_in *to, const uint8_t *bytes, size_t length)
{
    sendto(fd, bytes, length, 0, (const struct sockaddr *)to, sizeof *to);
}

/* ---- Clients ---- */

/* Answers a ping of the gateway's: for all, from the node to which the answer goes. Returns whether it was one. */
static bool answers(const client *it, const uint8_t *bytes)
{
    uint8_t answer[HEADER] = {0xFF, 0xFF, 0, HEADER, [17] = 2, [29] = 2};
    if (bytes[16] != 0 || bytes[17] != 2 || bytes[10] != 0xFF)
        return false;
    memcpy(answer + 10, bytes + 22, 6);
    memcpy(answer + 18, it->address, 10);
    send_to(it->fd, &it->gateway, answer, HEADER);
    return true;
}

/* The same of all that has come to some. */
static void answer_all(const client *list, int count)
{
    uint8_t bytes[MOST];
    for (int k = 0; k < count;)
        if (recv(list[k].fd, bytes, sizeof bytes, MSG_DONTWAIT) >= HEADER)
            answers(&list[k], bytes);
        else
            k++;
}

/* Registers with the gateway, learns the address that it gives, and answers its ping. */
static bool enters(client *it, unsigned port)
{
    uint8_t bytes[MOST] = {0xFF, 0xFF, 0, HEADER, [17] = 2, [29] = 2};
    it->fd = opened();
    it->gateway = loopback(port);
    send_to(it->fd, &it->gateway, bytes, HEADER);
    while (recv(it->fd, bytes, sizeof bytes, 0) >= HEADER)
        if (bytes[17] == 2 && bytes[10] != 0xFF)
            memcpy(it->address, bytes + 6, 10);
        else if (answers(it, bytes))
            return true;
    return false;
}

/* ---- Measuring ---- */

static double now(void)
{
    struct timespec at;
    clock_gettime(CLOCK_MONOTONIC, &at);
    return (double)at.tv_sec + (double)at.tv_nsec / 1e9;
}

/* Seconds of a processor that a process has had. */
static double worked(pid_t process)
{
    char name[40];
    unsigned long long nanoseconds = 0;
    snprintf(name, sizeof name, "/proc/%ld/schedstat", (long)process);
    FILE *file = fopen(name, "r");
    if (file == NULL || fscanf(file, "%llu", &nanoseconds) != 1)
        nanoseconds = 0;
    if (file != NULL)
        fclose(file);
    return (double)nanoseconds / 1e9;
}

/* What is measured: packets a second, and microseconds of a processor for each. */
typedef struct figures {
    double packets, work;
} figures;

/* Waits until a packet of that size has come to each, behind pings. Returns false where one is lost. */
static bool has_come(const client *to, int count, size_t size)
{
    uint8_t heard[MOST];
    for (int k = 0; k < count;) {
        ssize_t length = recv(to[k].fd, heard, sizeof heard, 0);
        if (length < 0)
            return false;
        if ((size_t)length == size)
            k++;
        else
            answers(&to[k], heard);
    }
    return true;
}

/* Packets from one client by some place, where a process hands them on, to others. */
static figures measured(const client *from, const struct sockaddr_in *by, pid_t process, const client *to, const load *what,
                        const uint8_t *packet)
{
    long count = 0;
    int under_way = 0;
    double before = worked(process), began = now(), passed = 0;
    while (passed < SECONDS) {
        for (; under_way < what->at_once; under_way++)
            send_to(from->fd, by, packet, what->size);
        if (has_come(to, what->receivers, what->size)) {
            under_way--;
            count++;
        } else {
            under_way = 0; /* (lost: begin again) */
        }
        passed = now() - began;
    }
    return (figures){(double)count / passed, (worked(process) - before) * 1e6 / (double)count};
}

/* A program that only hands on what it gets. */
static pid_t reflecting(int fd, const client *to, int count)
{
    pid_t child = fork();
    uint8_t bytes[MOST];
    struct sockaddr_in places[MOST_CLIENTS];
    for (int k = 0; child == 0 && k < count; k++)
        places[k] = place_of(to[k].fd);
    while (child == 0) {
        ssize_t length = recv(fd, bytes, sizeof bytes, 0);
        for (int k = 0; length > 0 && k < count; k++)
            send_to(fd, &places[k], bytes, (size_t)length);
    }
    return child;
}

/* ---- Rounds ---- */

static int by_size(const void *a, const void *b)
{
    double one = *(const double *)a, other = *(const double *)b;
    return (one > other) - (one < other);
}

static double middle(double *list)
{
    qsort(list, ROUNDS, sizeof *list, by_size);
    return list[ROUNDS / 2];
}

/* All clients: one on the first network, some on the second, most on the third. */
static client first[1], second[9], third[MOST_CLIENTS];

/* Plays a load, and prints the figure in the middle of each, and of the ratios. */
static void play(pid_t gateway, const load *what)
{
    const client *from = what->receivers == 8 ? second : third, *to = what->receivers == 1 ? first : from + 1;
    uint8_t packet[MOST] = {0xFF, 0xFF, (uint8_t)(what->size >> 8), (uint8_t)what->size, 0, 4, [16] = 0x40, [28] = 0x40};
    double packets[2][ROUNDS], work[2][ROUNDS], ratio[ROUNDS];
    int between = opened();
    struct sockaddr_in place = place_of(between);
    pid_t child = reflecting(between, to, what->receivers);
    memcpy(packet + 6, to->address, 10);
    if (what->receivers > 1)
        memset(packet + 10, 0xFF, 6);
    memcpy(packet + 18, from->address, 10);
    for (int round = 0; round < ROUNDS; round++) {
        answer_all(first, 1);
        answer_all(second, 9);
        answer_all(third, MOST_CLIENTS);
        figures one = measured(from, &from->gateway, gateway, to, what, packet), other = measured(from, &place, child, to, what, packet);
        packets[0][round] = one.packets;
        packets[1][round] = other.packets;
        work[0][round] = one.work;
        work[1][round] = other.work;
        ratio[round] = one.packets / other.packets;
    }
    kill(child, SIGKILL);
    waitpid(child, NULL, 0);
    close(between);
    printf("%s: gateway %.0f a second, %.1f us of a processor each; reflector %.0f, %.1f us; ratio %.2f\n", what->name, middle(packets[0]),
           middle(work[0]), middle(packets[1]), middle(work[1]), middle(ratio));
    fflush(stdout);
}

static bool enter(client *list, int count, const char *port)
{
    for (int k = 0; k < count; k++)
        if (!enters(&list[k], (unsigned)atoi(port)))
            return false;
    return true;
}

int main(int count, char **words)
{
    if (count != 5)
        return 64;
    if (!enter(first, 1, words[2]) || !enter(second, 9, words[3]) || !enter(third, MOST_CLIENTS, words[4]))
        return 1;
    for (int k = 0; k < ALL_LOADS; k++)
        play((pid_t)atol(words[1]), &LOADS[k]);
    return 0;
}

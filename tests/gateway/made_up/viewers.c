#include "viewers.h"

#include <errno.h>
#include <stdio.h>
#include <string.h>

#include "chance.h"
#include "descriptors.h"
#include "play.h"
#include "world.h"

enum { MOST_ASKED_HERE = 1200 };

static const char *const SECTIONS[] = {"", " links", " clients", " stations", " routes", " services", " counts", " events", " nothing"};
static const char *const FORMS[] = {"", "", " json", " columns", " prometheus", " verse"};

static void somebody_comes(void)
{
    int fd = descriptor_any(STATUS);
    address nobody = {.port = 0};
    if (fd >= 0)
        somebody_calls(descriptor_at(fd, STATUS), &nobody);
}

static unsigned any_own_network(void)
{
    return the_gate->networks[below((uint32_t)the_gate->count)].set->network;
}

/* A station of the gateway's networks, or of others, to ping. */
static void write_ping(char *words, size_t room)
{
    uint8_t node[NODE];
    unsigned number = one_in(4) ? 0x100 + below(60) : any_own_network();
    (one_in(2) ? any_place : any_node)(node);
    snprintf(words, room, "ping %X.%02X%02X%02X%02X%02X%02X%s\n", number, node[0], node[1], node[2], node[3], node[4], node[5],
             one_in(3) ? ".456" : one_in(9) ? ".0" : "");
}

static void write_question(char *words, size_t room)
{
    switch (below(10)) {
    case 0:
        write_ping(words, room);
        break;
    case 1:
        snprintf(words, room, "trace %X\n", one_in(2) ? 0x100 + below(60) : any_own_network());
        break;
    case 2:
        snprintf(words, room, one_in(3) ? "reload\n" : one_in(2) ? "\n" : "hello\n");
        break;
    case 3:
    case 5:
        snprintf(words, room, "show links json\n");
        break;
    case 4:
        memset(words, 'x', room - 1);
        words[room - 1] = '\0';
        break;
    default:
        snprintf(words, room, "show%s%s\n", SECTIONS[below(9)], FORMS[below(6)]);
    }
}

/* Asks, all of it or in pieces. */
static void somebody_asks(void)
{
    char words[MOST_ASKED_HERE];
    int fd = descriptor_any(VIEWER);
    if (fd < 0)
        return;
    write_question(words, one_in(20) ? sizeof words : 60);
    size_t length = strlen(words);
    told("viewer %d: %s", fd, words);
    bytes_come(descriptor_at(fd, VIEWER), (const uint8_t *)words, one_in(6) ? below((uint32_t)length + 1) : length);
}

/* Asks for the longest list that there is, and takes little of it: it may be another one when he takes the rest. */
static void somebody_is_slow(void)
{
    static const char LINKS[] = "show links json\n";
    int fd = descriptor_any(VIEWER);
    if (fd < 0 || descriptor_at(fd, VIEWER)->taken > 0)
        return;
    told("viewer %d is slow", fd);
    bytes_come(descriptor_at(fd, VIEWER), (const uint8_t *)LINKS, sizeof LINKS - 1);
    descriptor_at(fd, VIEWER)->takes = below(4000);
}

static void somebody_reads(void)
{
    int fd = descriptor_any(VIEWER);
    if (fd >= 0)
        descriptor_at(fd, VIEWER)->takes += below(3) * between(1, one_in(2) ? 60000 : 6000);
}

static void somebody_vanishes(void)
{
    int fd = descriptor_any(VIEWER);
    if (fd < 0)
        return;
    descriptor_at(fd, VIEWER)->stage = CUT;
    descriptor_at(fd, VIEWER)->fault = one_in(2) ? 0 : ECONNRESET;
}

void viewers_act(void)
{
    static void (*const ACTS[])(void) = {somebody_comes, somebody_asks, somebody_is_slow, somebody_reads, somebody_vanishes};
    static const unsigned WEIGHTS[] = {5, 6, 3, 4, 1};
    ACTS[chance_weighted(WEIGHTS, sizeof WEIGHTS / sizeof *WEIGHTS)]();
}

void somebody_reloads(void)
{
    static const char RELOAD[] = "reload\n";
    int fd = descriptor_any(VIEWER);
    if (fd >= 0)
        bytes_come(descriptor_at(fd, VIEWER), (const uint8_t *)RELOAD, sizeof RELOAD - 1);
    else
        somebody_comes();
}

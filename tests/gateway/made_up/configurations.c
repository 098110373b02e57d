/* (for files in memory) */
#define _GNU_SOURCE
#include "configurations.h"

#include <stdarg.h>
#include <stdio.h>
#include <string.h>

#include "chance.h"
#include "configuration/settings.h"
#include "files.h"
#include "play.h"

enum { MOST_NETWORKS = 33, USUAL_NETWORKS = 6, MOST_OF_ONE = 12, USUAL_OF_ONE = 5, MOST_LINE = 400, MOST_BELOW = 6, MOST_TEXT = 1 << 17 };

/* A link: its words, and the lines below it. */
typedef struct made_link {
    char words[MOST_LINE];
    char below[MOST_BELOW][MOST_LINE];
    size_t count;
} made_link;

/* A network: its number, cost, longest packet and shares; its node; its links, of which one stands in its own line unless it is of
 * several; and what is extended. */
typedef struct made_network {
    unsigned number;
    unsigned cost, longest;
    char shares[24], node[24], extend[MOST_LINE];
    bool is_of_several;
    made_link links[MOST_OF_ONE];
    size_t count;
} made_network;

static made_network networks[MOST_NETWORKS];
static size_t count;
static bool is_large; /* there are many networks and links, with long names */
static char text[MOST_TEXT];

#define PICK(list) (list[below((uint32_t)(sizeof(list) / sizeof *(list)))])

/* ---- Words ---- */

static const char *const KINDS[] = {"raw", "ethernet2", "llc", "snap", "auto", "auto"};
static const char *const NODES[] = {"", "", "", "", " node 02005E000001", " node 02005E000002", " node 02:00:5E:00:00:03"};

static void below_line(made_link *it, const char *format, unsigned a, unsigned b)
{
    if (it->count < MOST_BELOW)
        snprintf(it->below[it->count++], MOST_LINE, format, a, b);
}

/* Packets a second, few or many. */
static unsigned any_rate(void)
{
    static const unsigned RATES[] = {1, 2, 3, 8, 20, 50, 100, 800, 5000, 1000000};
    return PICK(RATES);
}

static void lines_of_tunnel(made_link *it)
{
    static const char *const RANGES[] = {"allow 10.0.0.0/8", "allow 10.0.0.0/30 127.0.0.1", "trust 10.0.0.1", "trust 10.0.0.0/30",
                                         "trust 10.0.0.8/29"};
    if (one_in(3))
        below_line(it, one_in(2) ? "clients %u" : "clients %u 1", between(1, one_in(2) ? 6 : 60), 0);
    if (one_in(4))
        below_line(it, "clients %u %u", 12, between(1, 12));
    if (one_in(3))
        below_line(it, PICK(RANGES), 0, 0);
    if (one_in(4))
        below_line(it, one_in(5) ? "strangers none" : "strangers %u", any_rate(), 0);
    if (one_in(4))
        below_line(it, "line %u", one_in(3) ? 64 : 256, 0);
    if (one_in(5))
        below_line(it, "nodes by-address", 0, 0);
}

static void lines_of_any(made_link *it)
{
    unsigned rate = any_rate();
    if (one_in(3))
        below_line(it, one_in(4) ? "rate none" : one_in(2) ? "rate %u" : "rate %u %u", rate, between(1, rate < 60 ? rate : 60));
}

static void make_dosbox(made_link *it)
{
    static const char *const PLACES[] = {"0", "0", "127.0.0.1:0", "2130", "2131", "2132", "0.0.0.0:2133", "10.0.0.99:2134", "2140"};
    snprintf(it->words, MOST_LINE, "dosbox %s", is_large ? "0" : PICK(PLACES));
    lines_of_tunnel(it);
}

/* A link to a machine whose name is as long as names may be. */
static void make_long_name(made_link *it)
{
    char name[HOST_ROOM];
    memset(name, 'n', sizeof name);
    for (size_t k = 60; k < sizeof name; k += 60)
        name[k] = '.';
    name[HOST_ROOM - 1] = '\0';
    snprintf(it->words, MOST_LINE, "qemu-udp 0 %s:%u %s", name, between(1, 65535), PICK(KINDS));
}

static void make_udp(made_link *it)
{
    static const char *const LOCALS[] = {"0", "5001", "5002", "5003", "0.0.0.0:5004", "10.0.0.99:5005", "127.0.0.1:0"};
    static const char *const REMOTES[] = {"127.0.0.1:6001",     "127.0.0.1:6002",     "127.0.0.1:30001",
                                          "b.example.net:6003", "c.example.net:6001", "10.0.0.3:6001"};
    if (is_large)
        make_long_name(it);
    else if (one_in(8))
        snprintf(it->words, MOST_LINE, "qemu-udp [::1]:%u [::1]:%u %s", 5010 + below(3), 6010 + below(2), PICK(KINDS));
    else
        snprintf(it->words, MOST_LINE, "qemu-udp %s %s %s", PICK(LOCALS), PICK(REMOTES), PICK(KINDS));
}

static void make_tcp(made_link *it)
{
    static const char *const LISTENS[] = {"listen 0", "listen 5101", "listen 5102", "listen [::1]:5103", "listen 127.0.0.1:0"};
    static const char *const CONNECTS[] = {"connect 127.0.0.1:5201", "connect d.example.net:5202", "connect [::1]:5203"};
    snprintf(it->words, MOST_LINE, "qemu-tcp %s %s", is_large ? LISTENS[0] : one_in(3) ? PICK(CONNECTS) : PICK(LISTENS), PICK(KINDS));
}

static void make_group(made_link *it)
{
    static const char *const GROUPS[] = {"230.0.0.1:1234", "230.0.0.1:1234 via 10.0.0.99", "239.1.2.3:5600", "230.0.0.1:1235 via 127.0.0.2"};
    snprintf(it->words, MOST_LINE, "qemu-mcast %s %s", PICK(GROUPS), PICK(KINDS));
}

static void make_switch(made_link *it)
{
    static const char *const PATHS[] = {"/run/vde.ctl", "/run/other.ctl", "vde"};
    snprintf(it->words, MOST_LINE, "vde %s %s", PICK(PATHS), PICK(KINDS));
}

/* A link by peers: a hub, or a place that calls others. */
static void make_peers(made_link *it)
{
    static const char *const PLACES[] = {"0.0.0.0:2200", "0.0.0.0:2201", "127.0.0.1:2202", "10.0.0.99:2203", "[::1]:2204"};
    static const char *const CALLED[] = {"peer 10.0.2.1:2300", "peer 10.0.2.2:2300", "peer 10.0.2.9:2309", "peer e.example.net:2300"};
    snprintf(it->words, MOST_LINE, "peers %s made-up.key %s", PICK(PLACES), PICK(KINDS));
    for (unsigned k = one_in(2) ? between(1, 3) : 0; k > 0; k--)
        below_line(it, PICK(CALLED), 0, 0);
}

static void make_card(made_link *it)
{
    static const char *const NAMES[] = {"interface eth0", "interface eth1", "interface eth2", "interface eth0", "interface eth9",
                                        "interface lo",   "tap tap0",       "tap tap1",       "tap tap9"};
    snprintf(it->words, MOST_LINE, "%s %s", PICK(NAMES), PICK(KINDS));
}

/* A link by WebSocket, whose pages are clients or stations. */
static void make_web(made_link *it)
{
    static const char *const PLACES[] = {"8080", "8080", "8080", "127.0.0.1:8081", "0.0.0.0:8082", "0", "10.0.0.99:8083"};
    bool has_frames = one_in(2);
    snprintf(it->words, MOST_LINE, "web %s%s%s", is_large ? "0" : PICK(PLACES), has_frames ? " " : "", has_frames ? PICK(KINDS) : "");
    if (!has_frames)
        lines_of_tunnel(it);
    if (one_in(5))
        below_line(it, one_in(2) ? "origins *" : "origins http://gate https://other.example", 0, 0);
}

/* A link whose datagrams are packets, with those whom it names. */
static void make_bare(made_link *it)
{
    static const char *const PLACES[] = {"127.0.0.1:2213", "127.0.0.1:2214", "10.0.0.99:2213"};
    memset(it, 0, sizeof *it);
    snprintf(it->words, MOST_LINE, "rfc1234 %s", PICK(PLACES));
    lines_of_any(it);
    for (unsigned k = below(4); k > 0; k--)
        below_line(it, one_in(6) ? "peer b.example.net:40000" : "peer 10.0.0.%u:%u", below(6), 40000 + below(2));
}

/* Whether a link's programs are clients, so that lines for them may stand below it. */
static bool has_clients(const made_link *it)
{
    return strncmp(it->words, "dosbox", 6) == 0 || (strncmp(it->words, "web", 3) == 0 && strchr(it->words + 4, ' ') == NULL);
}

static void make_link(made_link *it)
{
    static void (*const MAKE[])(made_link *) = {make_dosbox, make_dosbox, make_dosbox, make_udp, make_udp, make_tcp, make_tcp, make_card,
                                                make_card,   make_group,  make_switch, make_web, make_web, make_peers, make_peers};
    memset(it, 0, sizeof *it);
    if (is_large && !one_in(50))
        MAKE[one_in(3) ? between(2, 5) : 3](it); /* (which don't stand in each other's way) */
    else
        PICK(MAKE)(it);
    lines_of_any(it);
}

static void make_extend(made_network *it)
{
    static const char *const SOCKETS[] = {"", "", "extend 4003", "extend 4003 4005", "extend 4005", "extend 4003"};
    snprintf(it->extend, sizeof it->extend, "%s", PICK(SOCKETS));
}

static void make_network(made_network *it)
{
    static const char *const SHARES[] = {"", "", "", " 10 10", " 100 0", " 65535 65535", " 0 5"};
    static const unsigned LONGEST[] = {576, 1024, 1424, 1424, 1492, 1500};
    memset(it, 0, sizeof *it);
    it->number = is_large ? between(1, 0xFFFF) : 0x10 + below(10);
    it->cost = one_in(4) ? between(1, 65535) : 1;
    it->longest = PICK(LONGEST);
    it->is_of_several = is_large ? !one_in(4) : one_in(2);
    snprintf(it->shares, sizeof it->shares, "%s", PICK(SHARES));
    snprintf(it->node, sizeof it->node, "%s", PICK(NODES));
    make_extend(it);
    it->count = it->is_of_several ? between(1, is_large ? MOST_OF_ONE : USUAL_OF_ONE) : 1;
    for (size_t k = 0; k < it->count; k++)
        make_link(&it->links[k]);
    if (!it->is_of_several && (it->number % 8 == 5 || it->number % 8 == 2))
        make_bare(&it->links[0]);
}

/* ---- Text ---- */

static void add(size_t *at, const char *format, ...)
{
    va_list rest;
    va_start(rest, format);
    int length = vsnprintf(text + *at, sizeof text - *at, format, rest);
    va_end(rest);
    if (length < 0 || (size_t)length >= sizeof text - *at)
        wrong("a configuration is too long");
    *at += (size_t)length;
}

static void add_link(size_t *at, const made_link *it)
{
    for (size_t k = 0; k < it->count; k++)
        add(at, "%s\n", it->below[k]);
}

static bool has_node(const made_network *it)
{
    const char *words = it->links[0].words;
    return it->is_of_several || (!has_clients(&it->links[0]) && strncmp(words, "interface", 9) != 0 && strncmp(words, "rfc1234", 7) != 0);
}

/* Lines that take most of a share of ten. */
enum { MORE_LINES = 7 };

/* Routes and a service by way of nodes, which change with the network's longest packet. */
static void add_statics(size_t *at, const made_network *it)
{
    if (it->number % 3 != 0)
        return;
    if (it->longest != 1500)
        add(at, "route F%X 2 3 via 02005E100003\nroute E%X 1 2 via 02005E100004\n", it->number, it->number);
    for (unsigned k = 0; it->longest != 1500 && k < MORE_LINES; k++)
        add(at, "route D%X%X 1 2 via 02005E100004\n", k, it->number);
    if (it->longest != 1492)
        add(at, "service 7 STATIC%X F%X.000000000001.451 3 via 02005E100003\n", it->number, it->number);
}

static void add_network(size_t *at, const made_network *it)
{
    add(at, "network %X %u %u%s", it->number, it->cost, it->longest, it->shares);
    if (!it->is_of_several)
        add(at, " %s", it->links[0].words);
    add(at, "%s\n%s%s", has_node(it) ? it->node : "", it->extend, it->extend[0] != '\0' ? "\n" : "");
    if (it->number % 4 == 0)
        add(at, "deny socket 0455\npermit service 0004 * in\ndeny service * * out\ndeny route 20-2F in\n");
    add_statics(at, it);
    for (size_t k = 0; k < it->count; k++) {
        if (it->is_of_several)
            add(at, "link %s\n", it->links[k].words);
        add_link(at, &it->links[k]);
    }
}

/* The router's own network: it comes, changes and goes with the first network's longest packet. (so seeds play as they did before there was one) */
static void add_internal(size_t *at)
{
    if (networks[0].longest == 1492)
        add(at, "internal A1\n");
    else if (networks[0].longest == 1500)
        add(at, "internal A2 node 020000000007\n");
}

static void write_text(void)
{
    size_t at = 0;
    text[0] = '\0';
    for (size_t k = 0; k < count; k++)
        add_network(&at, &networks[k]);
    add_internal(&at);
}

/* A byte of it is another one, or the rest of a line is missing. */
static void spoil(void)
{
    size_t length = strlen(text), at = below((uint32_t)length);
    if (length == 0)
        return;
    if (one_in(2))
        text[at] = (char)between(1, 255);
    else
        memmove(text + at, text + at + strcspn(text + at, "\n"), strlen(text + at + strcspn(text + at, "\n")) + 1);
}

const char *configuration_text(void)
{
    return text;
}

/* Whether the gateway's own reader finds nothing wrong with it. */
static bool is_right(void)
{
    static settings set;
    FILE *file = text[0] != '\0' ? fmemopen(text, strlen(text), "r") : NULL, *nowhere = fopen("/dev/null", "w");
    bool is = file != NULL && nowhere != NULL && settings_read(&set, file, "made-up.conf", nowhere) == 0;
    own_close(file);
    own_close(nowhere);
    return is;
}

/* ---- Changes ---- */

static void remove_network(void)
{
    size_t at = below((uint32_t)count);
    if (count > 1)
        memmove(&networks[at], &networks[at + 1], (--count - at) * sizeof *networks);
}

static void add_one(void)
{
    size_t at = below((uint32_t)count + 1);
    if (count == (is_large ? MOST_NETWORKS : USUAL_NETWORKS))
        return;
    memmove(&networks[at + 1], &networks[at], (count++ - at) * sizeof *networks);
    make_network(&networks[at]);
}

static void remove_most(void)
{
    count = between(1, (uint32_t)count);
}

static void make_all(void)
{
    count = between(1, is_large && one_in(3) ? MOST_NETWORKS : is_large ? 2 * USUAL_NETWORKS : USUAL_NETWORKS);
    for (size_t k = 0; k < count; k++)
        make_network(&networks[k]);
}

static void swap_networks(void)
{
    made_network *a = &networks[below((uint32_t)count)], *b = &networks[below((uint32_t)count)], c = *a;
    *a = *b;
    *b = c;
}

/* ---- of a network ---- */

static void remove_link(made_network *it)
{
    size_t at = below((uint32_t)it->count);
    if (it->count > 1)
        memmove(&it->links[at], &it->links[at + 1], (--it->count - at) * sizeof *it->links);
}

static void add_another_link(made_network *it)
{
    if (!it->is_of_several || it->count == MOST_OF_ONE)
        return;
    if (one_in(3))
        it->links[it->count] = it->links[0]; /* (one more of the same) */
    else
        make_link(&it->links[it->count]);
    it->count++;
}

static void swap_links(made_network *it)
{
    made_link *a = &it->links[below((uint32_t)it->count)], *b = &it->links[below((uint32_t)it->count)], c = *a;
    *a = *b;
    *b = c;
}

static void other_link(made_network *it)
{
    make_link(&it->links[below((uint32_t)it->count)]);
}

/* The same link with other lines below it. */
static void other_lines(made_network *it)
{
    made_link *at = &it->links[below((uint32_t)it->count)];
    at->count = 0;
    if (has_clients(at))
        lines_of_tunnel(at);
    lines_of_any(at);
}

static void other_node(made_network *it)
{
    snprintf(it->node, sizeof it->node, "%s", PICK(NODES));
}

static void other_cost(made_network *it)
{
    it->cost = between(1, 9);
}

static void one_of_several(made_network *it)
{
    it->is_of_several = !it->is_of_several;
    it->count = it->is_of_several ? it->count : 1;
}

static void change_network(void)
{
    static void (*const CHANGES[])(made_network *) = {remove_link, add_another_link, swap_links, other_link, other_lines, other_lines,
                                                      make_extend, other_node, other_cost, one_of_several, make_network, remove_link,
                                                      add_another_link};
    PICK(CHANGES)(&networks[below((uint32_t)count)]);
}

void configuration_changes(void)
{
    static void (*const CHANGES[])(void) = {remove_network, add_one, swap_networks, change_network, change_network, change_network,
                                            change_network, change_network, remove_most, make_all};
    static made_network before[MOST_NETWORKS];
    size_t count_before = count;
    memcpy(before, networks, sizeof before);
    for (unsigned k = between(0, 3); k > 0; k--)
        PICK(CHANGES)();
    write_text();
    if (!is_right()) {
        memcpy(networks, before, sizeof before);
        count = count_before;
        if (!one_in(6))
            write_text(); /* (mostly it is right) */
    }
    if (one_in(12))
        spoil();
}

/* Whether it names what can't be opened, so that the gateway wouldn't start. (it may be named later) */
static bool names_nothing(void)
{
    return strstr(text, " lo ") != NULL || strstr(text, " tap9 ") != NULL;
}

void configuration_begin(void)
{
    is_large = one_in(6);
    do {
        make_all();
        write_text();
    } while (!is_right() || names_nothing());
}

#include "monitoring/trial.h"

#include <inttypes.h>
#include <stdio.h>
#include <string.h>

#include "ipx.h"
#include "monitoring/neighbour.h"
#include "monitoring/note.h"
#include "monitoring/output.h"
#include "systems/clock.h"
#include "systems/system.h"

enum {
    OWN_SOCKET = 0x4FD0, /* from which is asked */
    RESPONSE = 2,        /* the operation of routes or services that are told; */
    NEAREST = 4,         /* and of the answer to a query for the nearest one */
    FILE_SERVERS = 4,    /* the type of service that a PC asks for when it starts */
    MINUTE = 60000,
    FIRST_QUESTION = 5000, /* milliseconds; by then the links are there */
    AT_DATA = HEADER + 2,  /* behind the operation */
};

static struct {
    FILE *text; /* NULL without a trial */
    uint64_t began, lasts, next; /* milliseconds; when it is asked next */
    neighbours heard;
    struct {
        uint32_t network;
        unsigned count;
    } asked[IPXR_MOST_PORTS]; /* how often it was asked on each network */
} trial;

bool trial_begin(unsigned minutes)
{
    trial.text = file_open(TRIAL_TEXT, "w");
    trial.began = clock_now();
    trial.lasts = (uint64_t)minutes * MINUTE;
    trial.next = trial.began + FIRST_QUESTION;
    return trial.text != NULL;
}

bool trial_is_over(void)
{
    return trial.text != NULL && clock_now() - trial.began >= trial.lasts;
}

/* ---- Asking ---- */

/* How often it was asked on a network. (where a reload brings more networks than a router has ports, the last ones are counted together) */
static unsigned *asked_on(uint32_t number)
{
    size_t k = 0;
    while (k + 1 < IPXR_MOST_PORTS && trial.asked[k].network != 0 && trial.asked[k].network != number)
        k++;
    trial.asked[k].network = number;
    return &trial.asked[k].count;
}

/* Sends what was written to all on a network. (its bytes don't stay) */
static void send_to_all(gateway *it, port *router_port, const uint8_t *packet, int32_t length)
{
    if (length > 0)
        gateway_send(it, router_port, NULL, packet + AT_TO_NODE, packet, (size_t)length);
    gateway_flush(it);
}

/* Asks all routers on a port's network for all routes, and for the nearest server. */
static void ask(gateway *it, port *router_port)
{
    const network *on = first_of(it, router_port);
    uint8_t packet[HEADER + 16];
    const ipxr_route_entry all = {.network = EVERY_NETWORK, .hops = 0xFFFF, .ticks = 0xFFFF};
    ipxr_address from = {.network = on->set->network, .socket = OWN_SOCKET}, to = {.network = on->set->network, .socket = IPXR_RIP_SOCKET};
    memcpy(from.node, on->node, NODE);
    memset(to.node, IPXR_BROADCAST_BYTE, NODE);
    send_to_all(it, router_port, packet, ipxr_write_rip(&from, &to, IPXR_RIP_REQUEST, &all, 1, packet, sizeof packet));
    to.socket = IPXR_SAP_SOCKET;
    send_to_all(it, router_port, packet, ipxr_write_query(&from, &to, 1, FILE_SERVERS, packet, sizeof packet));
    ++*asked_on(on->set->network);
}

/* (clients of a tunnel alone are no routers) */
void trial_turn(gateway *it)
{
    if (trial.text == NULL || trial_is_over() || clock_now() < trial.next)
        return;
    trial.next += MINUTE;
    for (size_t k = 0; k < it->port_count; k++) {
        bool has_frames = it->ports[k].count > 1 || !has_tunnel(first_of(it, &it->ports[k])->set);
        if (has_frames && it->ports[k].is_up)
            ask(it, &it->ports[k]);
    }
}

/* ---- Hearing ---- */

/* What a packet tells, by the socket that it goes to and its operation; TELLINGS where it is neither routes nor services. */
static telling told_in(const network *on, const uint8_t *packet)
{
    uint16_t to = get16(packet + AT_TO_SOCKET), from = get16(packet + AT_FROM_SOCKET), operation = get16(packet + HEADER);
    bool is_answer = to == OWN_SOCKET && same_node(packet + AT_TO_NODE, on->node), is_to_all = is_broadcast(packet + AT_TO_NODE);
    if (is_answer && from == IPXR_RIP_SOCKET && operation == RESPONSE)
        return ANSWERS_ROUTES;
    if (is_answer && from == IPXR_SAP_SOCKET && operation == NEAREST)
        return ANSWERS_NEAREST;
    if (is_to_all && to == IPXR_RIP_SOCKET && operation == RESPONSE)
        return TELLS_ROUTES;
    return is_to_all && to == IPXR_SAP_SOCKET && operation == RESPONSE ? TELLS_SERVICES : TELLINGS;
}

/* (what a router carried from elsewhere is no neighbour's) */
void trial_hears(const arrived *what, const ipxr_course *way)
{
    const uint8_t *packet = what->came;
    if (trial.text == NULL || packet == NULL || what->came_length < AT_DATA || !has_length(packet, what->came_length))
        return;
    telling told = told_in(what->on, packet);
    if (told == TELLINGS || packet[AT_CONTROL] != 0 || same_node(packet + AT_FROM_NODE, what->on->node))
        return;
    neighbour *by = neighbour_of(&trial.heard, what->on->set->network, packet + AT_FROM_NODE);
    if (by == NULL)
        return;
    by->claims = get32(packet + AT_FROM_NETWORK);
    neighbour_tells(by, told, what->came_length - AT_DATA, clock_now());
    if (told == TELLS_ROUTES || told == TELLS_SERVICES)
        neighbour_became(by, told, what->is_heard ? what->became : -1, way);
}

/* ---- The text ---- */

static void write_network(gateway *it, const port *router_port)
{
    char words[LINK_ROOM], node[WORDS];
    const network *on = first_of(it, router_port);
    fprintf(trial.text, "network %08" PRIX32 ", cost %u, node %s, on %s%s\n", on->set->network, on->set->cost, node_words(on->node, node),
            cable_words(on->cable, on->set, words), on->set->is_of_several ? " and other links" : "");
    if (neighbours_write(&trial.heard, trial.text, on->set->network, *asked_on(on->set->network)) == 0)
        fprintf(trial.text, "  nobody told routes or services, or answered\n");
}

bool trial_end(gateway *it, const char *configuration)
{
    if (trial.text == NULL)
        return true;
    fprintf(trial.text, "ipxr-gateway %s, %s, tried for %" PRIu64 " s\n", IPXR_RELEASE, configuration, (clock_now() - trial.began) / 1000);
    for (size_t k = 0; k < it->port_count; k++)
        write_network(it, &it->ports[k]);
    if (trial.heard.missed > 0)
        fprintf(trial.text, "packets of more neighbours than have room here: %" PRIu64 "\n", trial.heard.missed);
    bool is_written = fflush(trial.text) == 0 && !ferror(trial.text);
    is_written = fclose(trial.text) == 0 && is_written;
    trial.text = NULL;
    if (is_written)
        say("the trial is over: %s has what was seen, and %s all that passed", TRIAL_TEXT, TRIAL_CAPTURE);
    return is_written;
}

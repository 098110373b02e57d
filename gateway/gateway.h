/* The gateway: one router, its networks and their links, and the cables that carry them. */
#ifndef GATEWAY_H
#define GATEWAY_H

#include <stdbool.h>

#include "configuration/settings.h"
#include "ipx.h"
#include "ipxr.h"
#include "ipxr_keyed.h"
#include "ipxr_segment.h"
#include "limits/strangers.h"
#include "limits/throttle.h"
#include "links/cable.h"
#include "links/kinds.h"
#include "links/loop.h"
#include "links/paced.h"
#include "monitoring/counts.h"
#include "siphash.h"
#include "tunnel/outgoing.h"
#include "tunnel/pings.h"
#include "tunnel/roster.h"

/* A line that told why a network is down. */
typedef struct down_line {
    const char *lacks;
    int fault;
    uint64_t when; /* milliseconds of the clock */
} down_line;

/* Of a name as many addresses are tried, which may all fail in another way. */
enum { DOWN_LINES = 8 };

/* A network on a link. A network of several links is one of these for each, which share a port of the router. */
typedef struct network {
    const network_setting *set;
    cable *cable;
    uint8_t node[6]; /* the gateway's own there */
    bool is_up;
    const char *lacks; /* what it was told to lack, while it is down; */
    int fault;         /* and the system's number for it, or 0 */
    down_line told[DOWN_LINES]; /* the last of these lines, since it was up */
    size_t told_next;
    counts counts;
    ipxr_keyed tunnel;  /* of DOSBox', where it is one */
    roster roster;       /* and its clients, */
    throttle throttle;   /* within limits, */
    strangers strangers; /* and who isn't one; */
    uint8_t refused[4];  /* the address that isn't allowed and was told last, */
    uint64_t refusal_told; /* and when, or 0; */
    pings pings;         /* pings that wait for a narrow line, */
    pings again;         /* and what waits there for who registered; */
    asks asks;           /* when pings are repeated that aren't answered; */
    outgoing outgoing;   /* what waits to be sent to clients */
    speaker speaks;      /* all who are there, where it isn't one; */
    receiver queues;     /* and what its link receives of each client who speaks: */
    receiver *of_link;   /* the first network on the link has that for all */
    ipxr_segment *segment; /* of its network's links, where it is one of several; */
    uint8_t link;          /* and its number there */
    loop loop;             /* whether it is one cable with another of them */
    paced paced;           /* the router's broadcasts wait for each other where it has frames; */
    ipxr_kinds kinds;      /* of frames, which its stations use, where they may use any; */
    uint64_t kind_told;    /* and where not, when one that used another was told last, or 0; */
    uint64_t claim_told;   /* and when a router that has another number for the cable was, or 0 */
    uint32_t held;         /* services that were held against its rules for who asked for the nearest, */
    uint64_t held_in;      /* in this second */
} network;

/* A port of the router: a network with its links. */
typedef struct port {
    size_t first, count;  /* in the list of networks on links */
    bool is_up;           /* one of them is */
    ipxr_segment segment; /* says which of several links get a packet; */
    ipxr_twins twins;     /* and two machines with one node are told */
} port;

typedef struct gateway {
    ipxr router;
    port ports[IPXR_MOST_PORTS];
    size_t port_count;                  /* without the router's own network, */
    const internal_setting *internal;   /* whose port comes behind these; or NULL */
    network networks[MOST_LINKS]; /* in the order of their ports */
    size_t count;
    cable cables[MOST_LINKS];
    size_t cable_count;
    uint64_t began; /* milliseconds of the clock at the start */
    uint64_t told;  /* seconds since that have passed for the router: it has heard of them, or they were too many at once */
    uint64_t refused; /* the second since then in which it had no memory for one, or 0 */
    uint8_t key[SIPHASH_KEY]; /* of the cookies, */
    uint8_t nodes[SIPHASH_KEY]; /* and of the nodes of clients */
    uint64_t seconds; /* that the tunnels have heard of */
    uint32_t changes; /* how often its links were changed by a reload */
    uint64_t looked;  /* the second since the start in which they heard of the last */
    arrivals arrivals; /* what came last */
    uint8_t rooms[MOST_TOGETHER][LONGEST]; /* packets of the router's that wait to be sent, and how many; */
    size_t room_count;                     /* from gateway_flush on there is room again */
    uint8_t entered[LONGEST];              /* the last packet whose numbers were filled in */
} gateway;

/* Opens the links of all networks; what isn't there yet is waited for. Returns false where one can't be opened, which is told on
 * standard error. */
bool gateway_open(gateway *it, const settings *set);

/* Starts the router on the open links. Returns false where it can't start, which is told on standard error. */
bool gateway_start(gateway *it);

/* Where a card has another address than before, the router says goodbye, and begins anew: the ports of a router keep their nodes. */
void gateway_renew(gateway *it);

/* Hands on what has come, and lets seconds pass. Where it waits, something comes first, or a signal or the next second. */
void gateway_turn(gateway *it, bool waits);

/* Stops the router, which tells its neighbours, and closes everything. */
void gateway_stop(gateway *it);

/* What it knows and what it has counted, on standard output. */
void gateway_report(gateway *it);

/* ---- Between its parts ---- */

/* A packet that came on a network. */
typedef struct arrived {
    network *on;
    const origin *by;      /* who said it, or NULL where it isn't whole */
    const uint8_t *packet; /* with so many bytes, as it says itself where it is whole */
    size_t length;
    const uint8_t *came; /* the same as it came in a frame, before its numbers were filled in and rules left out what they deny; or NULL */
    size_t came_length;
    bool is_heard;  /* the router heard it, */
    int32_t became; /* and said this */
} arrived;

/* Answers what is next with a packet that the router may hear, as the library asks (ipxr_fates.h): all but the limit. */
uint16_t gateway_answer(gateway *it, arrived *what, uint8_t next);

/* A packet is at the end of its way: its fate is counted and told, and what the router has to say of it is sent. */
void gateway_settle(gateway *it, const arrived *what, const ipxr_course *way);

/* Sends what the router has to send. */
void gateway_send_all(gateway *it);

/* Room for a packet that is to be sent. Its bytes stay there until gateway_flush. */
uint8_t *gateway_room(gateway *it);

/* Sends what waits to go out together, and of what goes out one by one as much as is due. */
void gateway_flush(gateway *it);

/* Sends all that waits. */
void gateway_end_waiting(gateway *it);

/* Sends a packet of the router's on a network, to a node there or to all. Its bytes stay where they are until gateway_flush. */
void gateway_send(gateway *it, port *router_port, const origin *by, const uint8_t *node, const uint8_t *packet, size_t length);

/* Puts a packet of a station's, or of the router's, on a link of its network, to a node there or to all; the same of its bytes. */
void gateway_put(network *on, const origin *by, const uint8_t *from, const uint8_t *node, const uint8_t *packet, size_t length);

/* Where a tunnel is there, tells once that clients' nodes aren't kept, if they aren't. */
void gateway_tell_nodes(const gateway *it);

/* Takes the ports from the list of networks on links. */
void gateway_take_ports(gateway *it);

/* The port of a network, the first link of a port, and the first network of a cable. */
port *port_of(gateway *it, const network *on);
network *first_of(gateway *it, const port *router_port);
network *first_on(gateway *it, const cable *carrier);

/* The number of a port's network, by the port's number; 0 where there is no such port. */
uint32_t port_network(const gateway *it, uint8_t number);

/* A packet that goes no further, and why. */
void gateway_lose(network *on, reason why);

/* A line for a packet that came on a network, and what became of it, where events are told. */
void gateway_note(const network *on, const uint8_t *packet, size_t length, const char *became);

/* Whether the network's card has another address than the router knows. */
bool has_new_address(const network *on);

/* Whether a header's destination is on the network where the packet came: no network, that one, or all. */
bool is_for_here(const network *on, const uint8_t *packet);

#endif

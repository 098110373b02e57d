/* What a configuration says. Nothing is opened while it is read, and nothing of it is used unless all of it is right. */
#ifndef SETTINGS_H
#define SETTINGS_H

#include <stdbool.h>
#include <stddef.h>
#include <stdint.h>
#include <stdio.h>

#include "configuration/range.h"
#include "ipxr.h"
#include "ipxr_edge.h"
#include "ipxr_segment.h"
#include "ipxr_settings.h"
#include "ipxr_settings.h"
#include "ipxr_tunnel.h"
#include "links/kinds.h"
#include "systems/address.h"

enum {
    MOST_RATE = 1000000, /* that a line may say */
    MOST_KILOBITS = 10000000, /* alike: ten gigabits */
    MOST_ORIGINS = 16, /* that lines below a link may name */
    ORIGIN_ROOM = 89,  /* bytes of an origin, with the 0 behind */
    MOST_SOCKETS = 16, /* that a network's `extend` may name */
    MOST_RULES = 64,   /* that lines below a network may say */
    MOST_PEERS = 32,   /* other places that lines below a network may name */
    MOST_STATICS = 64, /* routes by way of nodes on a network that lines below it may say, and services */
    SHORTEST_LONGEST = 576, /* bytes that the longest packet of a network has at least */
    NAME_ROOM = 16,    /* bytes of the name of a TAP or an interface, with the 0 behind */
    MOST_LINKS = IPXR_MOST_PORTS + IPXR_MOST_LINKS, /* of all networks together */
};

/* What carries a network. */
typedef enum {
    LINK_DOSBOX,      /* datagrams of DOSBox' tunnel: the gateway is its server */
    LINK_QEMU_UDP,    /* a frame a datagram, from and to one address */
    LINK_QEMU_LISTEN,  /* frames with their length in front, on a connection that comes in */
    LINK_QEMU_CONNECT, /* the same on a connection that goes out */
    LINK_TAP,         /* frames of a TAP */
    LINK_INTERFACE,   /* frames of an Ethernet interface */
    LINK_QEMU_MCAST,  /* a frame a datagram, to and from a group */
    LINK_VDE,         /* frames of a port of a switch of VDE */
    LINK_WEB,         /* messages of WebSockets: datagrams of the tunnel where it has no kind of frames, or else frames */
    LINK_PEERS,       /* a frame a datagram, sealed by a key, from and to other places */
    LINK_RFC1234,     /* a packet a datagram, as RFC 1234 has it */
} link_type;

/* Where pages come from, as a browser names it: a scheme and a host, perhaps with a port; or * for all. */
typedef char page_origin[ORIGIN_ROOM];

/* Another place of a network: where it is, or the name of the machine there, whose port that has; without one it is empty. */
typedef struct peer_setting {
    size_t line; /* the number of its line, for messages */
    address at;
    char host[HOST_ROOM];
} peer_setting;

/* A network on a link, as its line says it. Where links stand in lines below it, each of them is one, with what its network's line says. */
typedef struct network_setting {
    size_t line;               /* the number of the line that names the link, for messages */
    bool is_of_several;        /* links stand below the network's line */
    uint8_t port;              /* of the router: all links of a network have one */
    uint32_t network;
    uint16_t cost;             /* ticks */
    uint16_t longest;          /* bytes of the longest packet */
    uint16_t routes, services; /* shares of the tables, or IPXR_NO_LIMIT */
    link_type type;
    address local;             /* where datagrams and connections come in; of a group the address of the card, with port 0 */
    address remote;            /* where they go; */
    char host[HOST_ROOM];      /* or the name of the machine there, whose port that has, or the path of a switch or of a key's file; without one
                                * it is empty */
    char name[NAME_ROOM];      /* of a TAP or an interface */
    uint8_t kind;              /* of its frames; ANY_KIND where any may come; IPXR_NO_FRAME in the tunnel */
    bool has_node;             /* whether the line says the gateway's node there */
    uint8_t node[6];
    uint16_t sockets[MOST_SOCKETS]; /* whose broadcasts are extended */
    size_t socket_count;
    bool adopts;               /* whether what comes from the cable is numbered, and held where a router carried it there */
    ipxr_rule rules[MOST_RULES]; /* of the network's filter: the first that names something decides */
    size_t rule_count;
    ipxr_static_route static_routes[MOST_STATICS]; /* by way of nodes on the network that say nothing themselves, */
    size_t static_route_count;
    ipxr_static_service static_services[MOST_STATICS]; /* and services */
    size_t static_service_count;
    uint16_t clients;          /* most clients of DOSBox' */
    uint16_t per_address;      /* and most of one address */
    uint32_t rate;             /* packets a second that a client receives, or a link with frames of clients; 0 for any number */
    uint32_t share;            /* and those of an address that says little */
    uint32_t household;        /* and those that all clients of an address receive, 0 for any number */
    uint32_t kilobits;         /* a second, of the line by which the network is reached; 0 where that isn't narrow */
    uint32_t strangers;        /* datagrams a second for strangers, 0 for any number */
    ranges allowed;            /* who may be a client; none where all may */
    ranges trusted;            /* who may be one though he answers no ping */
    bool nodes_by_address;     /* whether a client's node may be its address and port */
    page_origin origins[MOST_ORIGINS]; /* of pages that are let in beside those of the same host; * is all */
    size_t origin_count;
    peer_setting peers[MOST_PEERS]; /* other places, of a link of peers or by RFC 1234 */
    size_t peer_count;
} network_setting;

/* Whether the other end of a link is a name. */
static inline bool has_name(const network_setting *it)
{
    return it->type != LINK_VDE && it->type != LINK_PEERS && it->host[0] != '\0';
}

/* The router's own network, which no cable carries. */
typedef struct internal_setting {
    size_t line; /* the number of its line, for messages */
    uint32_t network;
    uint8_t node[6];
} internal_setting;

/* The links of one network stand one behind the other. */
typedef struct settings {
    network_setting networks[MOST_LINKS];
    size_t count;
    size_t ports;              /* how many networks there are, without the router's own */
    bool has_internal;         /* whether there is that: */
    internal_setting internal;
} settings;

/* Whether a link is DOSBox' tunnel, by whatever carries it: then it has clients. */
static inline bool has_tunnel(const network_setting *set)
{
    return set->type == LINK_DOSBOX || (set->type == LINK_WEB && set->kind == IPXR_NO_FRAME);
}

/* The router's own network, or NULL where there is none. */
const internal_setting *internal_of(const settings *set);

/* Reads a configuration. Returns how many faults there are; each has been told on `complaints` with its line and word, and what
 * was expected. `name` is the file's, for the messages. */
size_t settings_read(settings *it, FILE *file, const char *name, FILE *complaints);

/* Whether two networks are on one link, which is opened once for both. (clients by WebSocket are each network's own, at whatever address) */
bool same_link(const network_setting *a, const network_setting *b);

enum { LINK_ROOM = IPXR_LONGEST_LINK + 1 /* bytes of a link in words, with the 0 behind */ };

/* The words of a kind of frame, and of a link with its addresses or name. */
const char *kind_word(uint8_t kind);
const char *link_words(const network_setting *it, char words[LINK_ROOM]);

#endif

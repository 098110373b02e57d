/* ipxr_configuration.h: what the lines of a gateway's configuration say together, for C and for whatever can call C. It belongs to ipxr.h and
 * is in the same library. docs/CONFIGURATION.md tells the rules, docs/GATEWAY-REFERENCE.md describes the lines.
 *
 * A configuration lies in memory of yours, whose bytes are all 0 at first. It is handed one line after the other, and then says what all of
 * them say of each link.
 *
 *     static ipxr_configuration all;
 *     ipxr_setting said;
 *     ipxr_line_wrong wrong;
 *     ipxr_configured link;
 *     ipxr_internal own;
 *     size_t k;
 *     for each line of the text, counted from 1:
 *         uint8_t expected = ipxr_configuration_line(&all, text, length, line, 1, &said, &wrong);
 *         if (wrong.unlinked > 0) ...;   -- the network of that line has no link
 *         if (expected != 0) ...;        -- the line is wrong
 *     if (ipxr_configuration_unlinked(&all) > 0) ...;
 *     if (ipxr_configuration_internal(&all, &own)) ...;
 *     for (k = 0; ipxr_configuration_link(&all, k, &link); k++) ...;
 *
 * A line that is wrong leaves networks and links as they were; of a wrong `extend`, `allow`, `trust` or `origins` the words before the wrong
 * one count.
 * Lines below a wrong network or link aren't looked at.
 *
 * WHAT C HAS TO PROMISE is what ipxr.h says. Everything else is answered: any bytes, any number, also in a configuration. No call takes
 * memory, and no value needs to be freed. */
#ifndef IPXR_CONFIGURATION_H
#define IPXR_CONFIGURATION_H

#include "ipxr_settings.h"

#ifdef __cplusplus
extern "C" {
#endif

/* ---- Sizes ---- */

#define IPXR_ALL_NETWORKS 32 /* the most networks of a configuration, with the router's own; a library for fewer ports takes no more than these */
#define IPXR_ALL_LINKS 64    /* the most links of all networks together */
#define IPXR_ALL_SOCKETS 16  /* the most sockets that a network extends */
#define IPXR_ALL_RANGES 16   /* the most ranges of a list */
#define IPXR_ALL_ORIGINS 16  /* the most origins of a link */
#define IPXR_ALL_PEERS 32    /* the most other places of a network */
#define IPXR_ALL_RULES 64    /* the most rules of a network, as many as a filter has */
#define IPXR_ALL_STATIC_ROUTES 64   /* the most routes by way of nodes on a network, */
#define IPXR_ALL_STATIC_SERVICES 64 /* and services */

/* ---- What was expected where lines are wrong together, beside the numbers of ipxr_settings.h. These numbers have no words. ---- */

#define IPXR_EXPECTED_BELOW_NETWORK 32           /* a network above */
#define IPXR_EXPECTED_BELOW_LINK 33              /* a link above: there is none yet below the network's line */
#define IPXR_EXPECTED_BELOW_TUNNEL 34            /* a network of DOSBox' above, or one of clients by WebSocket */
#define IPXR_EXPECTED_BELOW_TUNNEL_LINK 35       /* a link of DOSBox' above, or one of clients by WebSocket */
#define IPXR_EXPECTED_BELOW_SEVERAL 36           /* above, a network that names no link itself */
#define IPXR_EXPECTED_FEWER_NETWORKS 37          /* at most IPXR_MOST_PORTS networks, with the router's own */
#define IPXR_EXPECTED_FEWER_LINKS 38             /* at most IPXR_ALL_LINKS links */
#define IPXR_EXPECTED_FEWER_LINKS_OF_NETWORK 39  /* at most IPXR_MOST_LINKS links of the network */
#define IPXR_EXPECTED_OTHER_NETWORK 40           /* another network than that of `line`, which is a network's or leads there by a route */
#define IPXR_EXPECTED_OTHER_LINK 41              /* another link: `line` has all kinds of frames there */
#define IPXR_EXPECTED_ONE_KIND 42                /* one kind of frames: `line` has another there */
#define IPXR_EXPECTED_OTHER_KIND 43              /* another kind of frames: `line` has this one there */
#define IPXR_EXPECTED_OTHER_PORT 44              /* another address to come in at: `line` has this one */
#define IPXR_EXPECTED_OTHER_MACHINE 45           /* another address to go to: this one is the link's own */
#define IPXR_EXPECTED_LONGEST_OF_LINK 46         /* packets of at most numbers[1] bytes on this link, and not of numbers[0] */
#define IPXR_EXPECTED_ONCE 47                    /* that no other line says it: `line` does */
#define IPXR_EXPECTED_SAME_KILOBITS 48           /* the kilobits numbers[0], as `line` says them */
#define IPXR_EXPECTED_OTHER_SOCKET 49            /* a socket that isn't there already */
#define IPXR_EXPECTED_FEWER_SOCKETS 50           /* at most IPXR_ALL_SOCKETS sockets */
#define IPXR_EXPECTED_FEWER_RANGES 51            /* at most IPXR_ALL_RANGES ranges, or IPXR_ALL_ORIGINS origins */
#define IPXR_EXPECTED_FEWER_RULES 60             /* at most IPXR_ALL_RULES rules */
#define IPXR_EXPECTED_FEWER_ROUTES 68            /* at most IPXR_ALL_STATIC_ROUTES routes (61 to 67 are in ipxr_settings.h) */
#define IPXR_EXPECTED_FEWER_SERVICES 69          /* at most IPXR_ALL_STATIC_SERVICES services */
#define IPXR_EXPECTED_OTHER_SERVICE 70           /* another name of a service: `line` has one of the type with this one */
#define IPXR_EXPECTED_BELOW_WEB 77               /* below a link by WebSocket (71 to 76 are in ipxr_settings.h) */
#define IPXR_EXPECTED_BELOW_PEERS 80             /* in a network with a link of peers or by RFC 1234 above (78 and 79 are in ipxr_settings.h) */
#define IPXR_EXPECTED_OTHER_PEER 81              /* another place: `line` has this one */
#define IPXR_EXPECTED_FEWER_PEERS 82             /* at most IPXR_ALL_PEERS other places */
#define IPXR_EXPECTED_PEER_OF_FOUR 83            /* an address of IPv4, as the link's own is */
#define IPXR_EXPECTED_PEER_OF_SIX 84             /* one of IPv6, alike */
#define IPXR_EXPECTED_ONE_PEERS 85               /* another link: `line` has the network's link of peers */
#define IPXR_EXPECTED_OWN_LINE 86                /* on the line of a network: the link is the only one of its network */

/* ---- What is kept of a configuration. It is the library's to write; ipxr_configuration_link says what comes of it. ---- */

/* What carries a link. */
typedef struct ipxr_carrier {
    uint8_t number;           /* one of IPXR_OVER_.. */
    uint8_t frames;           /* one of IPXR_FRAME_.., or IPXR_NO_FRAME */
    ipxr_setting_host local;  /* where datagrams and connections come in, or with port 0 the address of the card of a group */
    ipxr_setting_host remote; /* where they go, */
    uint8_t host[254];        /* or the name of the host there, or the path of a switch or of a key's file, with zeros behind it, all of them
                               * where there is none */
    uint8_t name[16];         /* of a TAP or an interface, alike */
} ipxr_carrier;

/* Sockets and ranges, in the order of their words. */
typedef struct ipxr_sockets {
    uint16_t list[16];
    size_t count;
} ipxr_sockets;

typedef struct ipxr_setting_ranges {
    ipxr_setting_range list[16];
    size_t count;
} ipxr_setting_ranges;

/* Origins of pages, alike. */
typedef struct ipxr_origin {
    uint8_t text[89];        /* with zeros behind it */
} ipxr_origin;

typedef struct ipxr_origins {
    ipxr_origin list[16];
    size_t count;
} ipxr_origins;

/* Another place of a network. */
typedef struct ipxr_setting_peer {
    size_t line;             /* the number of the line that says it */
    ipxr_setting_host at;    /* where it is, */
    uint8_t host[254];       /* or the name of the host there, with zeros behind it, all of them where there is none */
} ipxr_setting_peer;

/* Those of a network, in the order of their lines: no two are the same. */
typedef struct ipxr_setting_peers {
    ipxr_setting_peer list[32];
    size_t count;
} ipxr_setting_peers;

/* Rules, in the order of their lines. */
typedef struct ipxr_rules {
    ipxr_rule list[64];
    size_t count;
} ipxr_rules;

/* Routes and services by way of nodes on a network, in the order of their lines. No two routes lead to one network, and no two services of
 * one type have one name. */
typedef struct ipxr_static_routes {
    ipxr_static_route list[64];
    size_t count;
} ipxr_static_routes;

typedef struct ipxr_static_services {
    ipxr_static_service list[64];
    size_t count;
} ipxr_static_services;

/* What lines below a link say. `line` is the number of the line, or 0 where none says it. */
typedef struct ipxr_clients_said {
    size_t line;
    uint16_t all;
    uint16_t of_address;
} ipxr_clients_said;

typedef struct ipxr_rate_said {
    size_t line;
    uint32_t rate;
    uint32_t share;
    uint32_t household;
} ipxr_rate_said;

typedef struct ipxr_number_said {
    size_t line;
    uint32_t number;
} ipxr_number_said;

/* What a network's own line says. */
typedef struct ipxr_network_setting {
    size_t line;
    size_t first;            /* how many links stand above it */
    ipxr_flag has_link;
    uint32_t number;
    uint16_t cost;
    uint16_t longest;
    ipxr_flag has_shares;
    uint16_t routes;
    uint16_t services;
    ipxr_flag is_of_several; /* its links stand in lines below it */
    ipxr_flag has_node;
    uint8_t node[6];
    ipxr_sockets sockets;
    size_t adopt_line;       /* the number of the line that says that what comes from the cable is taken as it is, or 0 */
    ipxr_rules rules;
    ipxr_static_routes static_routes;
    ipxr_static_services static_services;
    ipxr_setting_peers peers;
} ipxr_network_setting;

/* What a link's own line says, and those below it. */
typedef struct ipxr_link_setting {
    size_t line;
    size_t network;          /* the number of its network among all, from 0 */
    ipxr_carrier carrier;
    ipxr_clients_said clients;
    ipxr_rate_said rate;
    ipxr_number_said strangers;
    ipxr_number_said kilobits;
    ipxr_setting_ranges allowed;
    ipxr_setting_ranges trusted;
    size_t nodes_line;       /* the number of the line that says that clients' nodes may be their addresses, or 0 */
    ipxr_origins origins;
} ipxr_link_setting;

typedef struct ipxr_network_list {
    ipxr_network_setting list[32];
    size_t count;
} ipxr_network_list;

typedef struct ipxr_link_list {
    ipxr_link_setting list[64];
    size_t count;
} ipxr_link_list;

/* What a line `internal` says: the router's own network, which no cable carries. */
typedef struct ipxr_internal {
    size_t line;             /* the number of the line, or 0 where none says it */
    uint32_t number;         /* of the network */
    uint8_t node[6];         /* the router's there: 000000000001 where the line doesn't say it */
} ipxr_internal;

/* A configuration, as far as its lines were read. All bytes 0 are that of no line. */
typedef struct ipxr_configuration {
    ipxr_network_list networks;
    ipxr_link_list links;
    ipxr_internal internal;
    uint8_t above;           /* what the next line stands below */
} ipxr_configuration;

/* ---- What is told ---- */

/* What is wrong with a line, but for what was expected there. */
typedef struct ipxr_line_wrong {
    size_t unlinked;           /* the line of the network above, if that ends here and has no link, or 0 */
    size_t word;               /* the number of the word that is wrong, from 0, where the number of words is the line's end */
    size_t line;               /* of another line, or 0 */
    uint32_t numbers[2];
    ipxr_flag is_below_tunnel; /* the line stands below a link of DOSBox', or by WebSocket without frames */
} ipxr_line_wrong;

/* A link, with all that lines say of it and of its network, and what holds where none says it. */
typedef struct ipxr_configured {
    size_t line;             /* the number of the line that names the link, */
    size_t network_line;     /* and of its network's */
    size_t port;             /* the number of its network among all, from 0: the router's port */
    uint32_t number;         /* of the network */
    uint16_t cost;           /* ticks */
    uint16_t longest;        /* bytes of the longest packet */
    uint16_t routes;         /* shares of the tables, or IPXR_NO_LIMIT */
    uint16_t services;
    ipxr_flag is_of_several; /* links of the network stand in lines below its own */
    ipxr_flag has_node;      /* the line says the gateway's node there */
    uint8_t node[6];
    ipxr_carrier carrier;
    uint16_t clients;        /* the most clients, of DOSBox' or by WebSocket, */
    uint16_t of_address;     /* and of one address */
    uint32_t rate;           /* packets a second that a client receives, or a link with frames of clients, or 0 for any number */
    uint32_t share;          /* those of an address that says little */
    uint32_t household;      /* those that all clients of an address receive */
    uint32_t strangers;      /* datagrams a second for strangers */
    uint32_t kilobits;       /* a second, of the line to the clients, or 0 where it isn't narrow */
    ipxr_sockets sockets;    /* whose broadcasts are extended */
    ipxr_setting_ranges allowed; /* who may be a client, or none where all may */
    ipxr_setting_ranges trusted; /* who may be one though he answers no ping */
    ipxr_origins origins;        /* where pages may come from whose programs are clients by WebSocket, or none where no line says it */
    ipxr_flag nodes_by_address;  /* clients' nodes may be their addresses */
    ipxr_flag adopts;            /* what comes from the cable goes through ipxr_edge_enter */
    ipxr_rules rules;            /* of the network's filter */
    ipxr_static_routes static_routes;     /* by way of nodes on the network that say nothing themselves, */
    ipxr_static_services static_services; /* and services */
    ipxr_setting_peers peers;             /* other places of the network, or none where no line says one */
} ipxr_configured;

/* ---- Calls ---- */

/* Reads the next line, with its end or without; `line` is its number, from 1. `has_cards` is one of IPXR_CARDS_.., and any other number is
 * that of all. Tells what its words say, up to the first that is wrong, and what is wrong. Returns one of IPXR_EXPECTED_..; or 0, and then
 * the line is right, or isn't looked at, since what stands above it is wrong. */
IPXR_CALL uint8_t ipxr_configuration_line(ipxr_configuration *it, const uint8_t *text, size_t length, size_t line, uint8_t has_cards,
                                          ipxr_setting *said, ipxr_line_wrong *wrong);

/* The line of the last network, if that has no link though no more lines come; or 0. */
IPXR_CALL size_t ipxr_configuration_unlinked(const ipxr_configuration *it);

/* What a line says of the router's own network, whose number no other network has. Returns whether one does; if not, `internal` stays as it
 * was. */
IPXR_CALL ipxr_flag ipxr_configuration_internal(const ipxr_configuration *it, ipxr_internal *internal);

/* What all lines say of the link with that number, from 0: links of one network stand behind each other. Returns whether there is one; if
 * not, `link` stays as it was. */
IPXR_CALL ipxr_flag ipxr_configuration_link(const ipxr_configuration *it, size_t number, ipxr_configured *link);

#ifdef __cplusplus
}
#endif

#endif

/* ipxr_settings.h: what the lines of a gateway's configuration say, and their words, for C and for whatever can call C. It belongs to ipxr.h and is in the
 * same library. docs/GATEWAY-REFERENCE.md describes the lines.
 *
 * A line is read by itself, word by word: ipxr_settings_line tells what its words say up to the first that is wrong, and what was expected
 * there. What lines say together, such as a network's number that another has, is yours to see.
 *
 *     ipxr_setting said;
 *     uint8_t expected = ipxr_settings_line(text, length, 1, 0, IPXR_MOST_CLIENTS, &said);
 *     size_t start, bytes = expected == 0 ? 0 : ipxr_settings_word(text, length, said.read, &start);
 *     if (expected != 0) ...;   -- the word of so many bytes there is wrong, or, where it has none, the line's end
 *
 * WORDS stand between blanks, which are a space, a tab, and the ends of lines and pages; a # and what follows it is no word. They are counted
 * from 0.
 *
 * WHAT C HAS TO PROMISE is what ipxr.h says. Flags that you give are 0 or 1. Everything else is answered: any bytes, any number. No call
 * takes memory, and no value needs to be freed. */
#ifndef IPXR_SETTINGS_H
#define IPXR_SETTINGS_H

#include "ipxr.h"
#include "ipxr_edge.h"

#ifdef __cplusplus
extern "C" {
#endif

/* ---- The word that begins a line. These numbers have no words. ---- */

#define IPXR_SETTING_NONE 0      /* it has no word, or another one */
#define IPXR_SETTING_NETWORK 1   /* network */
#define IPXR_SETTING_LINK 2      /* link */
#define IPXR_SETTING_EXTEND 3    /* extend: the other words are sockets */
#define IPXR_SETTING_CLIENTS 4   /* clients: of `numbers` the most clients, and of one address */
#define IPXR_SETTING_ALLOW 5     /* allow: the other words are ranges of addresses */
#define IPXR_SETTING_TRUST 6     /* trust: the same */
#define IPXR_SETTING_RATE 7      /* rate: of `numbers` the rate, the share, and that of all clients of an address; 0 for none */
#define IPXR_SETTING_STRANGERS 8 /* strangers: of `numbers` the rate; 0 for none */
#define IPXR_SETTING_KILOBITS 9  /* line: of `numbers` the kilobits */
#define IPXR_SETTING_NODES 10    /* nodes: clients' nodes may be their addresses */
#define IPXR_SETTING_INTERNAL 11 /* internal: the router's own network: of `network` the number, and the node */
#define IPXR_SETTING_ADOPT 12    /* adopt: what comes from the cable is taken as it is */
#define IPXR_SETTING_PERMIT 13   /* permit: `rule` */
#define IPXR_SETTING_DENY 14     /* deny: the same */
#define IPXR_SETTING_ROUTE 15    /* route: `route` */
#define IPXR_SETTING_SERVICE 16  /* service: `service` */
#define IPXR_SETTING_ORIGINS 17  /* origins: the other words are origins of pages */
#define IPXR_SETTING_PEER 18     /* peer: of `link` where the other place is, `remote` and `host` */

/* ---- What carries a link. These numbers have no words. ---- */

#define IPXR_OVER_NONE 0      /* not all of it was read */
#define IPXR_OVER_TUNNEL 1    /* dosbox */
#define IPXR_OVER_UDP 2       /* qemu-udp, or udp */
#define IPXR_OVER_LISTEN 3    /* qemu-tcp listen */
#define IPXR_OVER_CONNECT 4   /* qemu-tcp connect */
#define IPXR_OVER_TAP 5       /* tap */
#define IPXR_OVER_INTERFACE 6 /* interface */
#define IPXR_OVER_GROUP 7     /* qemu-mcast: `remote` is the group, and local.four the address of the card by which its frames come and go */
#define IPXR_OVER_SWITCH 8    /* vde: `host` is the path of the switch */
#define IPXR_OVER_WEB 9       /* web: clients by WebSocket, of DOSBox' datagrams where `frames` is IPXR_NO_FRAME, or else of frames */
#define IPXR_OVER_PEERS 10    /* peers: other places, whose datagrams are sealed; `host` is the path of the file with the key */
#define IPXR_OVER_RFC1234 11  /* rfc1234: other places by RFC 1234; `local` is the address of a card */

/* ---- Which cards and switches a system has. These numbers have no words. ---- */

#define IPXR_CARDS_NONE 0       /* none: the words tap, interface and vde begin no link there */
#define IPXR_CARDS_ALL 1        /* TAPs, Ethernet interfaces and switches of VDE */
#define IPXR_CARDS_INTERFACES 2 /* Ethernet interfaces alone */

/* The kind of frames of a link that has any: the number behind IPXR_FRAME_SNAP. */
#define IPXR_FRAME_ANY (IPXR_FRAME_KINDS + 1)

/* ---- What was expected where a line is wrong. These numbers have no words. ---- */

#define IPXR_EXPECTED_LINE 1             /* one of the words that begin a line */
#define IPXR_EXPECTED_NETWORK 2          /* the number of a network, 1 to FFFFFFFD */
#define IPXR_EXPECTED_COST 3             /* the cost in ticks, 1 to 65535 */
#define IPXR_EXPECTED_LONGEST 4          /* the bytes of the longest packet, 576 to 1500 */
#define IPXR_EXPECTED_ROUTES 5           /* the most routes, 0 to 65535 */
#define IPXR_EXPECTED_SERVICES 6         /* the most services, 0 to 65535 */
#define IPXR_EXPECTED_LINK 7             /* one of the words that begin a link */
#define IPXR_EXPECTED_LINK_OF_SYSTEM 8   /* one of them that this system has: it has no such card or switch */
#define IPXR_EXPECTED_ADDRESS 9          /* a numeric address with a port, or a port alone */
#define IPXR_EXPECTED_ADDRESS_OF_FOUR 10 /* one of IPv4: this one is of IPv6 */
#define IPXR_EXPECTED_REMOTE 11          /* an address or the name of a host, with a port that isn't 0 */
#define IPXR_EXPECTED_REMOTE_OF_FOUR 12  /* one of IPv4, as the address before it */
#define IPXR_EXPECTED_REMOTE_OF_SIX 13   /* one of IPv6, as the address before it */
#define IPXR_EXPECTED_CONNECTION 14      /* listen or connect */
#define IPXR_EXPECTED_TAP 15             /* the name of a TAP */
#define IPXR_EXPECTED_INTERFACE 16       /* the name of an interface */
#define IPXR_EXPECTED_FRAMES 17          /* a kind of frames */
#define IPXR_EXPECTED_NODE_WORD 18       /* node, or nothing more */
#define IPXR_EXPECTED_NODE 19            /* a node of one computer */
#define IPXR_EXPECTED_NOTHING 20         /* nothing more */
#define IPXR_EXPECTED_SOCKET 21          /* a socket, 1 to FFFF */
#define IPXR_EXPECTED_CLIENTS 22         /* the most clients, 1 to those of the call */
#define IPXR_EXPECTED_OF_ADDRESS 23      /* the most clients of one address, 1 to the first of `numbers` */
#define IPXR_EXPECTED_RATE 24            /* a rate, 1 to 1,000,000, or none */
#define IPXR_EXPECTED_SHARE 25           /* the share of a quiet sender, 1 to the first of `numbers` */
#define IPXR_EXPECTED_HOUSEHOLD 26       /* what all clients of an address receive, 1 to 1,000,000, or none */
#define IPXR_EXPECTED_STRANGERS 27       /* the datagrams for strangers, 1 to 1,000,000, or none */
#define IPXR_EXPECTED_KILOBITS 28        /* the kilobits a second, 1 to 10,000,000 */
#define IPXR_EXPECTED_RANGE 29           /* an address of IPv4, and the bits that count */
#define IPXR_EXPECTED_FIRST 30           /* one that is 0 behind its `bits` */
#define IPXR_EXPECTED_FEWER_WORDS 31     /* at most 32 words */
#define IPXR_EXPECTED_BY_ADDRESS 52      /* by-address (32 to 51 are in ipxr_configuration.h) */
#define IPXR_EXPECTED_NO 53              /* no */
#define IPXR_EXPECTED_RULE 54            /* one of the words that say what a rule names */
#define IPXR_EXPECTED_PACKET_TYPE 55     /* a type of packets, 0 to 255 */
#define IPXR_EXPECTED_NETWORKS 56        /* a network, or the first and the last of several, 1 to FFFFFFFE */
#define IPXR_EXPECTED_WAY 57             /* in or out */
#define IPXR_EXPECTED_SERVICE_TYPE 58    /* a type of services, 0 to FFFF, or * */
#define IPXR_EXPECTED_SERVICE_NAMES 59   /* a name of at most 47 bytes, the beginning of one and *, or * */
#define IPXR_EXPECTED_DESTINATION 61     /* the network where a route leads, 1 to FFFFFFFE (60 is in ipxr_configuration.h) */
#define IPXR_EXPECTED_HOPS 62            /* the hops of a route or to a service, 1 to 15 */
#define IPXR_EXPECTED_TICKS 63           /* the ticks of a route, 1 to 65535 */
#define IPXR_EXPECTED_VIA 64             /* via */
#define IPXR_EXPECTED_ONE_TYPE 65        /* the type of a service, 1 to FFFE */
#define IPXR_EXPECTED_SERVICE_NAME 66    /* the name of a service: 1 to 47 printable characters of ASCII, without a * */
#define IPXR_EXPECTED_SERVICE_ADDRESS 67 /* where a service is offered: network, node and socket, with a . between each two */
#define IPXR_EXPECTED_GROUP 71           /* an address of IPv4 from 224.0.0.0 to 239.255.255.255 with a port that isn't 0 (68 to 70 are in
                                          * ipxr_configuration.h) */
#define IPXR_EXPECTED_VIA_OR_FRAMES 72   /* via, or a kind of frames */
#define IPXR_EXPECTED_CARD 73            /* the address of a card: of IPv4, without a port, and not 0.0.0.0, a group's or 255.255.255.255 */
#define IPXR_EXPECTED_SWITCH 74          /* the path of a switch, of 1 to 90 bytes, none of them 0 */
#define IPXR_EXPECTED_FRAMES_OR_NOTHING 75 /* a kind of frames, or nothing more */
#define IPXR_EXPECTED_ORIGIN 76          /* *, or http:// or https:// and 1 to 80 printable characters of ASCII without / */
#define IPXR_EXPECTED_KEY_FILE 78        /* the path of a file with a key, of 1 to 253 bytes, none of them 0 (77 is in ipxr_configuration.h) */
#define IPXR_EXPECTED_CARD_AND_PORT 79   /* one like IPXR_EXPECTED_CARD, with a port that isn't 0 */

/* ---- Bytes that are enough for any words. These numbers have no words. ---- */

#define IPXR_LONGEST_ADDRESS 63 /* of an address with its port */
#define IPXR_LONGEST_LINK 348   /* of a link */

/* ---- Values ---- */

/* An address with its port. What isn't said is 0. */
typedef struct ipxr_setting_host {
    uint8_t four[4];  /* of IPv4: its four numbers, */
    uint16_t six[8];  /* or of IPv6: its eight groups */
    uint16_t port;    /* 0 where the system is to take a free one */
    ipxr_flag is_six;
} ipxr_setting_host;

/* What a line says of a link. */
typedef struct ipxr_setting_link {
    uint8_t carrier;          /* one of IPXR_OVER_.. */
    uint8_t frames;           /* one of IPXR_FRAME_.., or IPXR_NO_FRAME */
    ipxr_flag has_word;       /* a word of it was read */
    ipxr_setting_host local;  /* where datagrams and connections come in, or with port 0 the address of the card of a group */
    ipxr_setting_host remote; /* where they go, */
    uint8_t host[254];        /* or the name of the host there, or the path of a switch or of a key's file, with zeros behind it, all of them
                               * where there is none */
    uint8_t name[16];         /* of a TAP or an interface, alike */
} ipxr_setting_link;

/* What a line says of a network; of the router's own, its number and node. */
typedef struct ipxr_setting_network {
    uint32_t number;      /* 0 where it wasn't read */
    ipxr_flag has_head;   /* all before the link was read: these */
    ipxr_flag has_shares; /* the line says them */
    uint16_t cost;
    uint16_t longest;
    uint16_t routes;
    uint16_t services;
    ipxr_flag has_node;   /* the line says the gateway's node there */
    uint8_t node[6];
} ipxr_setting_network;

/* What a line `route` says: a route by way of a node that says nothing itself. `route` is for ipxr_edge_write_routes. */
typedef struct ipxr_static_route {
    size_t line;           /* the number of the line, or 0 in an ipxr_setting */
    ipxr_route_entry route;
    uint8_t via[6];        /* the node */
} ipxr_static_route;

/* What a line `service` says: a service by way of such a node. `service` is for ipxr_edge_write_services. */
typedef struct ipxr_static_service {
    size_t line;           /* the number of the line, or 0 in an ipxr_setting */
    ipxr_service_entry service;
    uint8_t via[6];        /* the node */
} ipxr_static_service;

/* What a line says, up to the first word that is wrong. */
typedef struct ipxr_setting {
    size_t read;               /* so many words could be read */
    uint8_t kind;              /* one of IPXR_SETTING_.. */
    uint8_t bits;              /* see IPXR_EXPECTED_FIRST */
    ipxr_setting_network network;
    ipxr_setting_link link;       /* of a network's line, or of a link's, and of a line `peer` its `remote` and `host` alone */
    uint32_t numbers[3];       /* what other lines say */
    ipxr_rule rule;            /* what a rule says, where all its words were read, and else all bytes 0, */
    ipxr_static_route route;   /* what a line `route` says, alike, */
    ipxr_static_service service; /* and a line `service` */
} ipxr_setting;

/* Addresses of IPv4 that begin with the same bits. */
typedef struct ipxr_setting_range {
    uint8_t first[4]; /* the first of them, if their other bits are 0 */
    uint8_t bits;     /* that all have in common */
} ipxr_setting_range;

/* ---- Calls ---- */

/* Reads a line, with its end or without. `has_cards` is one of IPXR_CARDS_.., and any other number is that of all; `is_below_tunnel` is
 * whether the line stands below a link whose clients send datagrams, by `dosbox`, or by `web` without a kind of frames; and `most_clients`
 * is how many clients a network may have. Returns one of IPXR_EXPECTED_.., and then the word with the number `said->read` is wrong, or the
 * line's end; or 0, and then the whole line is right. */
IPXR_CALL uint8_t ipxr_settings_line(const uint8_t *text, size_t length, uint8_t has_cards, uint8_t is_below_tunnel,
                                     uint16_t most_clients, ipxr_setting *said);

/* Where the word of a line with that number stands. Returns how many bytes it has; 0 if there is none, and `start` stays as it was. */
IPXR_CALL size_t ipxr_settings_word(const uint8_t *text, size_t length, size_t number, size_t *start);

/* The socket that a word is, 1 to FFFF in hexadecimal digits; 0 if it is none. */
IPXR_CALL uint16_t ipxr_settings_socket(const uint8_t *word, size_t length);

/* Reads a word of hexadecimal digits, at most so many of them. Returns whether it is one; if not, `number` stays as it was. */
IPXR_CALL ipxr_flag ipxr_settings_hexadecimal(const uint8_t *word, size_t length, size_t digits, uint32_t *number);

/* Reads a word of twelve hexadecimal digits, with colons between each two or without. Returns whether it is one; if not, `node` stays as it
 * was. */
IPXR_CALL ipxr_flag ipxr_settings_node(const uint8_t *word, size_t length, uint8_t node[6]);

/* Reads a word that is a range: an address of IPv4, alone or with /BITS behind it. Returns whether it is one; if not, `range` stays as it
 * was. */
IPXR_CALL ipxr_flag ipxr_settings_range(const uint8_t *word, size_t length, ipxr_setting_range *range);

/* Writes an address with its port as a line has it, such as 10.0.0.5:213 or [fd00::5]:213: IPv6 as RFC 5952 has it, and an address of IPv4
 * in it by four numbers. What is read again is the same. Returns how many bytes were written, without a 0 behind them; 0 if `buffer` has no
 * room for them, and then nothing is written. IPXR_LONGEST_ADDRESS bytes are always enough. */
IPXR_CALL size_t ipxr_settings_address_words(const ipxr_setting_host *host, uint8_t *buffer, size_t size);

/* Writes the words of a link as a line has them, with a blank between each two: its `carrier` and `frames`, and what such a carrier has of
 * `local`, `remote`, `host` and `name`. Returns and writes as above; 0 also if it is no link, by its numbers. IPXR_LONGEST_LINK bytes are
 * always enough. */
IPXR_CALL size_t ipxr_settings_link_words(const ipxr_setting_link *link, uint8_t *buffer, size_t size);

#ifdef __cplusplus
}
#endif

#endif

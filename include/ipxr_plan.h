/* ipxr_plan.h: what stays when a gateway reads another configuration, for C and for whatever can call C. It belongs to ipxr.h and is
 * in the same library.
 *
 * A configuration is a list of links, each of a network. A gateway that runs with one and is given another keeps what it can: links,
 * so that their clients and counts stay; cables, which is what is opened (sockets, connections, TAPs, cards); tunnels; and the router.
 * ipxr_plan is given both lists and says what becomes of each link. It opens and closes nothing itself, keeps nothing, and takes no
 * memory. What it says is proved from its code; docs/RELOAD.md says what stays, docs/LIBIPXR.md how far it is proved.
 *
 *     ipxr_plan_link old[] = {{0x10, IPXR_CARRIER_TUNNEL, 0, 2130, 0, 0, 0, 0, {0, 0, 0, 0, 0, 1}, 1, 0, 1}}, links[] = ...;
 *     ipxr_plan_origin origins[LINKS];
 *     ipxr_plan_fate fates[OLD];
 *     int32_t stays = ipxr_plan(old, OLD, links, LINKS, origins, LINKS, fates, OLD);
 *     if (stays < 0) ...;
 *     ...  -- close the cable of each old link whose fate is_closed; then, for each new link, take over the one that its origin names,
 *             or open one; then make tunnels and the router anew, where they don't stay
 *
 * NUMBERS. What a plan only compares has a number of your choice: equal numbers, in either list, mean the same thing. Number the
 * addresses, names and rules as they come, equal ones alike.
 *
 * WHAT C HAS TO PROMISE is what ipxr.h says. And:
 *
 * 13. The flags `has_node`, `is_of_several` and `is_first` are 0 or 1: any other byte there is no flag, and anything may happen.
 * 14. The stack has room for ipxr_plan, which takes IPXR_PLAN_STACK bytes at most.
 *
 * Everything else is answered with a number: too many links, too little room for what is said of them, a carrier that is none. */
#ifndef IPXR_PLAN_H
#define IPXR_PLAN_H

#include "ipxr_segment.h"

#ifdef __cplusplus
extern "C" {
#endif

/* The most links of a configuration: one for each port of the router, and those of networks that have several. */
#define IPXR_MOST_PLANNED (IPXR_MOST_PORTS + IPXR_MOST_LINKS)

/* The number of a link, where there is none. */
#define IPXR_NO_ONE IPXR_MOST_PLANNED

/* Bytes of stack that ipxr_plan takes at most. */
#define IPXR_PLAN_STACK (1024 * IPXR_MOST_PLANNED + 4096)

/* ---- What carries a link. These numbers have no words. ---- */

#define IPXR_CARRIER_TUNNEL 0 /* DOSBox's tunnel, at its UDP port */
#define IPXR_CARRIER_CARD 1   /* a network card: each network there opens a socket of its own */
#define IPXR_CARRIER_SHARED 2 /* a socket, a connection or a TAP: opened once for all networks on it */
#define IPXR_CARRIER_OWN 3    /* a socket at whichever port is free: each link opens its own */

/* ---- What becomes of a tunnel. These numbers have no words. ---- */

#define IPXR_TUNNEL_ABSENT 0 /* the link has none */
#define IPXR_TUNNEL_STAYS 1  /* it is the one of the old link that the link continues, as it stands */
#define IPXR_TUNNEL_AGAIN 2  /* it is made anew, and that one's clients are let in again, as far as they may */
#define IPXR_TUNNEL_NEW 3    /* it is made anew, without clients */

/* ---- Values ---- */

/* A link of a configuration. */
typedef struct ipxr_plan_link {
    uint32_t network;        /* the number of its network */
    uint8_t carrier;         /* IPXR_CARRIER_TUNNEL and so on */
    uint8_t frames;          /* the kind of its frames */
    uint16_t udp_port;       /* of a tunnel: its port, or 0 if it takes whichever is free */
    uint32_t number;         /* the number of its carrier: of the addresses or the name */
    uint32_t port;           /* the number of what else the router's port is made from: cost, longest packet, shares */
    uint32_t clients;        /* the number of the rules for its clients */
    uint32_t sockets;        /* the number of the sockets whose broadcasts are extended */
    uint8_t node[6];         /* the router's node there: of an old link the one that it has, of a new one the one that a new router
                                would have, */
    ipxr_flag has_node;      /* if it is known: 0 or 1. That of a card that isn't there isn't known */
    ipxr_flag is_of_several; /* whether its network has several links: 0 or 1 */
    ipxr_flag is_first;      /* whether it is the first of them, or the only one: 0 or 1 */
} ipxr_plan_link;

/* What a new link is made from. */
typedef struct ipxr_plan_origin {
    size_t was;                  /* the old link that it continues, or IPXR_NO_ONE if it is added */
    size_t cable;                /* whose cable it has: if is_kept, that of this old link. Otherwise the one that is opened for this
                                    new link, itself or an earlier one */
    uint8_t tunnel;              /* IPXR_TUNNEL_ABSENT and so on */
    ipxr_flag is_kept;           /* whether the cable stays open */
    ipxr_flag is_as_before;      /* whether it is carried as the link that it continues was. If not, it begins anew there */
    ipxr_flag has_other_clients; /* whether the rules for its clients are others than that one's */
    ipxr_flag has_other_sockets; /* whether it extends broadcasts to other sockets than that one */
} ipxr_plan_origin;

/* What becomes of an old link. */
typedef struct ipxr_plan_fate {
    size_t becomes;        /* the new link that continues it, or IPXR_NO_ONE if it is removed */
    ipxr_flag is_closed;   /* whether its cable is closed. This is said of the first of the links that share it */
    ipxr_flag ends_tunnel; /* whether it is a tunnel that ends: its clients wouldn't find it again */
} ipxr_plan_fate;

/* ---- The plan ---- */

/* Plans what stays when a gateway with the links `old` gets the links `links`. Writes what each new link is made from, and what becomes
 * of each old one; what lies behind stays as it is. Returns 1 if the router stays, 0 if it doesn't; or IPXR_MANY_LINKS if there are more
 * than IPXR_MOST_PLANNED, else IPXR_SHORT_BUFFER if there is no room for what is said of each, else IPXR_BAD_LINK if a carrier is none of
 * the four, and then nothing is written. */
IPXR_CALL int32_t ipxr_plan(const ipxr_plan_link *old, size_t old_count, const ipxr_plan_link *links, size_t count,
                            ipxr_plan_origin *origins, size_t origins_room, ipxr_plan_fate *fates, size_t fates_room);

#ifdef __cplusplus
}
#endif

#endif

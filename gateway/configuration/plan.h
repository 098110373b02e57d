/* A change of the settings before it is made: what stays, as the library plans it, and all that takes memory, which is made first. Where
 * any of it is refused there is no change at all. */
#ifndef PLAN_H
#define PLAN_H

#include "gateway.h"
#include "ipxr_plan.h"

typedef struct plan {
    const settings *set;
    ipxr_plan_origin origins[MOST_LINKS]; /* what each link of the settings is made from, */
    ipxr_plan_fate fates[MOST_LINKS];     /* and what becomes of each link until now */
    ipxr_port ports[IPXR_MOST_PORTS]; /* of the router, with the gateway's nodes, but for that of its own network */
    bool is_new_router;         /* the router is made anew: */
    ipxr router;                /* this one, which has started */
    ipxr_segment segments[IPXR_MOST_PORTS]; /* of networks of several links, by their port */
    bool has_tunnel[MOST_LINKS];            /* for each link whether its tunnel is made anew; */
    network tunnels[MOST_LINKS];            /* of these the tunnel, and what belongs to it */
} plan;

/* Plans the change to settings. Returns false where memory is refused; then nothing of it is left. The gateway is as it was in any case. */
bool plan_make(plan *it, gateway *gate, const settings *set);

/* It isn't carried out: what was made for it is freed. */
void plan_drop(plan *it);

#endif

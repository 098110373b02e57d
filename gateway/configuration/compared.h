/* The links of two configurations as the library compares them: what it only compares has a number, the same one for what is the same. */
#ifndef COMPARED_H
#define COMPARED_H

#include "gateway.h"
#include "ipxr_plan.h"

typedef struct compared {
    ipxr_plan_link old[MOST_LINKS];   /* that the gateway has; */
    ipxr_plan_link links[MOST_LINKS]; /* and those of the settings */
} compared;

/* Compares the gateway's links with those of settings. Tells the ports of a router that would be made for these. */
void compare(compared *it, const gateway *gate, const settings *set, ipxr_port ports[IPXR_MOST_PORTS]);

#endif

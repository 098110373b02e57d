/* Addresses that clients have, one list for the whole gateway: whoever has clients on several networks has one share of their limits. A
 * network of another kind is one that speaks, too. */
#ifndef SPEAKER_H
#define SPEAKER_H

#include <stddef.h>
#include <stdint.h>

#include "configuration/settings.h"
#include "limits/account.h"
#include "limits/line.h"
#include "limits/meter.h"
#include "limits/receiver.h"

/* The numbers of the queues by which clients receive: what the router says itself, answers to pings, and what comes from each link of another
 * kind; all behind these are of addresses that speak. Where more speak than there are numbers, the library has some share one. */
enum { OF_ROUTER, OF_PINGS, OF_NETWORKS, OF_ADDRESSES = OF_NETWORKS + MOST_LINKS };

/* What all clients of an address receive on networks with one limit for that. */
typedef struct household {
    uint64_t between; /* nanoseconds that a packet takes there; 0 where nobody has received any */
    fair received; /* of each other who speaks to them, */
    meter among;   /* and of each other */
    struct household *next;
} household;

/* An address that clients have, and what they said together. Or a network that isn't of DOSBox'. */
typedef struct speaker {
    uint8_t host[4];
    size_t clients;
    uint8_t queue;    /* the number of its queue, or 0 where an address doesn't speak; */
    unsigned quiet;   /* and seconds since it did */
    household first;  /* what all its clients receive; of other limits in a list behind it */
    ipxr_address_use used; /* of the limits that are the same on all networks, */
    uint64_t used_clock;   /* when that was looked at last */
    meter answers;      /* to pings of others */
    account handed;     /* to the router */
    account advertised; /* of these, what routers tell */
    line_use line;    /* what it uses of a line that is narrow */
    struct speaker *next;
} speaker;

/* One more client has an address. Returns it. */
speaker *speaker_join(const uint8_t host[4]);

/* One fewer has it. */
void speaker_leave(speaker *it);

/* An address speaks, or a network of another kind with a number. Returns the number of its queue. */
uint8_t speaker_speaks(speaker *it);
void speaker_be_network(speaker *it, size_t number);

/* What an address receives on networks where a packet takes so many nanoseconds of that. */
household *speaker_household(speaker *it, uint64_t between);

/* A second passes for all addresses. */
void speakers_second(void);

/* What was said from all addresses until now isn't held against anybody. */
void speakers_forget(void);

#endif

/* What clients of a tunnel receive and say within limits, so that who floods loses, and not who plays. A client receives so many packets a
 * second, no more than it can read, so that it hears pings and stays. Where more comes for it, each address that speaks to it has the
 * same part of that, however many clients it has, and what one doesn't use the others have. Answers to pings have one part together, as far
 * as their speakers may be pinged. A link with frames receives what clients say in the same way, since a PC there may read no faster. What all clients of an address receive
 * has a limit too: else whoever has many that only listen would make each packet cost a copy for each of them.
 *
 * What passes the library decides (ipxr_limits.h, docs/LIMITS.md): here it is asked, with what has been used. All of this stands behind the
 * tunnel, which has said who is a client and who gets what: who answers the gateway's pings stays, whatever is dropped here. */
#ifndef THROTTLE_H
#define THROTTLE_H

#include <stddef.h>

#include "configuration/settings.h"
#include "ipxr_limits.h"
#include "limits/meter.h"
#include "limits/receiver.h"
#include "monitoring/counts.h"
#include "tunnel/roster.h"

typedef struct throttle {
    bool is_off;
    ipxr_limits limits;
    bool has_household;
    ipxr_household_limits household; /* what all clients of an address receive */
    meter pinged; /* by all together: each client answers each ping */
} throttle;

/* Who said a packet that goes on: an address with a client, or a network of another kind; and what the packet is, one of IPXR_KIND_... Of
 * what the router itself says there is none: NULL. */
typedef struct origin {
    speaker *speaks;
    member *client; /* or NULL */
    uint8_t kind;
    bool is_beyond_pings; /* it looks like an answer to a ping, and so much of that kind answers none */
} origin;

/* Sets the limits of a network, by its line and those below it. */
void throttle_set(throttle *it, const network_setting *set);

/* Somebody says a packet: what looks like answers to more pings than others may send him goes by his own queue. */
void throttle_note(origin *by);

/* Why a client's packet is dropped before anybody gets it; REASONS where it isn't. */
reason throttle_lets_say(throttle *it, const origin *by);

/* The queue by which clients and links get a packet of one who says it, or of the router where that is NULL. */
uint8_t throttle_queue(const origin *by);

/* Why a client doesn't receive a packet of so many bytes by a queue; REASONS where it does. */
reason throttle_receives(const throttle *it, member *to, uint8_t queue, size_t length);

/* Why a link with frames, which has some queues, doesn't get a packet of so many bytes, in so many frames; REASONS where it does. Only what
 * clients say is limited there. */
reason throttle_carries(const throttle *it, receiver *queues, const origin *by, size_t length, uint32_t frames);

/* Why a packet of a kind that came in a frame goes nowhere; REASONS where it does. */
reason throttle_lets_in(throttle *it, uint8_t kind);

/* Why the router doesn't hear a packet that came in a frame; REASONS where it does. (what it hears of other routers it says to all other
 * networks at once, and what it is asked it answers at length) */
reason throttle_hears(const throttle *it, const origin *by);

/* Whether the gateway answers a client's registration or ping; and whether a client gets a packet by which the router answers what it
 * asked, or somebody in its name. */
bool throttle_lets_answer(const throttle *it, member *to);
bool throttle_lets_router_answer(const throttle *it, member *to);

/* Why a client's packet isn't handed to the router; REASONS where it is. */
reason throttle_hands(const throttle *it, const origin *by);

#endif

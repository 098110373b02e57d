/* What is counted on a network: packets in and out, and each that was lost, by its reason. The library counts what became of those that came
 * (ipxr_fates.h). */
#ifndef COUNTS_H
#define COUNTS_H

#include <stdint.h>

#include "ipxr_fates.h"

/* Why the gateway lets go of a packet before the router hears it, or behind the router: the library has what each means. */
typedef enum {
    TOO_LONG = IPXR_LOST_TOO_LONG,
    FALSE_SOURCE = IPXR_LOST_FALSE_SOURCE,
    STRANGER = IPXR_LOST_STRANGER,
    NO_ROOM = IPXR_LOST_NO_ROOM,
    NOT_ALLOWED = IPXR_LOST_NOT_ALLOWED,
    NO_CLIENT = IPXR_LOST_NO_CLIENT,
    NO_IPX = IPXR_LOST_NO_IPX,
    OTHER_KIND = IPXR_LOST_OTHER_KIND,
    SECOND_KIND = IPXR_LOST_SECOND_KIND,
    FOR_ANOTHER = IPXR_LOST_FOR_ANOTHER,
    OWN_FRAME = IPXR_LOST_OWN_FRAME,
    NO_MEMORY = IPXR_LOST_NO_MEMORY,
    NOT_EXTENDED = IPXR_LOST_NOT_EXTENDED,
    NOT_SENT = IPXR_LOST_NOT_SENT,
    NOBODY_THERE = IPXR_LOST_NOBODY_THERE,
    TOO_MANY_STRANGERS = IPXR_LOST_TOO_MANY_STRANGERS,
    TOO_MUCH_FOR_CLIENT = IPXR_LOST_TOO_MUCH_FOR_CLIENT,
    TOO_MUCH_FOR_ADDRESS = IPXR_LOST_TOO_MUCH_FOR_ADDRESS,
    TOO_MUCH_FOR_LINE = IPXR_LOST_TOO_MUCH_FOR_LINE,
    TOO_MUCH_FOR_LINK = IPXR_LOST_TOO_MUCH_FOR_LINK,
    TOO_MANY_PINGS = IPXR_LOST_TOO_MANY_PINGS,
    TOO_MANY_QUESTIONS = IPXR_LOST_TOO_MANY_QUESTIONS,
    TOO_MANY_ADVERTISEMENTS = IPXR_LOST_TOO_MANY_ADVERTISEMENTS,
    TOO_MANY_ANSWERS = IPXR_LOST_TOO_MANY_ANSWERS,
    FOR_FAR_ROUTERS = IPXR_LOST_FOR_FAR_ROUTERS,
    TOO_MUCH_FOR_ROUTER = IPXR_LOST_TOO_MUCH_FOR_ROUTER,
    FROM_AFAR = IPXR_LOST_FROM_AFAR,
    DENIED = IPXR_LOST_DENIED,
    NOT_SEALED = IPXR_LOST_NOT_SEALED,
    REPEATED = IPXR_LOST_REPEATED,
    OTHER_SESSION = IPXR_LOST_OTHER_SESSION,
    REASONS = IPXR_NO_REASON,
} reason;

/* The router's drops have ten places for each hundred of their numbers. */
enum { MOST_REST = 10 };

typedef struct counts {
    ipxr_counts packets; /* that came, by the link; those that were lost, or dropped by the router; and what else was lost */
    uint64_t out;        /* packets that were sent; a broadcast to several clients is one */
    uint64_t extended;   /* copies of broadcasts that were handed to this network */
    uint64_t refused;    /* connections, while a PC was connected; of a link that several networks share, the first counts them */
} counts;

const char *reason_words(reason why);

/* Adds what was counted elsewhere. */
void counts_add(counts *it, const counts *other);

/* Counts that something is lost. */
static inline void counts_lose(counts *it, reason why)
{
    ipxr_counts_lose(&it->packets, (uint8_t)why);
}

/* The number of the router's drop that is counted at a place. */
int32_t drop_at(size_t place);

/* Says a line for each reason for which something was lost. */
void counts_show(const counts *it);

#endif

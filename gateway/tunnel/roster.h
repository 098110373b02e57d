/* The clients of a tunnel as the gateway tells of them, and what each has received and said lately: who they are, the library knows. */
#ifndef ROSTER_H
#define ROSTER_H

#include <stdbool.h>
#include <stddef.h>
#include <stdint.h>

#include "ipxr_limits.h"
#include "limits/receiver.h"
#include "limits/speaker.h"
#include "tunnel/asked.h"

/* Seconds that are left for a registration when the library pings him who registered, for the first time. (the second goes when none is left) */
enum { PINGED_AT = 2 };

/* What was dropped of a client. */
typedef enum {
    DROPPED_FOR_IT,     /* packets for it, since it received too many */
    DROPPED_OF_IT,      /* copies of what it said, since others received too many */
    DROPPED_PINGS,      /* pings of its own */
    DROPPED_QUESTIONS,  /* questions to the router */
    DROPPED_ADVERTISEMENTS, /* what it told as a router */
    DROPPED_FOR_ROUTER, /* all else that the router would hear, and what routers of other networks would */
    DROPPED_ANSWERS,    /* of the gateway, to its registrations and pings */
    DROPS,
} drop;

typedef struct member {
    uint8_t place[6];
    uint8_t node[6];
    uint64_t refused; /* datagrams for it that the system didn't take */
    uint64_t dropped[DROPS];
    speaker *speaks;  /* its address */
    uint64_t heard;   /* when something came from it last, by the clock of limits */
    bool is_trusted;  /* whether that needn't answer pings */
    bool is_by_line;  /* whether it is reached by the narrow line */
    receiver *queues; /* what it receives of each who speaks to it */
    asked ping;       /* the last that it was sent */
    uint64_t kept;    /* the tunnels' second in which a reload kept it, or 0, */
    int silent;       /* and seconds since it had answered then */
    uint64_t unpinged;  /* the tunnels' second from which on it is pinged, since it waits for no answer to its registration any more; or 0 */
    ipxr_client_use used; /* of its limits, */
    uint64_t used_clock;  /* when that was looked at last */
} member;

typedef struct roster {
    member *list; /* in the order in which they came; behind them those have queues, too, for whom there is room */
    receiver *queues; /* of all */
    size_t count;
    size_t room;
    size_t last; /* the one that was found last */
} roster;

/* Makes one for so many clients. Returns false where there is no memory. */
bool roster_make(roster *it, size_t room);
void roster_free(roster *it);

/* The client at a place, or NULL. Who asks for one behind the other, in their order, or for one again, is answered at once. */
member *roster_find(roster *it, const uint8_t place[6]);

/* The client that has a node, or NULL. */
member *roster_of_node(roster *it, const uint8_t node[6]);

/* A client comes, whose address is trusted or not, and which is reached by the narrow line or not. */
void roster_add(roster *it, const uint8_t place[6], const uint8_t node[6], bool is_trusted, bool is_by_line);
void roster_remove(roster *it, const uint8_t place[6]);

/* Whether nothing has come from a client for two seconds: it may be switched off. (a game says something more often) */
bool roster_only_listens(const member *it);

/* Seconds since a client answered: its tunnel, which a reload may have made, says how many in this second of the tunnels. (an answer in the
 * second of the reload, but behind it, isn't seen) */
int roster_silence(const member *it, uint64_t second, int told);

/* In a second of the tunnels there are so many left for which a client's registration is remembered. And whether it may wait for the answer to
 * that: a DOSBox takes whatever comes first for it, within five seconds, so the tunnel doesn't ping it for seven. */
void roster_registers(member *it, uint64_t second, uint8_t left);
bool roster_waits(const member *it, uint64_t second);

#endif

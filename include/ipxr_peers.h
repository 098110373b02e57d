/* ipxr_peers.h: several gateways that share one network over UDP, for C and for whatever can call C. It belongs to ipxr.h and is in the
 * same library: which datagrams count, so that none that was recorded counts again; where each place is; which number a datagram has. What
 * each call does is proved from its code, and so is what follows; docs/PEERS.md has both.
 *
 *     ipxr_peers peers = {{0}};
 *     ipxr_peers_begin(&peers, session);                     -- 16 random bytes
 *     ...
 *     ipxr_opened opened = ...;                              -- a datagram came, and its seal was right
 *     switch (ipxr_peers_hear(&peers, &opened, &place)) {
 *     case IPXR_PEERS_AGAIN:                                 -- begin with another session, and then as IPXR_PEERS_GREET
 *     case IPXR_PEERS_GREET: ...                             -- an empty datagram to opened.address, which echoes opened.session
 *     case IPXR_PEERS_NEW: ...                               -- the same, and what it carries is for you
 *     case IPXR_PEERS_HEARD: ...                             -- what it carries is for you
 *     }
 *     ...
 *     ipxr_peers_second(&peers);                             -- each second
 *
 * A DATAGRAM carries the sender's session and its number there, from 1 on, and the receiver's session as the sender knows it: its echo. Zeros
 * stand for a session that isn't known. All of it is sealed by a key that all places share: seals are yours to make and to open.
 *
 * A PLACE is a session that was heard with your own session as its echo. It is where its datagram of the highest number came from. It
 * is present for 180 seconds after each that is heard; datagrams are sent to places that are present.
 *
 * WHAT C HAS TO PROMISE. Peers are a value of your own, with nothing to free. It begins with all bytes 0, and is changed by these calls
 * alone; you may read it. Each session to begin with is new: random, and nobody else's. A datagram that you hand in was sealed by the
 * key. What ipxr.h says of pointers and threads holds here too. Everything else is answered: any datagram, any place. No call takes
 * memory. */
#ifndef IPXR_PEERS_H
#define IPXR_PEERS_H

#include "ipxr.h"

#ifdef __cplusplus
extern "C" {
#endif

/* How many places there are. */
#define IPXR_MOST_PEERS 64

/* ---- What becomes of a datagram. These numbers have no words. ---- */

#define IPXR_PEERS_DROPPED 0  /* nothing: it is your own, its session is zeros or its number 0, or you haven't begun */
#define IPXR_PEERS_GREET 1    /* its echo isn't your session: send an empty datagram there that echoes its session. Nothing is kept */
#define IPXR_PEERS_REPEATED 2 /* nothing: it was heard, or it came too late to tell */
#define IPXR_PEERS_HEARD 3    /* it is heard, from a place that you know */
#define IPXR_PEERS_NEW 4      /* it is heard, from a new place: answer with an empty datagram that echoes its session */
#define IPXR_PEERS_FULL 5     /* nothing: it is of a new place, and 64 others are present */
#define IPXR_PEERS_AGAIN 6    /* it is of a new place, and of the 64 some aren't present: begin again, and greet it */

/* ---- Values ---- */

/* A datagram that came, and whose seal was right. */
typedef struct ipxr_opened {
    uint8_t session[16]; /* the sender's */
    uint8_t echo[16];    /* yours, as the sender knows it, or zeros */
    uint8_t address[24]; /* where it came from: any bytes, the same for the same address */
    uint64_t number;     /* its number in the sender's session */
} ipxr_opened;

/* A place. With all bytes 0 there is none. */
typedef struct ipxr_peer {
    uint8_t session[16];
    uint8_t address[24];
    uint64_t left;       /* for how many seconds it is present still, unless it is heard: at most 180. At 0 it isn't */
    uint64_t newest;     /* the highest number that was heard */
    uint64_t slots[256]; /* and the highest of each remainder by 256 */
} ipxr_peer;

/* All places. With all bytes 0 you haven't begun. */
typedef struct ipxr_peers {
    uint8_t session[16]; /* your own */
    uint64_t sent;       /* your last number, or 0 */
    uint64_t used;       /* how many places were heard in this session: the first ones are theirs */
    ipxr_peer places[64];
} ipxr_peers;

/* ---- Calls ---- */

/* Begins, or begins again, with a session, in which your numbers begin from 1. What was known of all places is forgotten. */
IPXR_CALL void ipxr_peers_begin(ipxr_peers *peers, const uint8_t session[16]);

/* Hears a datagram. Returns what becomes of it, one of IPXR_PEERS_..; if it is heard (IPXR_PEERS_HEARD, IPXR_PEERS_NEW), `place` has the number
 * of its place then, below IPXR_MOST_PEERS, which that place keeps until you begin again. If not, `place` stays as it was. A new
 * place at another's address takes its turn: the other isn't present any more. */
IPXR_CALL uint8_t ipxr_peers_hear(ipxr_peers *peers, const ipxr_opened *opened, uint8_t *place);

/* The number of the datagram that you send next, which you must seal with no other one. 0: there is none left, begin again. */
IPXR_CALL uint64_t ipxr_peers_number(ipxr_peers *peers);

/* Whether a place is present: a datagram to it echoes that session and goes to that address. If it isn't, both stay as they were. */
IPXR_CALL ipxr_flag ipxr_peers_present(const ipxr_peers *peers, uint8_t place, uint8_t session[16], uint8_t address[24]);

/* A second passes. */
IPXR_CALL void ipxr_peers_second(ipxr_peers *peers);

#ifdef __cplusplus
}
#endif

#endif

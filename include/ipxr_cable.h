/* ipxr_cable.h: what a gateway decides about its cables, for C and for whatever can call C. It belongs to ipxr.h and is in the same
 * library: in which kinds of frames it speaks to whom, which of two links that are one cable it shuts, which addresses are in a range, how
 * fast things go out that wait for each other, which node two machines seem to have, who is asked again, and which node is its own. What each
 * call does is proved from its code, and so is what follows; docs/CABLE.md has both.
 *
 *     ipxr_kinds kinds = {{0}};
 *     if (!ipxr_kinds_hear(&kinds, hash(source), source, kind, is_for_all)) ...;     -- a frame came: drop it
 *     for (kind = IPXR_FRAME_ETHERNET2; kind <= IPXR_FRAME_KINDS; kind++)
 *         if (ipxr_kinds_speaks(&kinds, hash(node), node, kind)) ...;                -- send a frame of that kind
 *     ...
 *     ipxr_kinds_second(&kinds);                                                     -- each second
 *
 * WHAT C HAS TO PROMISE. All values are your own, with nothing to free. They begin with all bytes 0, and all but
 * `ipxr_range` are changed by these calls alone, or made zeros again; you may read them. A node has the same hash each time; if strangers
 * may make up nodes, they should not know how. What ipxr.h says of pointers and threads holds here too. Everything else is answered: any
 * node, any number of a kind or a link, any second. No call takes memory. */
#ifndef IPXR_CABLE_H
#define IPXR_CABLE_H

#include "ipxr.h"

#ifdef __cplusplus
extern "C" {
#endif

/* ---- Kinds of frames, on a link where a station may use any. A kind is one of IPXR_FRAME_..; other numbers are none. ---- */

/* A station that is known there: `left` is for how many seconds still, unless it is heard again, at most 300. At 0 nobody is. */
typedef struct ipxr_kind_station {
    uint8_t node[6];
    uint8_t kind; /* the one that it uses */
    uint16_t left;
} ipxr_kind_station;

/* The stations whose nodes have one hash (of its remainders by 64). */
typedef struct ipxr_kind_bucket {
    ipxr_kind_station stations[8];
} ipxr_kind_bucket;

/* What was heard. With all bytes 0 nothing was. */
typedef struct ipxr_kinds {
    uint16_t left[4];             /* for how many seconds each kind is still in use, in the order of their numbers: at most 3,600 */
    ipxr_kind_bucket buckets[64]; /* and who is known */
} ipxr_kinds;

/* A second passes. */
IPXR_CALL void ipxr_kinds_second(ipxr_kinds *kinds);

/* A station, whose node has that hash, says a packet in a kind, to a node or to all. Returns whether that counts: not where it is for all
 * and the station spoke in another kind less than five seconds ago, since it is a copy then, or comes from somebody else with its node. If
 * there is no such kind, or it doesn't count, nothing changes. `is_for_all` is 0 or another number. */
IPXR_CALL ipxr_flag ipxr_kinds_hear(ipxr_kinds *kinds, uint64_t hash, const uint8_t node[6], uint8_t kind, uint8_t is_for_all);

/* The kind that a station uses, or IPXR_NO_FRAME if it isn't known. */
IPXR_CALL uint8_t ipxr_kinds_of(const ipxr_kinds *kinds, uint64_t hash, const uint8_t node[6]);

/* Whether a kind was heard within the last hour. */
IPXR_CALL ipxr_flag ipxr_kinds_is_used(const ipxr_kinds *kinds, uint8_t kind);

/* Whether a packet for a node, or for all, goes out in a kind: for a station that is known in its own alone; for all, and for who isn't
 * known, in each that is in use, or in all four if none is. So it goes out in at least one. */
IPXR_CALL ipxr_flag ipxr_kinds_speaks(const ipxr_kinds *kinds, uint64_t hash, const uint8_t node[6], uint8_t kind);

/* ---- Links of a network that are one cable ---- */

/* What a probe does. These numbers have no words. */
#define IPXR_PROBE_NOTHING 0 /* no other link is shut than before */
#define IPXR_PROBE_HERE 1    /* the link where it came is shut now, which was open */
#define IPXR_PROBE_THERE 2   /* the link that sent it is shut now, which was open */
#define IPXR_PROBE_LATE 3    /* nothing: it is more than three seconds old */

/* Whether a link is shut: for `left` seconds more, unless a probe comes. At 0 it is open. */
typedef struct ipxr_loop {
    uint8_t left;
} ipxr_loop;

/* A probe comes on link `here` that link `there` sent in second `sent`; it is another `now`. Both have their numbers in the order of the
 * network's links: the later of both is shut, or stays so, for this second and five more. Where both are one link, nothing happens: then
 * lend `at_there` another value. */
IPXR_CALL uint8_t ipxr_loop_probe(uint8_t here, uint8_t there, uint64_t sent, uint64_t now, ipxr_loop *at_here, ipxr_loop *at_there);

/* A second passes for a link. Returns whether it opens by that. */
IPXR_CALL ipxr_flag ipxr_loop_second(ipxr_loop *it);

/* ---- Ranges of addresses of IPv4 ---- */

/* All addresses that begin with the same bits as `host`, as many as `bits` says: 32 at most, more are as many. */
typedef struct ipxr_range {
    uint8_t host[4];
    uint8_t bits;
} ipxr_range;

/* Whether an address is in one of so many ranges. */
IPXR_CALL ipxr_flag ipxr_ranges_have(const ipxr_range *ranges, size_t count, const uint8_t host[4]);

/* Whether a range's own address is the first of it: no bit behind its first ones is set. */
IPXR_CALL ipxr_flag ipxr_range_is_first(const ipxr_range *range);

/* ---- What goes out one by one, such as pings by a narrow line ---- */

/* How fast they go. With all bytes 0 nothing waits. Its clock may begin anywhere, but never shows 0. */
typedef struct ipxr_pace {
    uint64_t next;    /* the nanosecond of the clock from which on the first may go, */
    uint64_t between; /* and how many lie between each and the next */
} ipxr_pace;

/* So many wait now, where more came. They go so many nanoseconds apart; or closer together, if they went so before, or one would wait for
 * more than four seconds. */
IPXR_CALL void ipxr_pace_more_wait(ipxr_pace *pace, uint64_t waiting, uint64_t between, uint64_t now);

/* Whether the first of so many that wait goes now. If so, it waits no more. */
IPXR_CALL ipxr_flag ipxr_pace_lets_go(ipxr_pace *pace, uint64_t waiting, uint64_t now);

/* ---- Two machines with one node, on two links of a network ---- */

/* A node that is watched. */
typedef struct ipxr_twin {
    uint8_t node[6];
    uint8_t link;      /* where it was heard last */
    uint8_t moves;     /* in how many seconds it was heard on another link than before, */
    uint64_t began;    /* from this second on, */
    uint64_t moved;    /* and the last of them */
    ipxr_flag is_told; /* whether somebody has been told */
} ipxr_twin;

/* The nodes of a network that are watched. With all bytes 0 none was heard. */
typedef struct ipxr_twins {
    ipxr_twin list[64]; /* each at a place of its own, which whoever comes there next takes */
    uint64_t told;      /* the second in which somebody was told last, or 0 */
} ipxr_twins;

/* A node is heard on a link in a second. Returns whether it must be told that it moves to and fro, and then its link before: it moved in
 * five seconds of a minute, nobody was told of it, and nobody of another for a minute. If not, `before` stays as it was. */
IPXR_CALL ipxr_flag ipxr_twins_hear(ipxr_twins *twins, const uint8_t node[6], uint8_t link, uint64_t second, uint8_t *before);

/* ---- Who is asked again until he answers ---- */

/* The clocks of these calls are nanoseconds that begin anywhere. */

/* Somebody who was asked. With all bytes 0 he wasn't, or has answered. */
typedef struct ipxr_asked {
    uint64_t again; /* the nanosecond from which on he is asked again, or 0 */
} ipxr_asked;

/* When the next of many is asked again. With all bytes 0 nobody is. */
typedef struct ipxr_asks {
    uint64_t next; /* the nanosecond from which on somebody may have to be, or 0 */
} ipxr_asks;

/* He is asked now, and again 250 ms later and up to 500 more, as the number says: one that nobody else can tell, so that nobody can fill his
 * buffer just then. */
IPXR_CALL void ipxr_asked_ask(ipxr_asked *asked, ipxr_asks *all, uint64_t now, uint64_t number);

/* He answers. */
IPXR_CALL void ipxr_asked_answer(ipxr_asked *asked);

/* Whether he is to be asked again now. If it is later, the next moment of all is no later than his. */
IPXR_CALL ipxr_flag ipxr_asked_is_due(const ipxr_asked *asked, ipxr_asks *all, uint64_t now);

/* Whether somebody may have to be asked now: then ask of each whether he is due. So nobody is forgotten. */
IPXR_CALL ipxr_flag ipxr_asks_are_due(ipxr_asks *asks, uint64_t now);

/* Milliseconds until then, at most so many. */
IPXR_CALL uint64_t ipxr_asks_patience(const ipxr_asks *asks, uint64_t most, uint64_t now);

/* ---- The gateway's own node on a network ---- */

/* Of DOSBox' tunnel it is one from which no datagram comes; of a card its address, which is zeros where it isn't known; else what is said, if
 * something is, also where a network has several links. If none of these is known it is made of a hash. */
IPXR_CALL void ipxr_node_choose(uint8_t is_tunnel, uint8_t is_of_several, uint8_t has_said, const uint8_t said[6], const uint8_t card[6],
                                uint64_t hash, uint8_t node[6]);

#ifdef __cplusplus
}
#endif

#endif

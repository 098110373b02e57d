/* ipxr_fates.h: what becomes of each packet that comes to a gateway, for C and for whatever can call C. It belongs to ipxr.h and is in the same
 * library: whether the router hears it, it goes to others, is answered or goes no further, and why; and how many had each fate. What each call
 * does is proved from its code, and so is what follows; docs/FATES.md has both.
 *
 *     ipxr_course course;
 *     ipxr_course_of_frame(&course);
 *     while (course.next != IPXR_NEXT_END)
 *         ipxr_course_answer(&course, answer(packet, course.next)); -- your own: answers a question, or does a deed
 *     ipxr_counts_count(&counts, &course);
 *
 * WHAT C HAS TO PROMISE. All values are your own, with nothing to free. `ipxr_counts` begins with all bytes 0. What ipxr.h says of pointers and
 * threads holds here too. Everything else is answered: any values, any answer. No call takes memory. */
#ifndef IPXR_FATES_H
#define IPXR_FATES_H

#include "ipxr.h"

#ifdef __cplusplus
extern "C" {
#endif

/* ---- What is next: a question, a limit or a deed. These numbers have no words. A question is answered by 0 or another number. A limit is
 * answered by the number of the reason for which it refuses the packet, or by IPXR_NO_REASON. What a deed is answered doesn't matter, where
 * nothing else is said. Each is asked at most once of a packet, and at most IPXR_MOST_STEPS in all. ---- */

#define IPXR_NEXT_END 0 /* nothing: the packet has its fate */
#define IPXR_MOST_STEPS 20

/* Of what came on a cable with frames. */
#define IPXR_NEXT_FRAME_IS_FRAME             1  /* is it a frame of one of the four kinds? */
#define IPXR_NEXT_FRAME_HAS_NETWORK          2  /* has a network on its cable that kind? */
#define IPXR_NEXT_FRAME_IS_HEARD_BESIDE      3  /* has a network on another cable of the same interface that kind? */
#define IPXR_NEXT_FRAME_IS_TOO_LONG          4  /* is it longer than IPXR_LONGEST_FRAME? */
#define IPXR_NEXT_FRAME_IS_OWN               5  /* does it come from the gateway's own node? */
#define IPXR_NEXT_FRAME_IS_PROBE             6  /* is it a probe of the gateway's (ipxr_loop_probe)? What follows of it is done */
#define IPXR_NEXT_FRAME_IS_OF_ITS_KIND       7  /* is it of its sender's kind, where any may be used (ipxr_kinds_hear)? */
#define IPXR_NEXT_FRAME_IS_FOR_ANOTHER       8  /* is it for another node, and its network has no other link? */
#define IPXR_NEXT_FRAME_CAPTURE              9  /* do: write it to the capture */
#define IPXR_NEXT_FRAME_LETS_IN              10 /* limit: too much of its kind came (ipxr_limits_frames_say) */
#define IPXR_NEXT_FRAME_HAS_LINKS            11 /* has its network several links? */
#define IPXR_NEXT_FRAME_IS_PACKET            12 /* of several links: does it hold a whole packet, */
#define IPXR_NEXT_FRAME_IS_BEYOND_LINK       13 /* which is longer than the network allows, */
#define IPXR_NEXT_FRAME_NAMES_CLIENT         14 /* or names a client of a tunnel that is another link as its source? */
#define IPXR_NEXT_FRAME_PUT_ON_LINKS         15 /* do: put it on the other links that get it (ipxr_segment_hear) */
#define IPXR_NEXT_FRAME_IS_FOR_ROUTER        16 /* is it for the router, or for all? */
#define IPXR_NEXT_FRAME_WAS_PUT              17 /* did any link get it? */
#define IPXR_NEXT_FRAME_IS_FROM_CLIENT       18 /* does its frame come from the node of a client at another link? */
#define IPXR_NEXT_FRAME_IS_WHOLE             19 /* of one link: does it hold a whole packet? */

/* Of what the router may hear, wherever it came. */
#define IPXR_NEXT_ROUTER_LETS_HEAR           20 /* limit: its sender said too much for the router (ipxr_limits_hands, ipxr_limits_frames_hand); or it is
                                                  * held or denied (ipxr_edge_enter) */
#define IPXR_NEXT_ROUTER_IS_FOR_ALL          21 /* is it for all of the network where it came? */
#define IPXR_NEXT_ROUTER_EXTEND              22 /* do: hand copies to other networks that have its socket (ipxr_tunnel_extend) */
#define IPXR_NEXT_ROUTER_IS_AWAITED          23 /* does somebody who asked wait for it? Then he gets it */
#define IPXR_NEXT_ROUTER_HEAR                24 /* do: the router hears it (ipxr_packet). Had it no memory? */
#define IPXR_NEXT_ROUTER_OUTCOME             25 /* number: what ipxr_packet returned */

/* Of what a client of a tunnel says to others. */
#define IPXR_NEXT_WORD_IS_PING               26 /* is it a ping, which the tunnel answers? */
#define IPXR_NEXT_WORD_LETS_REPLY            27 /* may its sender be answered now? */
#define IPXR_NEXT_WORD_REPLY                 28 /* do: send him the tunnel's answer */
#define IPXR_NEXT_WORD_LEAVE_UNANSWERED      29 /* do: count that he isn't answered */
#define IPXR_NEXT_WORD_IS_FOR_SOMEBODY       30 /* do clients get it, or the router, or has its network other links? */
#define IPXR_NEXT_WORD_IS_FOR_FAR_ROUTERS    31 /* is it for routers of another network? */
#define IPXR_NEXT_WORD_LETS_SAY              32 /* limit: its sender said too much (ipxr_limits_says) */
#define IPXR_NEXT_WORD_CARRY                 33 /* do: send it to the clients that get it, and put it on other links */
#define IPXR_NEXT_WORD_IS_HEARD              34 /* does the router hear it? */
#define IPXR_NEXT_WORD_WAS_CARRIED           35 /* did anybody get it, or has its network no other link? */

/* Of what came at a tunnel. */
#define IPXR_NEXT_DATAGRAM_IS_TOO_LONG       36 /* is it longer than the network allows? */
#define IPXR_NEXT_DATAGRAM_CAPTURE           37 /* do: write it to the capture */
#define IPXR_NEXT_DATAGRAM_IS_ALLOWED        38 /* may its sender's address have clients? */
#define IPXR_NEXT_DATAGRAM_HEAR              39 /* do: the tunnel hears it. Number: what ipxr_tunnel_hear returned */
#define IPXR_NEXT_DATAGRAM_IS_PACKET         40 /* it says nothing: is it a packet, then of another's source? */
#define IPXR_NEXT_DATAGRAM_IS_ANSWERED       41 /* it registers: does the tunnel answer it, */
#define IPXR_NEXT_DATAGRAM_IS_CLIENT         42 /* is its sender a client already, */
#define IPXR_NEXT_DATAGRAM_LETS_ANSWER       43 /* and may he be answered now? */
#define IPXR_NEXT_DATAGRAM_ANSWER            44 /* do: send him the tunnel's answers */
#define IPXR_NEXT_DATAGRAM_LETS_STRANGER     45 /* or may a stranger be answered now? */
#define IPXR_NEXT_DATAGRAM_ANSWER_STRANGER   46 /* do: send him the tunnel's answer and its ping */
#define IPXR_NEXT_DATAGRAM_IS_CLIENT_NOW     47 /* it answers a ping: is its sender a client now? */
#define IPXR_NEXT_DATAGRAM_IS_FROM_CLIENT    48 /* it speaks: is its sender a client? */
#define IPXR_NEXT_DATAGRAM_IS_PINGED         49 /* he is none: does the tunnel ping him, */
#define IPXR_NEXT_DATAGRAM_LETS_PING         50 /* and may he be pinged now? */
#define IPXR_NEXT_DATAGRAM_PING              51 /* do: send him the tunnel's ping */

/* ---- Fates. These numbers have no words either. ---- */

#define IPXR_FATE_ELSEWHERE    0  /* a network on another cable of the interface hears the frame; it isn't counted here */
#define IPXR_FATE_HEARD        1  /* the router heard it */
#define IPXR_FATE_DROPPED      2  /* the router drops it: `number` is what ipxr_packet returned */
#define IPXR_FATE_HANDED_ON    3  /* it went to others of its network alone */
#define IPXR_FATE_ANSWERED     4  /* the gateway answered it: it registers a client */
#define IPXR_FATE_STAYS        5  /* it answers a ping, and its client stays */
#define IPXR_FATE_AWAITED      6  /* somebody who asked got it */
#define IPXR_FATE_PROBE        7  /* it is a probe of the gateway's own */
#define IPXR_FATE_LOST         8  /* it goes no further: `number` is the reason */

/* ---- Reasons for which a packet goes no further, or a copy of one, or something that was to be sent ---- */

#define IPXR_LOST_TOO_LONG              0  /* longer than what the link carries */
#define IPXR_LOST_FALSE_SOURCE          1  /* it names the address of another as its source */
#define IPXR_LOST_STRANGER              2  /* its sender is no client of the tunnel; he was asked whether he hears */
#define IPXR_LOST_NO_ROOM               3  /* its sender is none, and there is no room for him */
#define IPXR_LOST_NOT_ALLOWED           4  /* its sender may not be one */
#define IPXR_LOST_NO_CLIENT             5  /* for a node of the tunnel that nobody has */
#define IPXR_LOST_NO_IPX                6  /* a frame, or a datagram, without an IPX packet */
#define IPXR_LOST_OTHER_KIND            7  /* a frame of a kind that no network has there */
#define IPXR_LOST_SECOND_KIND           8  /* a frame for all in another kind than what its sender said a moment ago */
#define IPXR_LOST_FOR_ANOTHER           9  /* a frame for another node of the cable */
#define IPXR_LOST_OWN_FRAME             10 /* a frame of the gateway's own that came back */
#define IPXR_LOST_NO_MEMORY             11 /* the router had no memory for what it would have sent */
#define IPXR_LOST_NOT_EXTENDED          12 /* a broadcast that is extended, too long for another network, or its source doesn't know its network */
#define IPXR_LOST_NOT_SENT              13 /* the system refused what was to be sent */
#define IPXR_LOST_NOBODY_THERE          14 /* somebody said that nobody hears at the other address */
#define IPXR_LOST_TOO_MANY_STRANGERS    15 /* a stranger isn't answered: too many were lately */
#define IPXR_LOST_TOO_MUCH_FOR_CLIENT   16 /* a copy for a client that received too much lately */
#define IPXR_LOST_TOO_MUCH_FOR_ADDRESS  17 /* or whose address did, of all its clients */
#define IPXR_LOST_TOO_MUCH_FOR_LINE     18 /* or for which the line had no room */
#define IPXR_LOST_TOO_MUCH_FOR_LINK     19 /* what clients say, for a link with frames that received too much of them lately */
#define IPXR_LOST_TOO_MANY_PINGS        20 /* a ping for all, of a client that sent too many */
#define IPXR_LOST_TOO_MANY_QUESTIONS    21 /* a question to the router, of one that asked too many */
#define IPXR_LOST_TOO_MANY_ADVERTISEMENTS 22 /* what a router tells, of an address that told too much */
#define IPXR_LOST_TOO_MANY_ANSWERS      23 /* an answer of the gateway to a client that was answered too often */
#define IPXR_LOST_FOR_FAR_ROUTERS       24 /* what a client says to routers of another network */
#define IPXR_LOST_TOO_MUCH_FOR_ROUTER   25 /* all else that the router would hear, of an address that said too much */
#define IPXR_LOST_FROM_AFAR            26 /* what only neighbours may say to the router, which another router carried there */
#define IPXR_LOST_DENIED               27 /* a rule of the network denies it */
#define IPXR_LOST_NOT_SEALED           28 /* a datagram of a place that isn't sealed by the key of its network */
#define IPXR_LOST_REPEATED             29 /* one that was heard before, or comes too late to tell */
#define IPXR_LOST_OTHER_SESSION        30 /* one for another session than the gateway's own: recorded, or its sender doesn't know that one yet */
#define IPXR_NO_REASON                  31 /* how many there are; of a limit, that it refuses nothing */

/* Where a packet is on its way. With all bytes 0 it is at an end, where nothing is counted. */
typedef struct ipxr_course {
    uint8_t next;    /* what is next, or IPXR_NEXT_END: */
    uint8_t fate;    /* then its fate, */
    uint16_t number; /* and the number of its reason, or of the router's drop */
} ipxr_course;

/* The way of a packet at its beginning: of what came on a cable with frames, or at a tunnel. */
IPXR_CALL void ipxr_course_of_frame(ipxr_course *course);
IPXR_CALL void ipxr_course_of_datagram(ipxr_course *course);

/* What is next was answered. At its end a way stays. */
IPXR_CALL void ipxr_course_answer(ipxr_course *course, uint16_t answer);

/* ---- Counts. None goes beyond 2^64 - 1. ---- */

#define IPXR_DROPS 190 /* the router's drops have their places by their numbers: number / 100 * 10 + number % 100 */

typedef struct ipxr_counts {
    uint64_t in;           /* packets that came */
    uint64_t lost[31];     /* packets, and all else, that are lost, by the reason */
    uint64_t dropped[190]; /* packets that the router dropped, by its number */
} ipxr_counts;

/* Counts the fate of a packet that is at the end of its way; of one that isn't, nothing. */
IPXR_CALL void ipxr_counts_count(ipxr_counts *counts, const ipxr_course *course);

/* Counts that something is lost for a reason: a copy, or what was to be sent. Any other number counts nothing. */
IPXR_CALL void ipxr_counts_lose(ipxr_counts *counts, uint8_t why);

#ifdef __cplusplus
}
#endif

#endif

/* ipxr_segment.h: one network over several links, as a value, for C and for whatever can call C. It belongs to ipxr.h and is in
 * the same library.
 *
 * A segment joins several links, such as cards, TAPs, a PC in QEMU and a tunnel of DOSBox clients, into one network: together
 * they are one cable, and the router is a station on it. It takes events (a packet that was heard at a link, a packet that the
 * router sends, a second) and says which links get the packet. It has no socket, no clock, no thread and no memory but its own.
 * What each call does is proved from its code; docs/SEGMENT.md says what a segment does, docs/LIBIPXR.md how far it is proved.
 *
 *     ipxr_segment segment = IPXR_SEGMENT_NONE;
 *     ipxr_segment_setting setting = {0x10, {0, 0, 0, 0, 0, 1}, 2, 1024};
 *     ipxr_link wire = {IPXR_LINK_CABLE, 512}, tunnel = {IPXR_LINK_SURE, 512};
 *     if (ipxr_segment_make(&segment, &setting) < 0) ...;
 *     ipxr_segment_change(&segment, 0, &wire);
 *     ipxr_segment_change(&segment, 1, &tunnel);
 *     ...
 *     int32_t heard = ipxr_segment_hear(&segment, 0, frame_source, frame_destination);
 *     ...  -- send the packet to the link of each ipxr_segment_receiver and, if heard is 1, give it to the router
 *     ipxr_segment_free(&segment);
 *
 * LINKS have numbers from 0, and are down at first. A cable is a link such as Ethernet, where every node that is heard is a
 * station. A sure link, such as a tunnel, proves who is there: its stations come and leave through calls of their own, and
 * nothing that another link says moves them. Each link has a share: the most stations of it that are known at one time.
 *
 * NODES. On a link with frames, the source and the destination are those of the frame, and not those of the packet's header.
 * Where there are no frames, such as in a tunnel, the source is the client's node, and ipxr_segment_next_node has the
 * destination.
 *
 * WHAT C HAS TO PROMISE is what ipxr.h says, of this handle too. Everything else is answered with a number: a handle without a
 * segment, a second free, a link that doesn't exist, a packet of any nodes, a setting that is too large, memory that is refused.
 * ipxr_word has the words of the faults. */
#ifndef IPXR_SEGMENT_H
#define IPXR_SEGMENT_H

#include "ipxr.h"

#ifdef __cplusplus
extern "C" {
#endif

/* The most links that one segment can have, and the most stations that it can know. */
#define IPXR_MOST_LINKS 32
#define IPXR_MOST_STATIONS 8192

/* ---- What a link is. These numbers have no words. ---- */

#define IPXR_LINK_DOWN 0  /* nothing goes there, and what comes from there is ignored */
#define IPXR_LINK_CABLE 1 /* every node that is heard there is a station */
#define IPXR_LINK_SURE 2  /* it proves who is there: its stations come and leave */

/* ---- Faults: below 0. The call did nothing. ---- */

#define IPXR_NO_SEGMENT (-8)     /* the handle has no segment */
#define IPXR_NO_LINK (-9)        /* there is no link of that number */
/* of ipxr_segment_change alone: */
#define IPXR_BAD_LINK (-10)      /* its kind is none of the three */
/* of ipxr_segment_make alone: */
#define IPXR_MANY_LINKS (-19)    /* it would have more than IPXR_MOST_LINKS */
#define IPXR_MANY_STATIONS (-20) /* it would know more than IPXR_MOST_STATIONS */

/* ---- Values ---- */

/* A segment, or none. Begin with IPXR_SEGMENT_NONE, pass its address to the calls, and don't look inside. */
typedef struct ipxr_segment {
    ipxr_flag made;
    void *at;
} ipxr_segment;

/* A handle without a segment, to begin with: ipxr_segment segment = IPXR_SEGMENT_NONE; */
#define IPXR_SEGMENT_NONE {0, NULL}

/* What a segment is made from. */
typedef struct ipxr_segment_setting {
    uint32_t network;  /* the number of its network, as the router's port there has it */
    uint8_t node[6];   /* the router's node there: no station's */
    uint8_t links;     /* how many links it has: at most IPXR_MOST_LINKS */
    uint16_t capacity; /* how many stations it knows at one time: at most IPXR_MOST_STATIONS. 0 knows none */
} ipxr_segment_setting;

/* A link. */
typedef struct ipxr_link {
    uint8_t kind;   /* IPXR_LINK_DOWN, IPXR_LINK_CABLE or IPXR_LINK_SURE */
    uint16_t share; /* the most stations of it that are known at one time. A link that is down has none */
} ipxr_link;

/* A station that is known. */
typedef struct ipxr_station {
    uint8_t node[6];
    uint8_t link;          /* where it is */
    ipxr_flag is_sure;     /* whether it came to a sure link: then it is known until it leaves */
    uint16_t seconds_left; /* how many seconds longer it is known, unless it is sure or heard again */
} ipxr_station;

/* ---- Making and freeing ---- */

/* Makes a segment with that setting, which is copied. All its links are down. A segment that the handle had is freed, but only if
 * the new one could be made. Returns 0; or IPXR_MANY_LINKS, else IPXR_MANY_STATIONS, else IPXR_OUT_OF_MEMORY, and then the handle
 * is as it was. */
IPXR_CALL int32_t ipxr_segment_make(ipxr_segment *segment, const ipxr_segment_setting *setting);

/* Frees the segment, if there is one; the handle then has none. */
IPXR_CALL void ipxr_segment_free(ipxr_segment *segment);

/* ---- Events ----
 * ipxr_segment_receiver says which links get an event's packet, until the next event; none if it has no packet. No event takes
 * memory. IPXR_NO_SEGMENT, IPXR_NO_LINK, IPXR_BAD_LINK: nothing was done; if several hold, the first of these. */

/* A link goes up or down, or changes. Its stations are forgotten in any case. Returns 0. */
IPXR_CALL int32_t ipxr_segment_change(ipxr_segment *segment, uint8_t link, const ipxr_link *to);

/* A packet was heard at a link, from a node for a node, or for all. Returns 1 if the router hears it: then give it to
 * ipxr_packet. Otherwise it returns 0: the packet is for another node, or is ignored, since its link is down, or its source is
 * the router's node, the node that stands for all, or a station that came to another link. */
IPXR_CALL int32_t ipxr_segment_hear(ipxr_segment *segment, uint8_t link, const uint8_t source[6], const uint8_t destination[6]);

/* A node came to a link, or left it. Coming counts at a sure link alone. Each returns 0. */
IPXR_CALL int32_t ipxr_segment_come(ipxr_segment *segment, uint8_t link, const uint8_t node[6]);
IPXR_CALL int32_t ipxr_segment_leave(ipxr_segment *segment, uint8_t link, const uint8_t node[6]);

/* A second has passed: stations that were not heard for 300 seconds are forgotten. Returns 0. */
IPXR_CALL int32_t ipxr_segment_second(ipxr_segment *segment);

/* The router sends a packet on the segment's network to that node, or to all: ipxr_packet_sent has it. Returns 0. */
IPXR_CALL int32_t ipxr_segment_send(ipxr_segment *segment, const uint8_t node[6]);

/* ---- What a segment has ----
 * For each there is a count, 0 without a segment, and a call that copies number `index`, counted from 0. That call returns 0;
 * with IPXR_NO_SEGMENT and IPXR_NO_RECORD what you lent for it stays as it was. */

/* The links that get the packet of the last event, in order. */
IPXR_CALL size_t ipxr_segment_receivers(ipxr_segment *segment);
IPXR_CALL int32_t ipxr_segment_receiver(ipxr_segment *segment, size_t index, uint8_t *link);

/* Its stations, in the order in which they came to their links. */
IPXR_CALL size_t ipxr_segment_stations(ipxr_segment *segment);
IPXR_CALL int32_t ipxr_segment_station(ipxr_segment *segment, size_t index, ipxr_station *station);

/* Copies what the link of that number is. Returns 0; with IPXR_NO_SEGMENT and IPXR_NO_LINK `values` stays as it was. */
IPXR_CALL int32_t ipxr_segment_link(ipxr_segment *segment, uint8_t link, ipxr_link *values);

/* Copies the node that a packet with that destination goes to on the segment's network, if no frame says it: the destination's
 * node if its network is this one (its number, 0 or FFFFFFFFh), otherwise the router's. Returns 0; with IPXR_NO_SEGMENT `node`
 * stays as it was. */
IPXR_CALL int32_t ipxr_segment_next_node(ipxr_segment *segment, const ipxr_address *destination, uint8_t node[6]);

#ifdef __cplusplus
}
#endif

#endif

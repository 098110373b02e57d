/* ipxr_fair.h: fair queueing in which nothing waits, for C and for whatever can call C. It belongs to ipxr.h and is in the same
 * library.
 *
 * A receiver reads only so fast, and many speak to it. Each speaker has a queue, on paper: time serves all queues that aren't empty
 * alike, a packet for which there is room in its queue goes out at once, and one for which there is none is dropped. So whoever
 * says less than his part loses nothing, whatever the others send, and those who say more share the rest. What each call does is
 * proved from its code, and so is what follows; docs/FAIR.md has both.
 *
 *     ipxr_fair reader = {0};
 *     uint64_t clock = now;
 *     ipxr_fair_setting setting = {2000000, 12500000, 100000000, 200000000};
 *     if (!ipxr_fair_make(&reader, &setting)) ...;
 *     ...
 *     ipxr_fair_look(&reader, &clock, now);          -- once for all packets that came together
 *     if (ipxr_fair_says(&reader, speaker, frames * 1000000)) ...;   -- send it
 *
 * A METER is a limit for one speaker: so much in so much time, and so much at once.
 *
 * ALL NUMBERS ARE NANOSECONDS that the receiver needs for what it reads. A packet weighs what it takes: where packets count, a
 * second divided by how many are read in a second; where bytes count, so much for each byte; for a packet that goes out in several
 * frames, the sum of all.
 *
 * WHAT C HAS TO PROMISE. Receivers and meters are values of your own, with nothing to free. They begin with all bytes 0, or as a copy
 * of another one, and a receiver is changed by these calls alone; you may read it. What ipxr.h says of pointers and threads holds
 * here too. Everything else is answered: any setting, any speaker, any weight, any time. No call takes memory. */
#ifndef IPXR_FAIR_H
#define IPXR_FAIR_H

#include "ipxr.h"

#ifdef __cplusplus
extern "C" {
#endif

/* How many speakers a receiver has, and the largest number of a setting: 18 minutes. */
#define IPXR_SPEAKERS 256
#define IPXR_MOST_TIME ((uint64_t)1 << 40)

/* ---- Values ---- */

/* How much may wait. A packet is heard if its queue has no more than `one` with it; or no more than `own`, and all queues together no
 * more than `room` and `reserve`; or if its queue and all queues have no more than `room`, so that somebody alone may fill half of
 * it. */
typedef struct ipxr_fair_setting {
    uint64_t one;     /* what each queue may have in any case: the longest packet, in all its frames, at least */
    uint64_t own;     /* what each queue may have while the reserve lasts: no less than `one` */
    uint64_t reserve; /* beyond the room, for queues that have no more than their own */
    uint64_t room;    /* what all queues may have */
} ipxr_fair_setting;

/* A receiver. All bytes 0 are one with a setting of zeros, which hears packets of no weight alone. */
typedef struct ipxr_fair {
    ipxr_fair_setting setting;
    uint64_t left;      /* time that served nobody yet: fewer nanoseconds than queues wait */
    uint64_t served;    /* what every queue that waits was served since the count began */
    uint64_t latest;    /* no queue ends later */
    uint64_t spare;     /* every queue that waits has more than this */
    uint64_t waits;     /* how many queues wait */
    uint64_t total;     /* what all queues have */
    uint64_t ends[256]; /* where each queue ends: what lies beyond `served` is in it */
} ipxr_fair;

/* How much of a limit is used. */
typedef struct ipxr_meter {
    uint64_t used;
} ipxr_meter;

/* ---- Receivers ---- */

/* Makes it a receiver of that setting, for which nothing waits. Returns whether there can be one: `one` is no more than `own`, and no
 * number more than IPXR_MOST_TIME. If not, it stays as it was. */
IPXR_CALL ipxr_flag ipxr_fair_make(ipxr_fair *fair, const ipxr_fair_setting *setting);

/* The time passes that your clock shows beyond what it showed at the last look, which `clock` has; none if it went back. `clock`
 * is `now` then. */
IPXR_CALL void ipxr_fair_look(ipxr_fair *fair, uint64_t *clock, uint64_t now);

/* So many nanoseconds pass. */
IPXR_CALL void ipxr_fair_pass(ipxr_fair *fair, uint64_t nanoseconds);

/* A speaker says a packet of that weight. Returns whether it is heard: then it is in the speaker's queue, and you send it. */
IPXR_CALL ipxr_flag ipxr_fair_says(ipxr_fair *fair, uint8_t speaker, uint64_t weight);

/* The same of a packet that two receivers must hear, such as one that counts packets and one that counts their bytes: it is heard if both
 * hear it, and is in the speaker's queue of both then. Otherwise it is in neither. */
IPXR_CALL ipxr_flag ipxr_fair_both_hear(ipxr_fair *fair, ipxr_fair *other, uint8_t speaker, uint64_t weight, uint64_t other_weight);

/* ---- Meters ---- */

/* So many nanoseconds pass: less of the limit is used. */
IPXR_CALL void ipxr_meter_pass(ipxr_meter *meter, uint64_t nanoseconds);

/* Lets something of that weight pass if no more than `burst` is used then, and counts it. Returns whether it passes. */
IPXR_CALL ipxr_flag ipxr_meter_lets(ipxr_meter *meter, uint64_t burst, uint64_t weight);

/* The same by two meters: it passes if both let it, and both count it then; otherwise neither does. */
IPXR_CALL ipxr_flag ipxr_meter_both_let(ipxr_meter *meter, uint64_t burst, uint64_t weight, ipxr_meter *other, uint64_t other_burst,
                                        uint64_t other_weight);

#ifdef __cplusplus
}
#endif

#endif

/* What waits for somebody where others say more than he reads, as the library counts it (ipxr_limits.h, docs/FAIR.md): who says less than
 * his part loses nothing, and those who say more have the rest in equal parts. Packets are counted, and the room that they take. */
#ifndef RECEIVER_H
#define RECEIVER_H

#include <stdint.h>

#include "ipxr_limits.h"

/* All zeros, nothing waits, and nothing is heard. */
typedef struct receiver {
    ipxr_reader of;
    uint64_t clock; /* when it was looked at last */
} receiver;

/* The same where packets alone are counted. */
typedef struct fair {
    ipxr_fair of;
    uint64_t clock;
} fair;

/* He reads so from now on. Where that is nothing new what waits stays. */
void receiver_set(receiver *it, const ipxr_reading *as);

/* He reads so, unless somebody has said how he reads. */
void receiver_begin(receiver *it, const ipxr_reading *as);
void fair_begin(fair *it, const ipxr_fair_setting *to);

/* What waits for him now. */
ipxr_reader *receiver_now(receiver *it);
ipxr_fair *fair_now(fair *it);

#endif

/* The clock of limits; and what is used of a limit, which a meter of the library counts (ipxr_fair.h): time is told to it when somebody
 * looks. */
#ifndef METER_H
#define METER_H

#include <stdint.h>

#include "ipxr_fair.h"

/* Nanoseconds in a second. */
#define SECOND_NS 1000000000u

/* What is used of a limit, as the clock was when somebody looked last. All zeros, nothing is. */
typedef struct meter {
    ipxr_meter of;
    uint64_t clock;
} meter;

/* From now on limits know what time it is, in nanoseconds of the clock: it is read once a turn, and for what comes together. */
void limits_look_at_clock(void);
uint64_t limit_clock(void);

/* What is used of it now. */
ipxr_meter *meter_now(meter *it);

#endif

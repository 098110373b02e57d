/* The monotonic clock, and the date. */
#ifndef CLOCK_H
#define CLOCK_H

#include <stdint.h>

/* Milliseconds of the clock; what it told last, where it can't be read, and 0 where it never could. It stands still while the machine
 * sleeps. */
uint64_t clock_now(void);

/* The same in nanoseconds, as far as the system counts so finely. */
uint64_t clock_nanoseconds(void);

/* The seconds since 1970 of the world's zone, and the microseconds behind them. */
void clock_date(uint32_t *seconds, uint32_t *microseconds);

#endif

/* The clock of the made-up machine: it stands, runs or jumps as the driver wants. */
#ifndef CLOCKS_H
#define CLOCKS_H

#include <stdint.h>

/* Lets some nanoseconds pass. */
void clock_passes(uint64_t nanoseconds);

/* Nanoseconds that pass each time that somebody looks at it. */
void clock_runs(uint32_t nanoseconds);

#endif

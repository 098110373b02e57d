/* clock.h of a made-up system. */
#include "clocks.h"

#include "systems/clock.h"

enum { NANOSECONDS_OF_ONE = 1000000 /* millisecond */ };

static uint64_t now = UINT64_C(1000000000000);
static uint32_t between;

void clock_passes(uint64_t nanoseconds)
{
    now += nanoseconds;
}

void clock_runs(uint32_t nanoseconds)
{
    between = nanoseconds;
}

uint64_t clock_nanoseconds(void)
{
    now += between;
    return now;
}

uint64_t clock_now(void)
{
    return clock_nanoseconds() / NANOSECONDS_OF_ONE;
}

void clock_date(uint32_t *seconds, uint32_t *microseconds)
{
    *seconds = (uint32_t)(now / 1000000000);
    *microseconds = (uint32_t)(now / 1000 % 1000000);
}

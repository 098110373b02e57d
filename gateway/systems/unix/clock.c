#include "systems/clock.h"

#include <time.h>

enum { NANOSECONDS_OF_ONE = 1000000 /* millisecond */ };

/* The clock that stands still while the machine sleeps: on macOS and OpenBSD the monotonic one goes on. */
#if defined CLOCK_UPTIME_RAW
#define STANDING CLOCK_UPTIME_RAW
#elif defined CLOCK_UPTIME
#define STANDING CLOCK_UPTIME
#else
#define STANDING CLOCK_MONOTONIC
#endif

uint64_t clock_nanoseconds(void)
{
    static uint64_t last;
    struct timespec now;
    if (clock_gettime(STANDING, &now) == 0)
        last = (uint64_t)now.tv_sec * 1000 * NANOSECONDS_OF_ONE + (uint64_t)now.tv_nsec;
    return last;
}

uint64_t clock_now(void)
{
    return clock_nanoseconds() / NANOSECONDS_OF_ONE;
}

void clock_date(uint32_t *seconds, uint32_t *microseconds)
{
    struct timespec now = {0};
    clock_gettime(CLOCK_REALTIME, &now);
    *seconds = (uint32_t)now.tv_sec;
    *microseconds = (uint32_t)(now.tv_nsec / 1000);
}

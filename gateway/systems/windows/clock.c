#include "systems/clock.h"

#include "systems/windows/net.h"

/* Hundreds of nanoseconds, in which Windows counts: in a millisecond and a second, and from 1601, where its date begins, to 1970. */
#define MILLISECOND 10000u
#define SECOND 10000000u
#define FROM_1601 116444736000000000u

/* Its counts; the last ones, where there are none now. */
static uint64_t counted(void)
{
    static uint64_t last;
    ULONGLONG now;
    if (QueryUnbiasedInterruptTime(&now))
        last = now;
    return last;
}

uint64_t clock_now(void)
{
    return counted() / MILLISECOND;
}

uint64_t clock_nanoseconds(void)
{
    return counted() * 100;
}

void clock_date(uint32_t *seconds, uint32_t *microseconds)
{
    FILETIME now;
    GetSystemTimeAsFileTime(&now);
    uint64_t passed = ((uint64_t)now.dwHighDateTime << 32 | now.dwLowDateTime) - FROM_1601;
    *seconds = (uint32_t)(passed / SECOND);
    *microseconds = (uint32_t)(passed % SECOND / 10);
}

/* For the tests in C: a clock that the test sets, so that minutes and hours pass in a moment, numbers that it draws, and what it expects. */
#ifndef OWN_CLOCK_H
#define OWN_CLOCK_H

#include <inttypes.h>
#include <stdbool.h>
#include <stdio.h>
#include <stdlib.h>
#include <string.h>

#include "limits/meter.h"
#include "systems/clock.h"

#define MILLISECOND UINT64_C(1000000)

enum { SECOND = 1000, MINUTE = 60 * SECOND, MOST_TOLD = 9 }; /* milliseconds; and faults that are told */

static uint64_t now = 1, seed = UINT64_C(0x9E3779B97F4A7C15);
static int faults;

uint64_t clock_nanoseconds(void)
{
    return now;
}

static void pass(uint64_t nanoseconds)
{
    now += nanoseconds;
    limits_look_at_clock();
}

static void expect(bool holds, const char *what)
{
    if (!holds && faults++ < MOST_TOLD)
        printf("not so: %s\n", what);
}

static uint64_t draw(uint64_t below)
{
    seed ^= seed << 13;
    seed ^= seed >> 7;
    seed ^= seed << 17;
    return seed % below;
}

#endif

#include "limits/meter.h"

#include "systems/clock.h"

static uint64_t now;

void limits_look_at_clock(void)
{
    now = clock_nanoseconds();
}

uint64_t limit_clock(void)
{
    return now;
}

/* (where the clock was set back no time passes) */
ipxr_meter *meter_now(meter *it)
{
    ipxr_meter_pass(&it->of, now > it->clock ? now - it->clock : 0);
    it->clock = now;
    return &it->of;
}

#include "limits/receiver.h"

#include <string.h>

#include "limits/meter.h"

static void set(ipxr_fair *it, const ipxr_fair_setting *to)
{
    if (memcmp(&it->setting, to, sizeof *to) != 0)
        (void)ipxr_fair_make(it, to);
}

static void begin(ipxr_fair *it, const ipxr_fair_setting *to)
{
    if (it->setting.one == 0)
        (void)ipxr_fair_make(it, to);
}

void receiver_set(receiver *it, const ipxr_reading *as)
{
    set(&it->of.packets, &as->packets);
    set(&it->of.pieces, &as->pieces);
}

void receiver_begin(receiver *it, const ipxr_reading *as)
{
    begin(&it->of.packets, &as->packets);
    begin(&it->of.pieces, &as->pieces);
}

void fair_begin(fair *it, const ipxr_fair_setting *to)
{
    begin(&it->of, to);
}

ipxr_reader *receiver_now(receiver *it)
{
    ipxr_reader_look(&it->of, &it->clock, limit_clock());
    return &it->of;
}

ipxr_fair *fair_now(fair *it)
{
    ipxr_fair_look(&it->of, &it->clock, limit_clock());
    return &it->of;
}

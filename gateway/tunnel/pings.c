#include "tunnel/pings.h"

#include <stdlib.h>
#include <string.h>

#include "systems/clock.h"

enum { MILLISECOND_NS = 1000000 };

bool pings_make(pings *it, size_t room)
{
    memset(it, 0, sizeof *it);
    it->list = room > 0 ? malloc(room * sizeof *it->list) : NULL;
    it->room = it->list != NULL ? room : 0;
    return it->room == room;
}

void pings_free(pings *it)
{
    free(it->list);
    memset(it, 0, sizeof *it);
}

bool pings_add(pings *it, const ipxr_own *ping)
{
    if (it->count == it->room)
        return false;
    it->list[(it->first + it->count++) % it->room] = *ping;
    return true;
}

void pings_pace(pings *it, uint64_t between)
{
    ipxr_pace_more_wait(&it->pace, it->count, between, clock_nanoseconds());
}

const ipxr_own *pings_first(const pings *it)
{
    return it->count > 0 ? &it->list[it->first] : NULL;
}

void pings_end_first(pings *it)
{
    it->first = (it->first + 1) % it->room;
    it->count--;
}

const ipxr_own *pings_due(pings *it)
{
    const ipxr_own *due = pings_first(it);
    if (due == NULL || !ipxr_pace_lets_go(&it->pace, it->count, clock_nanoseconds()))
        return NULL;
    pings_end_first(it);
    return due;
}

int pings_patience(const pings *it, int most)
{
    uint64_t now = it->count > 0 ? clock_nanoseconds() : 0, next = it->pace.next;
    uint64_t left = next > now ? (next - now + MILLISECOND_NS - 1) / MILLISECOND_NS : 0;
    return it->count > 0 && left < (uint64_t)most ? (int)left : most;
}

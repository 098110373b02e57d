#include "links/paced.h"

#include <string.h>

#include "systems/clock.h"

/* Packets that may wait on all links together. */
enum { MOST_WAITING = 4096 };

enum { MILLISECOND_NS = 1000000 };

/* Nanoseconds from a packet to the next. */
enum { BETWEEN_NS = 55 * MILLISECOND_NS };

/* Packets that were never used are behind those that were; of these, some wait no more. */
static struct {
    paced_packet list[MOST_WAITING];
    size_t used;
    paced_packet *free;
} pool;

static paced_packet *take(void)
{
    paced_packet *it = pool.free;
    if (it != NULL)
        pool.free = it->next;
    else if (pool.used < MOST_WAITING)
        it = &pool.list[pool.used++];
    return it;
}

bool paced_add(paced *it, const uint8_t from[6], const uint8_t *packet, size_t length)
{
    paced_packet *added = length <= sizeof added->bytes ? take() : NULL;
    if (added == NULL)
        return false;
    memcpy(added->from, from, sizeof added->from);
    memcpy(added->bytes, packet, length);
    added->length = length;
    added->next = NULL;
    if (it->count == 0)
        it->first = added;
    else
        it->last->next = added;
    it->last = added;
    it->count++;
    it->has_more = true;
    return true;
}

const paced_packet *paced_first(paced *it)
{
    paced_packet *first = it->first;
    if (it->count == 0)
        return NULL;
    it->first = first->next;
    it->count--;
    first->next = pool.free;
    pool.free = first;
    return first;
}

const paced_packet *paced_due(paced *it)
{
    uint64_t now = it->count > 0 ? clock_nanoseconds() : 0;
    if (it->has_more)
        ipxr_pace_more_wait(&it->pace, it->count, BETWEEN_NS, now);
    it->has_more = false;
    return ipxr_pace_lets_go(&it->pace, it->count, now) ? paced_first(it) : NULL;
}

int paced_patience(const paced *it, int most)
{
    uint64_t now = it->count > 0 ? clock_nanoseconds() : 0;
    uint64_t left = it->pace.next > now ? (it->pace.next - now + MILLISECOND_NS - 1) / MILLISECOND_NS : 0;
    return it->count > 0 && left < (uint64_t)most ? (int)left : most;
}

/* What the queues of somebody must be, as ipxr_fair.h says of its fields. */
#include "inside.h"
#include "play.h"

void queues_are_well(const ipxr_fair *it, const char *whose)
{
    uint64_t waits = 0, total = 0;
    for (size_t k = 0; k < IPXR_SPEAKERS; k++) {
        uint64_t length = it->ends[k] > it->served ? it->ends[k] - it->served : 0;
        waits += length > 0;
        total += length;
        if (it->ends[k] > it->latest || (length > 0 && length <= it->spare))
            wrong("the queues of %s: queue %zu ends at another time than is counted", whose, k);
    }
    if (waits != it->waits || total != it->total)
        wrong("the queues of %s: %u aren't empty, and %u are counted", whose, (unsigned)waits, (unsigned)it->waits);
    if (it->left > 0 && it->left >= waits)
        wrong("the queues of %s: time is left, and wasn't used", whose);
}

void receiver_is_well(const receiver *it, const char *whose)
{
    queues_are_well(&it->of.packets, whose);
    queues_are_well(&it->of.pieces, whose);
}

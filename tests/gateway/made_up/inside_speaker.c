#include "limits/speaker.c"

#include "inside.h"
#include "play.h"

/* How many clients of all networks have an address. */
static size_t members_of(gateway *it, const speaker *of)
{
    size_t count = 0;
    for (size_t k = 0; k < it->count; k++)
        for (size_t c = 0; c < it->networks[k].roster.count; c++)
            count += it->networks[k].roster.list[c].speaks == of;
    return count;
}

static void look(gateway *it, const speaker *one, size_t users[IPXR_SPEAKERS])
{
    if (one->clients != members_of(it, one) || (one != &spare && one->clients == 0))
        wrong("address 10.0.0.%u has %zu clients, and %zu are listed", one->host[3], one->clients, members_of(it, one));
    users[one->queue]++;
    for (const household *all = &one->first; all != NULL; all = all->next)
        queues_are_well(&all->received.of, "an address");
}

void speakers_are_well(gateway *it)
{
    size_t users[IPXR_SPEAKERS] = {0};
    look(it, &spare, users);
    for (const speaker *one = speakers; one != NULL; one = one->next)
        look(it, one, users);
    for (size_t k = OF_ADDRESSES; k < IPXR_SPEAKERS; k++)
        if (users[k] != queues.users[k])
            wrong("%zu addresses have the queue %zu, and %zu are counted", users[k], k, queues.users[k]);
}

bool speakers_are_gone(void)
{
    return speakers == NULL && spare.clients == 0;
}

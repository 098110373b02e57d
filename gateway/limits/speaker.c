#include "limits/speaker.h"

#include <stdlib.h>
#include <string.h>

/* Seconds for which whoever spoke has a queue. */
enum { QUIET = 10 };

static ipxr_queues queues;

/* All that are known; and the one that those share for whom there was no memory. */
static speaker *speakers, spare;

static speaker *known(const uint8_t host[4])
{
    speaker *it = speakers;
    while (it != NULL && memcmp(it->host, host, sizeof it->host) != 0)
        it = it->next;
    return it;
}

static speaker *new_speaker(const uint8_t host[4])
{
    speaker *it = malloc(sizeof *it);
    if (it == NULL)
        return &spare;
    memset(it, 0, sizeof *it);
    memcpy(it->host, host, sizeof it->host);
    it->next = speakers;
    speakers = it;
    return it;
}

speaker *speaker_join(const uint8_t host[4])
{
    speaker *it = known(host);
    if (it == NULL)
        it = new_speaker(host);
    it->clients++;
    return it;
}

void speaker_be_network(speaker *it, size_t number)
{
    it->queue = (uint8_t)(OF_NETWORKS + number);
}

uint8_t speaker_speaks(speaker *it)
{
    it->quiet = 0;
    if (it->queue == 0)
        it->queue = ipxr_queues_take(&queues, OF_ADDRESSES, IPXR_SPEAKERS - 1);
    return it->queue;
}

static void be_quiet(speaker *it)
{
    if (it->queue != 0)
        ipxr_queues_give_back(&queues, it->queue);
    it->queue = 0;
}

static household *new_household(uint64_t between)
{
    household *it = malloc(sizeof *it);
    if (it == NULL)
        return NULL;
    memset(it, 0, sizeof *it);
    it->between = between;
    return it;
}

/* (where there is no memory networks with different limits share one) */
household *speaker_household(speaker *it, uint64_t between)
{
    household *found = &it->first;
    if (found->between == 0)
        found->between = between;
    while (found->between != between && found->next != NULL)
        found = found->next;
    if (found->between == between)
        return found;
    found->next = new_household(between);
    return found->next != NULL ? found->next : found;
}

static void forget_household(household *it)
{
    household *next;
    for (household *gone = it->next; gone != NULL; gone = next) {
        next = gone->next;
        free(gone);
    }
    memset(it, 0, sizeof *it);
}

static void forget(speaker *it)
{
    forget_household(&it->first);
    account_forget(&it->handed);
    account_forget(&it->advertised);
    memset(&it->used, 0, sizeof it->used);
    memset(&it->answers, 0, sizeof it->answers);
}

void speaker_leave(speaker *it)
{
    speaker **before = &speakers;
    if (--it->clients > 0)
        return;
    line_end(&it->line);
    be_quiet(it);
    forget(it);
    if (it == &spare)
        return;
    while (*before != it)
        before = &(*before)->next;
    *before = it->next;
    free(it);
}

static void second(speaker *it)
{
    line_second(&it->line);
    if (it->quiet++ == QUIET)
        be_quiet(it);
    else if (it->queue != 0)
        it->queue = ipxr_queues_unshare(&queues, it->queue, OF_ADDRESSES, IPXR_SPEAKERS - 1);
}

void speakers_second(void)
{
    second(&spare);
    for (speaker *it = speakers; it != NULL; it = it->next)
        second(it);
}

void speakers_forget(void)
{
    forget(&spare);
    for (speaker *it = speakers; it != NULL; it = it->next)
        forget(it);
}

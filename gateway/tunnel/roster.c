#include "tunnel/roster.h"

#include <stdlib.h>
#include <string.h>

#include "ipx.h"
#include "limits/meter.h"

/* Seconds without a word, after which a client may be gone. */
enum { LISTENS_AFTER = 2 };

bool roster_make(roster *it, size_t room)
{
    memset(it, 0, sizeof *it);
    it->list = malloc(room * sizeof *it->list);
    it->queues = malloc(room * sizeof *it->queues);
    it->room = it->list != NULL && it->queues != NULL ? room : 0;
    for (size_t k = 0; k < it->room; k++)
        it->list[k].queues = &it->queues[k];
    return it->room == room;
}

static void leave(member *it)
{
    if (it->is_by_line)
        line_leave(&it->speaks->line);
    speaker_leave(it->speaks);
}

void roster_free(roster *it)
{
    for (size_t k = 0; k < it->count; k++)
        leave(&it->list[k]);
    free(it->list);
    free(it->queues);
    memset(it, 0, sizeof *it);
}

member *roster_find(roster *it, const uint8_t place[6])
{
    for (size_t k = 0; k < it->count; k++) {
        size_t index = (it->last + k) % it->count;
        if (same_node(it->list[index].place, place)) {
            it->last = index;
            return &it->list[index];
        }
    }
    return NULL;
}

member *roster_of_node(roster *it, const uint8_t node[6])
{
    for (size_t k = 0; k < it->count; k++)
        if (same_node(it->list[k].node, node))
            return &it->list[k];
    return NULL;
}

void roster_add(roster *it, const uint8_t place[6], const uint8_t node[6], bool is_trusted, bool is_by_line)
{
    if (it->count == it->room)
        return;
    member *added = &it->list[it->count++];
    receiver *queues = added->queues;
    memset(added, 0, sizeof *added);
    memset(queues, 0, sizeof *queues);
    added->queues = queues;
    memcpy(added->place, place, NODE);
    memcpy(added->node, node, NODE);
    added->speaks = speaker_join(place);
    added->is_trusted = is_trusted;
    added->is_by_line = is_by_line;
    if (is_by_line)
        line_join(&added->speaks->line);
}

void roster_remove(roster *it, const uint8_t place[6])
{
    member *gone = roster_find(it, place);
    if (gone == NULL)
        return;
    leave(gone);
    receiver *queues = gone->queues;
    it->count--;
    memmove(gone, gone + 1, (size_t)(it->list + it->count - gone) * sizeof *gone);
    it->list[it->count].queues = queues;
    it->last = 0;
}

bool roster_only_listens(const member *it)
{
    return limit_clock() - it->heard >= LISTENS_AFTER * (uint64_t)SECOND_NS;
}

int roster_silence(const member *it, uint64_t second, int told)
{
    bool has_answered = (uint64_t)told < second - it->kept;
    return has_answered ? told : told + it->silent;
}

void roster_registers(member *it, uint64_t second, uint8_t left)
{
    it->unpinged = left > PINGED_AT ? second + left - PINGED_AT : 0;
}

bool roster_waits(const member *it, uint64_t second)
{
    return second < it->unpinged;
}

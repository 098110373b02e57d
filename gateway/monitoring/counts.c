#include "monitoring/counts.h"

#include <inttypes.h>

#include "monitoring/note.h"
#include "monitoring/output.h"

static const char *const WORDS_OF[REASONS] = {
    [TOO_LONG] = "longer than the link carries",
    [FALSE_SOURCE] = "source of another",
    [STRANGER] = "from a stranger",
    [NO_ROOM] = "no room for a client",
    [NOT_ALLOWED] = "address not allowed",
    [NO_CLIENT] = "no such client",
    [NO_IPX] = "no IPX",
    [OTHER_KIND] = "another kind of frame",
    [SECOND_KIND] = "second kind of a station",
    [FOR_ANOTHER] = "for another node",
    [OWN_FRAME] = "own frame",
    [NO_MEMORY] = "out of memory",
    [NOT_EXTENDED] = "not extended",
    [NOT_SENT] = "not sent",
    [NOBODY_THERE] = "nobody there",
    [TOO_MANY_STRANGERS] = "too many strangers",
    [TOO_MUCH_FOR_CLIENT] = "too much for a client",
    [TOO_MUCH_FOR_ADDRESS] = "too much for an address",
    [TOO_MUCH_FOR_LINE] = "too much for the line",
    [TOO_MUCH_FOR_LINK] = "too much for a link",
    [TOO_MANY_PINGS] = "too many pings",
    [TOO_MANY_QUESTIONS] = "too many questions",
    [TOO_MANY_ADVERTISEMENTS] = "too many advertisements",
    [TOO_MANY_ANSWERS] = "too many answers",
    [FOR_FAR_ROUTERS] = "for far routers",
    [TOO_MUCH_FOR_ROUTER] = "too much for the router",
    [FROM_AFAR] = "from afar",
    [DENIED] = "denied",
    [NOT_SEALED] = "not sealed by the key",
    [REPEATED] = "repeated",
    [OTHER_SESSION] = "of another session",
};

const char *reason_words(reason why)
{
    return WORDS_OF[why];
}

void counts_add(counts *it, const counts *other)
{
    it->packets.in += other->packets.in;
    it->out += other->out;
    it->extended += other->extended;
    it->refused += other->refused;
    for (size_t why = 0; why < REASONS; why++)
        it->packets.lost[why] += other->packets.lost[why];
    for (size_t drop = 0; drop < IPXR_DROPS; drop++)
        it->packets.dropped[drop] += other->packets.dropped[drop];
}

/* (all that the router can say has a place) */
typedef char has_all_drops[(IPXR_LAST_DROP / 100 + 1) * MOST_REST == IPXR_DROPS ? 1 : -1];

int32_t drop_at(size_t place)
{
    return (int32_t)(place / MOST_REST * 100 + place % MOST_REST);
}

void counts_show(const counts *it)
{
    char words[WORDS];
    for (int why = 0; why < REASONS; why++)
        if (it->packets.lost[why] > 0)
            say("  lost: %s: %" PRIu64, WORDS_OF[why], it->packets.lost[why]);
    for (size_t drop = 0; drop < IPXR_DROPS; drop++)
        if (it->packets.dropped[drop] > 0)
            say("  %s: %" PRIu64, answer_words(drop_at(drop), words), it->packets.dropped[drop]);
}

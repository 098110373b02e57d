#include "monitoring/neighbour.h"

#include <inttypes.h>
#include <string.h>

#include "ipxr.h"
#include "monitoring/counts.h"
#include "monitoring/note.h"

/* Bytes of an entry, and milliseconds within which packets are one round. */
enum { ROUTE_ENTRY = 8, SERVICE_ENTRY = 64, SECOND = 1000, ONE_ROUND = 5 * SECOND };

neighbour *neighbour_of(neighbours *it, uint32_t network, const uint8_t node[NODE])
{
    size_t k = 0;
    while (k < it->count && (it->list[k].network != network || !same_node(it->list[k].node, node)))
        k++;
    if (k == MOST_NEIGHBOURS) {
        it->missed++;
        return NULL;
    }
    if (k == it->count) {
        it->list[it->count++] = (neighbour){.network = network};
        memcpy(it->list[k].node, node, NODE);
    }
    return &it->list[k];
}

static void begin_round(tally *of, uint64_t now)
{
    uint64_t passed = now - of->begun;
    if (of->rounds > 0) {
        of->least = of->rounds == 1 || passed < of->least ? passed : of->least;
        of->most = passed > of->most ? passed : of->most;
    }
    of->rounds++;
    of->begun = now;
    of->entries = 0;
}

void neighbour_tells(neighbour *it, telling what, size_t bytes, uint64_t now)
{
    tally *of = &it->of[what];
    size_t entry = what == TELLS_ROUTES || what == ANSWERS_ROUTES ? ROUTE_ENTRY : SERVICE_ENTRY;
    if (of->packets == 0 || now - of->last > ONE_ROUND)
        begin_round(of, now);
    of->packets++;
    of->last = now;
    of->entries += bytes / entry;
    of->most_entries = of->entries > of->most_entries ? of->entries : of->most_entries;
    of->partial += bytes % entry != 0;
}

void neighbour_became(neighbour *it, telling what, int32_t answer, const ipxr_course *way)
{
    char words[WORDS];
    tally *of = &it->of[what];
    if (answer == IPXR_LEARNED)
        return;
    bool is_lost = way->fate == IPXR_FATE_LOST && way->number < REASONS;
    const char *why = answer >= 0 ? answer_words(answer, words) : is_lost ? reason_words((reason)way->number) : "not heard";
    of->unread++;
    snprintf(of->why, sizeof of->why, "%s", why);
}

/* ---- The text ---- */

static void write_told(FILE *file, const char *protocol, const char *entries, const tally *of)
{
    if (of->packets == 0)
        return;
    fprintf(file, "    %s: responses %" PRIu64 ", rounds %" PRIu64, protocol, of->packets, of->rounds);
    if (of->rounds > 1)
        fprintf(file, ", %.1f to %.1f s from one to the next", (double)of->least / SECOND, (double)of->most / SECOND);
    fprintf(file, "; most %s in a round %" PRIu64, entries, of->most_entries);
    if (of->unread > 0)
        fprintf(file, "; not read %" PRIu64 ", the last: %s", of->unread, of->why);
    if (of->partial > 0)
        fprintf(file, "; with a last entry that isn't whole %" PRIu64, of->partial);
    fprintf(file, "%s\n", of->unread + of->partial == 0 ? "; all read" : "");
}

static void write_one(const neighbour *it, FILE *file, unsigned asked)
{
    char node[WORDS];
    uint64_t routes = it->of[ANSWERS_ROUTES].rounds, nearest = it->of[ANSWERS_NEAREST].rounds;
    bool is_router = it->of[TELLS_ROUTES].packets + routes > 0;
    fprintf(file, "  %s %s", is_router ? "router" : "server", node_words(it->node, node));
    if (it->claims != it->network && it->claims != 0) /* (0 means the network at hand) */
        fprintf(file, ", which calls the network %08" PRIX32, it->claims);
    fprintf(file, "\n");
    write_told(file, "RIP", "routes", &it->of[TELLS_ROUTES]);
    write_told(file, "SAP", "services", &it->of[TELLS_SERVICES]);
    fprintf(file, "    answered: requests for all routes %" PRIu64 " of %u; queries for the nearest file server %" PRIu64 " of %u\n", routes, asked,
            nearest, asked);
}

size_t neighbours_write(const neighbours *it, FILE *file, uint32_t network, unsigned asked)
{
    size_t count = 0;
    for (size_t k = 0; k < it->count; k++)
        if (it->list[k].network == network) {
            write_one(&it->list[k], file, asked);
            count++;
        }
    return count;
}

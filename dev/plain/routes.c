/* The table of routes. */
#include <stdlib.h>
#include <string.h>

#include "inside.h"

void routes_make(plain_routes *it, plain_route_changes *changes, size_t most)
{
    size_t most_changes = most + MOST_ROUTES;
    *it = (plain_routes){.records = grown(NULL, most, sizeof *it->records), .ages = grown(NULL, most, 1), .most = most};
    *changes = (plain_route_changes){.told = grown(NULL, most_changes, sizeof *changes->told),
                                     .was = grown(NULL, most_changes, sizeof *changes->was)};
}

void routes_free(plain_routes *it, plain_route_changes *changes)
{
    free(it->records);
    free(it->ages);
    free(changes->told);
    free(changes->was);
}

/* How many records have a smaller network. */
static size_t place_of(const plain_route *records, size_t count, uint32_t network)
{
    size_t low = 0, high = count;
    while (low < high) {
        size_t middle = low + (high - low) / 2;
        if (records[middle].network < network)
            low = middle + 1;
        else
            high = middle;
    }
    return low;
}

static bool is_at(const plain_route *records, size_t count, size_t place, uint32_t network)
{
    return place < count && records[place].network == network;
}

const plain_route *routes_find(const plain_routes *it, uint32_t network)
{
    size_t place = place_of(it->records, it->count, network);
    return is_at(it->records, it->count, place, network) ? it->records + place : NULL;
}

/* ---- Changes ---- */

static bool is_gone(const plain_route *route)
{
    return route->hops >= UNREACHABLE;
}

static bool is_same_source(const plain_route *one, const plain_route *other)
{
    return one->port == other->port && one->node == other->node;
}

static bool is_same(const plain_route *one, const plain_route *other)
{
    return (is_gone(one) && is_gone(other)) ||
           (one->hops == other->hops && one->ticks == other->ticks && is_same_source(one, other));
}

static plain_route gone(const plain_route *route)
{
    plain_route it = *route;
    it.hops = UNREACHABLE;
    it.ticks = ENDLESS;
    return it;
}

/* A network that changed before in the same event: what counts is what was there before the event. */
static void note_again(plain_route_changes *it, size_t place, const plain_route *is)
{
    if (is_same(it->was + place, is)) {
        size_t behind = --it->count - place;
        memmove(it->told + place, it->told + place + 1, behind * sizeof *it->told);
        memmove(it->was + place, it->was + place + 1, behind * sizeof *it->was);
    } else {
        it->told[place] = is_gone(is) ? gone(it->was + place) : *is;
    }
}

static void note(plain_route_changes *it, const plain_route *was, const plain_route *is)
{
    size_t place = it->count;
    if (place > 0 && it->told[place - 1].network >= is->network) {
        place = place_of(it->told, it->count, is->network);
        if (is_at(it->told, it->count, place, is->network)) {
            note_again(it, place, is);
            return;
        }
        memmove(it->told + place + 1, it->told + place, (it->count - place) * sizeof *it->told);
        memmove(it->was + place + 1, it->was + place, (it->count - place) * sizeof *it->was);
    }
    it->told[place] = is_gone(is) ? gone(was) : *is;
    it->was[place] = *was;
    it->count++;
}

/* ---- Offers ---- */

static void admit(plain_routes *it, size_t place, const plain_route *offer, plain_route_changes *changes)
{
    if (is_gone(offer) || it->count == it->most)
        return;
    memmove(it->records + place + 1, it->records + place, (it->count - place) * sizeof *it->records);
    memmove(it->ages + place + 1, it->ages + place, it->count - place);
    it->records[place] = *offer;
    it->ages[place] = 0;
    it->count++;
    plain_route was = gone(offer);
    note(changes, &was, offer);
}

static void withdraw(plain_routes *it, size_t place, plain_route_changes *changes)
{
    plain_route was = it->records[place], is = gone(&was);
    it->count--;
    memmove(it->records + place, it->records + place + 1, (it->count - place) * sizeof *it->records);
    memmove(it->ages + place, it->ages + place + 1, it->count - place);
    note(changes, &was, &is);
}

static bool is_better(const plain_route *one, const plain_route *other)
{
    return one->ticks < other->ticks || (one->ticks == other->ticks && one->hops < other->hops);
}

static void replace(plain_routes *it, size_t place, const plain_route *offer, plain_route_changes *changes)
{
    plain_route was = it->records[place];
    it->ages[place] = 0;
    if (is_same(&was, offer))
        return;
    it->records[place] = *offer;
    note(changes, &was, offer);
}

void routes_offer(plain_routes *it, const plain_route *offer, plain_route_changes *changes)
{
    size_t place = place_of(it->records, it->count, offer->network);
    if (!is_at(it->records, it->count, place, offer->network)) {
        admit(it, place, offer, changes);
        return;
    }
    const plain_route *known = it->records + place;
    bool is_own = is_same_source(known, offer);
    if (is_own && is_gone(offer))
        withdraw(it, place, changes);
    else if (is_own || (!is_gone(offer) && is_better(offer, known)))
        replace(it, place, offer, changes);
}

/* ---- Time ---- */

bool grow_old(uint8_t *ages, size_t count)
{
    bool has_old = false;
    for (size_t k = 0; k < count; k++)
        has_old |= ++ages[k] >= LIFETIME;
    return has_old;
}

void routes_second(plain_routes *it, plain_route_changes *changes)
{
    if (!grow_old(it->ages, it->count))
        return;
    for (size_t k = 0; k < it->count; k++) {
        if (it->ages[k] < LIFETIME)
            continue;
        plain_route was = it->records[k];
        it->records[k] = gone(&was);
        note(changes, &was, it->records + k);
    }
}

void routes_remove_gone(plain_routes *it)
{
    size_t kept = 0;
    for (size_t k = 0; k < it->count; k++) {
        if (is_gone(it->records + k))
            continue;
        it->records[kept] = it->records[k];
        it->ages[kept++] = it->ages[k];
    }
    it->count = kept;
}

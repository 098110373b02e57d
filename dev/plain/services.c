/* The table of services. */
#include <stdlib.h>
#include <string.h>

#include "inside.h"

void services_make(plain_services *it, plain_service_changes *changes, size_t most)
{
    size_t most_changes = most + MOST_SERVICES;
    *it = (plain_services){.records = grown(NULL, most, sizeof *it->records), .ages = grown(NULL, most, 1), .most = most};
    *changes = (plain_service_changes){.told = grown(NULL, most_changes, sizeof *changes->told),
                                       .was = grown(NULL, most_changes, sizeof *changes->was)};
}

void services_free(plain_services *it, plain_service_changes *changes)
{
    free(it->records);
    free(it->ages);
    free(changes->told);
    free(changes->was);
}

/* Type and name stand at the front of an entry, and behind a name are zeros. */
int by_type_and_name(const plain_service *one, const plain_service *other)
{
    return memcmp(one->entry, other->entry, NAME + NAME_LENGTH);
}

/* How many records come before a service. */
static size_t place_of(const plain_service *records, size_t count, const plain_service *service)
{
    size_t low = 0, high = count;
    while (low < high) {
        size_t middle = low + (high - low) / 2;
        if (by_type_and_name(records + middle, service) < 0)
            low = middle + 1;
        else
            high = middle;
    }
    return low;
}

static bool is_at(const plain_service *records, size_t count, size_t place, const plain_service *service)
{
    return place < count && by_type_and_name(records + place, service) == 0;
}

/* ---- Changes ---- */

static bool is_gone(const plain_service *service)
{
    return service->hops >= UNREACHABLE;
}

static bool is_same_source(const plain_service *one, const plain_service *other)
{
    return one->port == other->port && one->node == other->node;
}

static bool is_same(const plain_service *one, const plain_service *other)
{
    return (is_gone(one) && is_gone(other)) || (is_same_source(one, other) && memcmp(one->entry, other->entry, PLAIN_ENTRY) == 0);
}

static plain_service gone(const plain_service *service)
{
    plain_service it = *service;
    it.hops = UNREACHABLE;
    return it;
}

/* A service that changed before in the same event: what counts is what was there before the event. */
static void note_again(plain_service_changes *it, size_t place, const plain_service *is)
{
    if (is_same(it->was + place, is)) {
        size_t behind = --it->count - place;
        memmove(it->told + place, it->told + place + 1, behind * sizeof *it->told);
        memmove(it->was + place, it->was + place + 1, behind * sizeof *it->was);
    } else {
        it->told[place] = is_gone(is) ? gone(it->was + place) : *is;
    }
}

static void note(plain_service_changes *it, const plain_service *was, const plain_service *is)
{
    size_t place = it->count;
    if (place > 0 && by_type_and_name(it->told + place - 1, is) >= 0) {
        place = place_of(it->told, it->count, is);
        if (is_at(it->told, it->count, place, is)) {
            note_again(it, place, is);
            return;
        }
        memmove(it->told + place + 1, it->told + place, (it->count - place) * sizeof *it->told);
        memmove(it->was + place + 1, it->was + place, (it->count - place) * sizeof *it->was);
    }
    it->told[place] = is_gone(is) ? gone(was) : *is;
    it->was[place] = *was;
    it->count++;
}

/* ---- Offers ---- */

static void admit(plain_services *it, size_t place, const plain_service *offer, plain_service_changes *changes)
{
    if (is_gone(offer) || it->count == it->most)
        return;
    memmove(it->records + place + 1, it->records + place, (it->count - place) * sizeof *it->records);
    memmove(it->ages + place + 1, it->ages + place, it->count - place);
    it->records[place] = *offer;
    it->ages[place] = 0;
    it->count++;
    plain_service was = gone(offer);
    note(changes, &was, offer);
}

static void withdraw(plain_services *it, size_t place, plain_service_changes *changes)
{
    plain_service was = it->records[place], is = gone(&was);
    it->count--;
    memmove(it->records + place, it->records + place + 1, (it->count - place) * sizeof *it->records);
    memmove(it->ages + place, it->ages + place + 1, it->count - place);
    note(changes, &was, &is);
}

static void replace(plain_services *it, size_t place, const plain_service *offer, plain_service_changes *changes)
{
    it->ages[place] = 0;
    if (is_same(it->records + place, offer))
        return;
    plain_service was = it->records[place];
    it->records[place] = *offer;
    note(changes, &was, offer);
}

void services_offer(plain_services *it, const plain_service *offer, plain_service_changes *changes)
{
    size_t place = place_of(it->records, it->count, offer);
    if (!is_at(it->records, it->count, place, offer)) {
        admit(it, place, offer, changes);
        return;
    }
    const plain_service *known = it->records + place;
    bool is_own = is_same_source(known, offer);
    if (is_own && is_gone(offer))
        withdraw(it, place, changes);
    else if (is_own || offer->hops < known->hops)
        replace(it, place, offer, changes);
}

/* ---- Time ---- */

void services_second(plain_services *it, plain_service_changes *changes)
{
    if (!grow_old(it->ages, it->count))
        return;
    for (size_t k = 0; k < it->count; k++) {
        if (it->ages[k] < LIFETIME)
            continue;
        plain_service was = it->records[k];
        it->records[k] = gone(&was);
        note(changes, &was, it->records + k);
    }
}

void services_remove_gone(plain_services *it)
{
    size_t kept = 0;
    for (size_t k = 0; k < it->count; k++) {
        if (is_gone(it->records + k))
            continue;
        it->records[kept] = it->records[k];
        it->ages[kept++] = it->ages[k];
    }
    it->count = kept;
}

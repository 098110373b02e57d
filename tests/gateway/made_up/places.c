#include "places.h"

#include <string.h>

#include "chance.h"
#include "descriptors.h"
#include "ipx.h"
#include "packets.h"
#include "peace.h"
#include "peers/sealing.h"
#include "play.h"
#include "world.h"

/* Places, each with so many sessions at a time; where they are; and datagrams that somebody recorded. */
enum { PLACES = 90, FIRST_PORT = 2300, HOSTS = 9, RECORDED = 64, ALWAYS_THERE = 0, SOUGHT = 8, MOST_SAID = 12, REMEMBERED = 64 };

const char PLACES_KEY[] = "made-up.key";
const char PLACES_KEY_TEXT[] = "000102030405060708090a0b0c0d0e0f101112131415161718191a1b1c1d1e1f\n";

typedef struct sealed {
    size_t length;
    uint8_t bytes[LONGEST_SEALED];
} sealed;

static struct {
    uint8_t session[SESSION];
    uint64_t number;
} places[PLACES];

static sealed recorded[RECORDED];

/* The highest number that the gateway used in its session, and which of those just below: what goes out together may be overtaken. */
static struct {
    uint8_t session[SESSION];
    uint64_t highest, used;
} heard[MOST_DESCRIPTORS];

/* ---- Sealing ---- */

static const sealing *with_key(void)
{
    static sealing it;
    const char *lacks;
    if (it.by == NULL)
        it.by = sealing_begin(&lacks);
    for (size_t k = 0; k < KEY; k++)
        it.key[k] = (uint8_t)k;
    return it.by != NULL ? &it : NULL;
}

static address where(size_t place)
{
    return (address){.host = {10, 0, 2, (uint8_t)(1 + place % HOSTS)}, .port = (uint16_t)(FIRST_PORT + place / HOSTS)};
}

/* A place begins again. */
static void begins(size_t place)
{
    chance_bytes(places[place].session, SESSION);
    places[place].number = 0;
}

static void seal(size_t place, const uint8_t echo[SESSION], const uint8_t *frame, size_t length, sealed *made)
{
    static const uint8_t NONE[SESSION] = {0};
    if (memcmp(places[place].session, NONE, SESSION) == 0)
        begins(place);
    places[place].number += one_in(10) ? between(1, 400) : 1;
    made->length = sealing_seal(with_key(), places[place].session, places[place].number, echo, frame, length, made->bytes);
}

/* ---- What is said ---- */

/* The socket of a link by peers, or -1. */
static int any_socket(void)
{
    for (int k = 0; k < SOUGHT; k++) {
        int fd = descriptor_any(DATAGRAMS);
        const network *on = fd >= 0 ? network_at(fd) : NULL;
        if (on != NULL && on->set->type == LINK_PEERS)
            return fd;
    }
    return -1;
}

/* What the place takes for the gateway's session: mostly it knows it. */
static void any_echo(const network *on, uint8_t echo[SESSION])
{
    memset(echo, 0, SESSION);
    if (one_in(12))
        chance_bytes(echo, SESSION);
    else if (!one_in(12))
        memcpy(echo, on->cable->peers->known.session, SESSION);
}

/* A datagram of a place, or something like one. */
static void make(network *on, size_t place, sealed *made)
{
    uint8_t frame[MOST_RECEIVED], echo[SESSION];
    size_t length = one_in(6) ? 0 : make_frame(on, frame);
    if (one_in(40))
        begins(place);
    any_echo(on, echo);
    seal(place, echo, frame, length <= IPXR_LONGEST_FRAME ? length : 0, made);
    if (one_in(12))
        *made = recorded[below(RECORDED)];
    else if (one_in(4))
        recorded[below(RECORDED)] = *made;
    if (one_in(16) && made->length > 0)
        made->bytes[below((uint32_t)made->length)] ^= (uint8_t)between(1, 255);
    if (one_in(24))
        made->length = below((uint32_t)made->length + 1);
}

void places_act(void)
{
    sealed made;
    int fd = any_socket();
    network *on = fd >= 0 ? network_at(fd) : NULL;
    if (on == NULL || with_key() == NULL)
        return;
    size_t place = below(one_in(3) ? PLACES : 4), at = one_in(20) ? below(PLACES) : place;
    for (unsigned k = one_in(4) ? between(2, MOST_SAID) : 1; k > 0; k--) {
        make(on, place, &made);
        address from = where(at);
        comes(descriptor_at(fd, DATAGRAMS), &from, made.bytes, made.length);
    }
    told("on %d place %zu says something", fd, place);
}

void places_stay(gateway *it)
{
    sealed made;
    address from = where(ALWAYS_THERE);
    for (size_t k = 0; k < it->count; k++) {
        const network *on = &it->networks[k];
        if (on->cable->peers == NULL || on->cable->fd < 0 || with_key() == NULL)
            continue;
        seal(ALWAYS_THERE, on->cable->peers->known.session, NULL, 0, &made);
        comes(descriptor_at(on->cable->fd, DATAGRAMS), &from, made.bytes, made.length);
    }
}

/* ---- What is heard ---- */

/* Whether a number was used before in a session; from now on it was. */
static bool is_used(int fd, const uint8_t session[SESSION], uint64_t number)
{
    uint64_t behind = number <= heard[fd].highest ? heard[fd].highest - number : 0;
    if (memcmp(heard[fd].session, session, SESSION) != 0) {
        memcpy(heard[fd].session, session, SESSION);
        heard[fd].highest = heard[fd].used = 0;
    }
    if (number > heard[fd].highest) {
        heard[fd].used = number - heard[fd].highest < REMEMBERED ? heard[fd].used << (number - heard[fd].highest) | 1 : 1;
        heard[fd].highest = number;
        return false;
    }
    bool was_used = number == 0 || behind >= REMEMBERED || (heard[fd].used >> behind & 1) != 0;
    heard[fd].used |= behind < REMEMBERED ? UINT64_C(1) << behind : 0;
    return was_used;
}

void places_hear(int fd, const network *on, const departure *what)
{
    static unsealed opened;
    if (with_key() == NULL || !sealing_open(with_key(), what->bytes, what->length, &opened)) {
        wrong("network %X sends what isn't sealed by its key", (unsigned)on->set->network);
        return;
    }
    if (is_used(fd, opened.session, opened.number))
        wrong("network %X uses number %u again", (unsigned)on->set->network, (unsigned)opened.number);
    if (opened.length > 0)
        peace_hears(fd, opened.frame, opened.length);
}

void places_are_well(gateway *it)
{
    for (size_t k = 0; k < it->cable_count; k++) {
        const peers *of = it->cables[k].peers;
        if (of == NULL)
            continue;
        if (of->going_count > 0)
            wrong("%zu datagrams wait to go out to places after the turn", of->going_count);
        if (of->known.used > IPXR_MOST_PEERS || peers_present(of) > of->known.used)
            wrong("%zu of %u places are there", peers_present(of), (unsigned)of->known.used);
    }
}

#include "peers/peers.h"

#include <errno.h>
#include <stdlib.h>
#include <string.h>

#include "ipx.h"
#include "monitoring/note.h"
#include "peers/calling.h"
#include "peers/key.h"
#include "systems/clock.h"
#include "systems/sockets.h"
#include "systems/system.h"

enum { FRONT = 2 * NODE /* bytes of a frame's nodes */ };

/* ---- Addresses, as the library keeps them ---- */

enum { AT_KIND = 0, AT_PORT = 1, AT_HOST = 3, PLACE_AT = 24 };

static void put_address(const address *at, uint8_t bytes[PLACE_AT])
{
    memset(bytes, 0, PLACE_AT);
    bytes[AT_KIND] = at->is_six;
    put16(bytes + AT_PORT, at->port);
    if (at->is_six)
        memcpy(bytes + AT_HOST, at->six, sizeof at->six);
    else
        memcpy(bytes + AT_HOST, at->host, sizeof at->host);
}

static address address_of(const uint8_t bytes[PLACE_AT])
{
    address at = {.is_six = bytes[AT_KIND] != 0, .port = get16(bytes + AT_PORT)};
    if (at.is_six)
        memcpy(at.six, bytes + AT_HOST, sizeof at.six);
    else
        memcpy(at.host, bytes + AT_HOST, sizeof at.host);
    return at;
}

bool peers_where(const peers *it, size_t number, address *at)
{
    uint8_t session[SESSION], bytes[PLACE_AT];
    bool is_present = number < it->known.used && ipxr_peers_present(&it->known, (uint8_t)number, session, bytes) == 1;
    if (is_present)
        *at = address_of(bytes);
    return is_present;
}

size_t peers_present(const peers *it)
{
    address ignored;
    size_t count = 0;
    for (size_t k = 0; k < it->known.used; k++)
        count += peers_where(it, k, &ignored);
    return count;
}

/* The number of a place among those who say frames. */
static uint8_t number_of(size_t place)
{
    return (uint8_t)(place + 1);
}

/* ---- Beginning and end ---- */

/* Nobody is known any more. (that those who were told to be here have gone is told with the next second) */
static void forget_places(peers *it)
{
    for (place *next = it->places; next < it->places + IPXR_MOST_PEERS; next++)
        *next = (place){.at = next->at, .is_here = next->is_here, .has_gone = next->is_here};
    calling_forgets(it);
    memset(it->among.owners, 0, sizeof it->among.owners);
}

/* Begins, or begins again, with a session of its own: whoever was there is greeted when he says the next word. Returns false where the system has
 * no random numbers now; errno has the reason. */
static bool begins(peers *it)
{
    uint8_t session[SESSION];
    if (!system_random(session, sizeof session))
        return false;
    ipxr_peers_begin(&it->known, session);
    forget_places(it);
    return true;
}

/* What it has to have. Returns NULL, or what it lacks. */
static const char *prepare(peers *it)
{
    const char *lacks = NULL;
    it->sealing.by = sealing_begin(&lacks);
    errno = 0;
    if (it->sealing.by == NULL)
        return lacks;
    lacks = key_read(it->set->host, it->sealing.key);
    if (lacks != NULL)
        return lacks;
    return begins(it) ? NULL : "the system has no random numbers";
}

peers *peers_open(const network_setting *set, const char **lacks)
{
    peers *it = calloc(1, sizeof *it);
    *lacks = "out of memory";
    if (it == NULL)
        return NULL;
    it->set = set;
    *lacks = prepare(it);
    if (*lacks != NULL) {
        int why = errno;
        free(it);
        errno = why;
        return NULL;
    }
    among_follow(&it->among, set);
    calling_follow(it, set);
    return it;
}

void peers_close(peers *it)
{
    calling_end(it);
    sealing_forget(&it->sealing);
    free(it);
}

static void take_key(peers *it, const sealing *with)
{
    unsigned number = (unsigned)it->set->network;
    it->has_new_key = begins(it);
    if (it->has_new_key) {
        it->sealing = *with;
        event("network %08X has another key: all places come anew", number);
    } else {
        event("network %08X goes on with the key that it had: the system has no random numbers now", number);
    }
}

/* Takes another key where the file has one now. */
static void follow_key(peers *it)
{
    sealing with = it->sealing;
    const char *wrong = key_read(it->set->host, with.key);
    if (wrong != NULL)
        event("network %08X goes on with the key that it had: %s: %s", (unsigned)it->set->network, it->set->host, wrong);
    else if (memcmp(with.key, it->sealing.key, KEY) != 0)
        take_key(it, &with);
    sealing_forget(&with);
}

void peers_follow(peers *it, const network_setting *set)
{
    it->set = set;
    among_follow(&it->among, set);
    calling_follow(it, set);
    follow_key(it);
}

/* ---- What goes ---- */

/* Seals what is to go to a place. Returns its length, or 0 where it can't go: there are no more numbers, nor a new session. */
static size_t seal(peers *it, const uint8_t echo[SESSION], const uint8_t *frame, size_t length, uint8_t *sealed)
{
    uint64_t number = ipxr_peers_number(&it->known);
    if (number == 0 && begins(it))
        number = ipxr_peers_number(&it->known);
    return number != 0 ? sealing_seal(&it->sealing, it->known.session, number, echo, frame, length, sealed) : 0;
}

void peers_tell(peers *it, int fd, const address *to, const uint8_t *session)
{
    static const uint8_t NOBODYS[SESSION] = {0};
    uint8_t sealed[LONGEST_SEALED];
    departure what = {.to = *to, .bytes = sealed, .may_be_gone = true};
    what.length = seal(it, session != NULL ? session : NOBODYS, NULL, 0, sealed);
    if (what.length > 0)
        (void)!datagram_send_to(fd, &what);
}

/* (the first of those that are left isn't sent where none is) */
void peers_push(peers *it, int fd)
{
    size_t next = 0;
    while (next < it->going_count) {
        size_t sent = fd >= 0 ? datagrams_send(fd, it->going + next, it->going_count - next) : 0;
        for (size_t k = next; k < next + sent; k++)
            it->places[it->whose[k]].out++;
        it->unsent += sent == 0;
        next += sent > 0 ? sent : 1;
    }
    it->going_count = 0;
}

/* A frame is to go to a place that is present. */
static void add(peers *it, int fd, size_t number, const departure *to, const uint8_t echo[SESSION], const uint8_t *frame, size_t length)
{
    if (it->going_count == MOST_TOGETHER)
        peers_push(it, fd);
    size_t whole = seal(it, echo, frame, length, it->sealed[it->going_count]);
    if (whole == 0)
        return;
    it->going[it->going_count] = *to;
    it->going[it->going_count].length = whole;
    it->going[it->going_count].bytes = it->sealed[it->going_count];
    it->whose[it->going_count++] = (uint8_t)number;
    it->places[number].told = clock_now();
}

/* A frame goes to a place, if that is present and, where another says it, has room for it. */
static void put(peers *it, int fd, size_t number, uint8_t by, const uint8_t *frame, size_t length)
{
    uint8_t session[SESSION], bytes[PLACE_AT];
    if (ipxr_peers_present(&it->known, (uint8_t)number, session, bytes) != 1)
        return;
    if (by != OF_GATEWAY && !among_lets(&it->among, &it->places[number].reads, by, length)) {
        it->late++;
        return;
    }
    departure to = {.to = address_of(bytes)};
    add(it, fd, number, &to, session, frame, length);
}

/* Whether a place by its number among those who say frames is present. */
static bool is_present(const peers *it, uint8_t number)
{
    address ignored;
    return number != OF_ALL && number != OF_GATEWAY && peers_where(it, number - 1u, &ignored);
}

/* A frame goes to the places that it is for, but for the one who says it. (what is for one who has gone goes to all) */
static void carry(peers *it, int fd, uint8_t to, uint8_t by, const uint8_t *frame, size_t length)
{
    for (size_t k = 0; k < it->known.used; k++)
        if (number_of(k) != by && (to == number_of(k) || !is_present(it, to)))
            put(it, fd, k, by, frame, length);
}

bool peers_send(peers *it, int fd, const uint8_t *frame, size_t length)
{
    uint8_t to = among_says(&it->among, OF_GATEWAY, frame);
    if (to != OF_GATEWAY)
        carry(it, fd, to, OF_GATEWAY, frame, length);
    return true;
}

/* ---- What comes ---- */

/* What a place says goes to others, where this is a hub. Returns whether the gateway hears it, too. */
static bool carries(peers *it, int fd, size_t number, const uint8_t *frame, size_t length)
{
    uint8_t by = number_of(number), to = length >= FRONT ? among_says(&it->among, by, frame) : OF_ALL;
    bool is_for_another = to != by && is_present(it, to);
    if (peers_is_hub(it) && length >= FRONT && to != OF_GATEWAY && to != by)
        carry(it, fd, to, by, frame, length);
    if (peers_is_hub(it) && is_for_another)
        return false;
    bool is_let = among_lets(&it->among, &it->among.heard, by, length);
    it->late += !is_let;
    return is_let;
}

/* A place is heard. */
static void is_heard(peers *it, size_t number, const address *from, bool is_new)
{
    calling_hears(it, number, from);
    if (is_new)
        among_forgets(&it->among, number_of(number));
    it->places[number].heard = clock_now();
}

/* Whether a datagram that was opened counts; then it tells whose it is. What is to be said to it is said. */
static bool counts(peers *it, int fd, const address *from, uint8_t *number)
{
    ipxr_opened what = {.number = it->opened.number};
    memcpy(what.session, it->opened.session, SESSION);
    memcpy(what.echo, it->opened.echo, SESSION);
    put_address(from, what.address);
    uint8_t becomes = ipxr_peers_hear(&it->known, &what, number);
    if (becomes == IPXR_PEERS_AGAIN && !begins(it))
        becomes = IPXR_PEERS_FULL;
    it->of_another += (becomes == IPXR_PEERS_GREET || becomes == IPXR_PEERS_AGAIN) && it->opened.length > 0;
    it->repeated += becomes == IPXR_PEERS_REPEATED;
    it->refused += becomes == IPXR_PEERS_FULL;
    if (becomes == IPXR_PEERS_GREET || becomes == IPXR_PEERS_AGAIN || becomes == IPXR_PEERS_NEW)
        peers_tell(it, fd, from, what.session);
    if (becomes != IPXR_PEERS_HEARD && becomes != IPXR_PEERS_NEW)
        return false;
    is_heard(it, *number, from, becomes == IPXR_PEERS_NEW);
    return true;
}

/* Hears a datagram. Returns whether it holds a frame that the gateway hears, too. */
static bool hears(peers *it, int fd, const arrival *came)
{
    uint8_t number = 0;
    if (!sealing_open(&it->sealing, came->bytes, came->length, &it->opened)) {
        it->unopened++;
        it->stranger = came->from;
        return false;
    }
    if (!counts(it, fd, &came->from, &number) || it->opened.length == 0)
        return false;
    it->places[number].in++;
    return carries(it, fd, number, it->opened.frame, it->opened.length);
}

bool peers_receive(peers *it, int fd, arrivals *in)
{
    bool has_come = datagrams_receive(fd, in);
    size_t count = has_come ? in->count : 0;
    int fault = errno;
    in->count = 0;
    for (size_t k = 0; k < count; k++) {
        if (!hears(it, fd, &in->list[k]))
            continue;
        arrival *next = &in->list[in->count++];
        next->length = it->opened.length;
        memcpy(next->bytes, it->opened.frame, it->opened.length);
    }
    peers_push(it, fd);
    errno = fault;
    return has_come;
}

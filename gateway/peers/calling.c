#include "peers/calling.h"

#include <stdio.h>
#include <string.h>

#include "configuration/words.h"
#include "systems/clock.h"

enum {
    AWAKE = 15000, /* milliseconds for which nothing was said to one, after which something is, */
    SILENT = 5000, /* and for which one said nothing, after which he is called again; */
    LONG_SILENT = 15000, /* then also where he is named, */
    TRIES = 10,    /* and calls that nobody answers, after which another address of a name has its turn */
};

/* ---- Configurations ---- */

/* The other end. (datagrams go from an address to one of the same kind) */
static far_end far_end_of_called(peers *it, const called *who)
{
    return (far_end){who->host, who->at, it->set->local.is_six ? ADDRESS_OF_IPV6 : ADDRESS_OF_IPV4, &it->asking};
}

/* Whom a line names, who is called already: of so many, of whom it is taken away. Returns whether he is. */
static bool takes_old(called *it, called *list, size_t *count, const peer_setting *line)
{
    size_t k = 0;
    while (k < *count && (strcmp(list[k].host, line->host) != 0 || !same_address(&list[k].at, &line->at)))
        k++;
    if (k == *count)
        return false;
    *it = list[k];
    list[k] = list[--*count];
    return true;
}

static void begin(peers *it, called *who, const peer_setting *line)
{
    *who = (called){.at = line->at};
    strcpy(who->host, line->host);
    far_end of = far_end_of_called(it, who);
    remote_begin(&who->remote, &of);
}

void calling_follow(peers *it, const network_setting *set)
{
    called before[MOST_PEERS];
    size_t count = it->called_count;
    memcpy(before, it->called, sizeof before);
    for (it->called_count = 0; it->called_count < set->peer_count; it->called_count++) {
        called *who = &it->called[it->called_count];
        if (!takes_old(who, before, &count, &set->peers[it->called_count]))
            begin(it, who, &set->peers[it->called_count]);
    }
    while (count > 0)
        remote_end(&before[--count].remote);
}

void calling_end(peers *it)
{
    while (it->called_count > 0)
        remote_end(&it->called[--it->called_count].remote);
}

/* ---- Seconds ---- */

/* Where somebody is who is called, and his number among places; false where he isn't there. (who was heard from where he is named may be elsewhere
 * since: a router that forwards a port to him may let out what he says by another one) */
static bool is_there(const peers *it, const called *who, size_t *number, address *at)
{
    *number = who->place;
    if (who->was_heard && peers_where(it, who->place, at))
        return true;
    for (*number = 0; who->remote.is_known && *number < it->known.used; ++*number)
        if (peers_where(it, *number, at) && same_address(at, &who->remote.at))
            return true;
    return false;
}

void calling_hears(peers *it, size_t number, const address *from)
{
    for (called *who = it->called; who < it->called + it->called_count; who++)
        if (who->remote.is_known && same_address(&who->remote.at, from)) {
            who->was_heard = true;
            who->place = number;
        }
}

void calling_forgets(peers *it)
{
    for (size_t k = 0; k < it->called_count; k++)
        it->called[k].was_heard = false;
}

/* Nobody is there whom it knows. */
static void call(peers *it, int fd, called *who)
{
    peers_tell(it, fd, &who->remote.at, NULL);
    if (++who->unanswered % TRIES == 0)
        remote_fails(&who->remote);
}

/* (the call is answered whatever session the other has by now, and an answer is heard; the word counts there, if that is the one it had) */
static void keep_awake(peers *it, int fd, called *who, size_t number, const address *at)
{
    place *there = &it->places[number];
    uint64_t now = clock_now();
    who->unanswered = 0;
    if (now - there->told >= AWAKE) {
        there->told = now;
        peers_tell(it, fd, at, it->known.places[number].session);
    }
    if (now - there->heard >= SILENT)
        peers_tell(it, fd, at, NULL);
    if (now - there->heard >= LONG_SILENT && who->remote.is_known && !same_address(at, &who->remote.at))
        peers_tell(it, fd, &who->remote.at, NULL);
}

void calling_second(peers *it, int fd)
{
    it->turn++;
    for (size_t k = 0; k < it->called_count; k++) {
        called *who = &it->called[(it->turn + k) % it->called_count];
        size_t number;
        address at;
        far_end of = far_end_of_called(it, who);
        bool is_here = is_there(it, who, &number, &at);
        (void)!remote_look(&who->remote, &of, !is_here);
        if (is_here)
            keep_awake(it, fd, who, number, &at);
        else if (who->remote.is_known)
            call(it, fd, who);
    }
}

const char *peer_words(const called *it, char words[PEER_ROOM])
{
    if (it->host[0] == '\0')
        return address_words(&it->at, words);
    snprintf(words, PEER_ROOM, "%s:%u", it->host, it->at.port);
    return words;
}

bool calling_reaches(const peers *it, size_t index)
{
    size_t number;
    address at;
    return is_there(it, &it->called[index], &number, &at);
}

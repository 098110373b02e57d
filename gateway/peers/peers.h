/* A link by peers: several gateways, each a place, share one network over UDP, as if one cable led to all of them. Each datagram is sealed by a
 * key that all places share (sealing.h), and counts once: what was recorded and is sent again is refused. A place calls those whom its
 * configuration names, from behind whatever NAT, and says to them what comes from its own side; what came from one place it never hands to
 * another, so nothing goes round. One that names nobody is a hub: it hands what one place says to the others.
 *
 * Which datagram counts, where each place is and which number goes next the library decides (ipxr_peers.h). Here datagrams are sealed and
 * opened, places are called, and frames go between them and the cable. What a place receives of others, and what the gateway hears of each,
 * has equal parts (links/among.h). The socket is the cable's. */
#ifndef PEERS_H
#define PEERS_H

#include <stdbool.h>
#include <stddef.h>
#include <stdint.h>

#include "configuration/settings.h"
#include "ipxr_peers.h"
#include "links/among.h"
#include "links/remote.h"
#include "peers/sealing.h"
#include "systems/datagram.h"

/* A place that was heard, by its number in the library. */
typedef struct place {
    address at;           /* where it was told to be last; */
    bool is_here;         /* and whether that it came was told, and not that it went; */
    bool has_gone;        /* the gateway has begun again since, which is to be told */
    uint64_t heard, told; /* milliseconds of the clock, when something came from there last, and went there */
    uint64_t in, out;     /* frames */
    receiver reads;       /* what it receives of each other */
} place;

/* Somebody whom the configuration names. */
typedef struct called {
    char host[HOST_ROOM]; /* the name, or "": then it is the address, */
    address at;           /* whose port it has in any case */
    remote remote;
    unsigned unanswered;  /* calls */
    bool was_heard;       /* whether something came from there in this session; */
    size_t place;         /* then from which place last */
} called;

typedef struct peers {
    const network_setting *set;
    sealing sealing;
    bool has_new_key;      /* it took another key, since one looked */
    ipxr_peers known;      /* what the library knows of places */
    place places[IPXR_MOST_PEERS];
    called called[MOST_PEERS];
    size_t called_count;
    size_t asking;         /* of their names so many are asked for now, */
    size_t turn;           /* and of whom one looks first */
    among among;           /* what they say */
    unsealed opened;       /* the datagram that was opened last */
    uint64_t unopened;     /* how many datagrams since one looked weren't sealed by the key, */
    uint64_t repeated;     /* were heard before, */
    uint64_t of_another;   /* had a frame for another session than its own, */
    uint64_t refused;      /* and how many of new places found none; */
    uint64_t late, unsent; /* frames for which somebody had no room: too many came, or the system refused them */
    address stranger;      /* where one came from last that wasn't sealed by the key, */
    uint64_t stranger_told; /* and milliseconds of the clock when that was told last, or 0 */
    departure going[MOST_TOGETHER]; /* what waits to go out together, */
    uint8_t whose[MOST_TOGETHER];   /* to which place, */
    uint8_t sealed[MOST_TOGETHER][LONGEST_SEALED];
    size_t going_count;
} peers;

/* A link, which has no socket yet. Returns NULL where its key can't be read, or something else is missing: then `lacks` is told what, and errno has
 * the system's reason, or is 0. */
peers *peers_open(const network_setting *set, const char **lacks);
void peers_close(peers *it);

/* The same link by another configuration: those whom it names no more aren't called. Where its file has another key now, all begins anew. */
void peers_follow(peers *it, const network_setting *set);

/* Whether it hands what one place says to others. */
static inline bool peers_is_hub(const peers *it)
{
    return it->called_count == 0;
}

/* Where a place is; false where it isn't present. */
bool peers_where(const peers *it, size_t number, address *at);

/* How many are present. */
size_t peers_present(const peers *it);

/* The next frames that came on the socket, which the gateway hears. Returns false where nothing came; there may be no frame where it returns true. */
bool peers_receive(peers *it, int fd, arrivals *in);

/* A frame goes to the places that it is for, once peers_push is called. Returns whether it is on its way. */
bool peers_send(peers *it, int fd, const uint8_t *frame, size_t length);
void peers_push(peers *it, int fd);

/* An empty datagram goes to an address; it echoes that place's session, or nobody's where that is NULL: then it is a call. */
void peers_tell(peers *it, int fd, const address *to, const uint8_t *session);

#endif

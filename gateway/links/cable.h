/* What carries frames or datagrams: a socket, a connection, a TAP or an interface, alike for who sends and receives. */
#ifndef CABLE_H
#define CABLE_H

#include <stdbool.h>
#include <sys/types.h>

#include "configuration/settings.h"
#include "links/remote.h"
#include "links/rfc1234.h"
#include "links/stream.h"
#include "peers/peers.h"
#include "systems/datagram.h"
#include "systems/plug.h"
#include "systems/watch.h"
#include "web/web.h"

typedef struct cable {
    const network_setting *set; /* of its first network */
    int fd;                     /* what is read and written, or -1 */
    int listener;               /* where connections come in, or -1 */
    int says;                   /* what sends to a group, or -1; */
    address own;                /* and from where */
    plug plug;                  /* in a switch */
    web *web;                   /* what is there by WebSocket; or NULL */
    peers *peers;               /* who is there of other places; or NULL */
    rfc1234 *bare;              /* who is there whose datagrams are packets; or NULL */
    stream stream;              /* what of a connection is under way */
    bool was_lost;              /* a connection was, since one looked */
    uint64_t tried;             /* milliseconds of the clock when it was opened, or a connection begun, last */
    unsigned index;             /* of the TAP, the interface, or a group's card */
    unsigned kinds;             /* of frames that an interface's socket lets pass, of each the bit 1 << kind */
    address local;              /* where the socket is, with the port that it took */
    address peer;               /* who is connected */
    address moved_from;         /* where it was when it was opened again last, since another address leads there, */
    uint64_t moved;             /* and milliseconds of the clock then, or 0 */
    remote remote;              /* where what goes out goes */
    uint64_t starved;           /* milliseconds of the clock when the system had no room for what is to be received, or 0 */
    bool has_heard;             /* something came from there since one looked, */
    uint64_t heard;             /* and milliseconds of the clock when one last saw so */
    uint64_t refused;           /* how many came in while somebody was, since one looked */
    uint64_t told;              /* milliseconds of the clock when that was told last */
    bool is_settled;            /* the machine that is connected has said a frame, or has stayed */
    uint64_t taken;             /* milliseconds of the clock when it came in, */
    uint64_t settled;           /* when one was settled last, or 0, */
    uint64_t rested;            /* and when none could be taken, or 0 */
    uint64_t not_taken;         /* how often none could be, since the system has no room for a connection */
    bool is_not_taken_told;     /* and whether that was told */
    uint8_t card[6];            /* the interface's own address; zeros while it isn't known */
    const char *lacks;          /* what it had to have to be up, when one looked last; */
    int fault;                  /* and the system's number for it, or 0 */
    bool is_behind;             /* at its last turn more waited than one turn hears */
} cable;

/* Opens what the setting says. An address or a card that isn't there yet is waited for: cable_is_up opens it later. Returns NULL, or in
 * words what went wrong; then errno has the reason. */
const char *cable_open(cable *it, const network_setting *set);

/* Which kinds of frames the socket of an interface is to hear, now and when it is opened; anything else hears all frames. */
void cable_hears(cable *it, unsigned kinds);

void cable_close(cable *it);

/* Whether a machine is connected of which it isn't known yet whether it stays: one looks, then, as soon as something comes. */
bool cable_is_new(const cable *it);

/* What it waits for: at most two. Returns how many. */
size_t cable_waits(const cable *it, watch list[2]);

/* Whether something has come that isn't waited for; and milliseconds, at most those that are left, until one is to look again at what one
 * doesn't wait for: a machine of which it isn't known yet whether it stays, or what the system had no room to give. */
bool cable_has_more(const cable *it);
int cable_patience(const cable *it, int left);

/* The same link by another configuration. */
void cable_follow(cable *it, const network_setting *set);

/* Whether anything can come on it now. */
bool cable_is_open(const cable *it);

/* The next frames or datagrams. Returns false where there is none now. */
bool cable_receive(cable *it, arrivals *in);

/* Sends a frame; a datagram to someone who may not be there. Returns whether it is on its way. */
bool cable_send(cable *it, const uint8_t *bytes, size_t length);
bool cable_send_to(cable *it, const departure *what);

/* Sends datagrams, at least one and at most MOST_TOGETHER, to places that have answered lately. Returns how many of the first are on their
 * way: 0 where the system refused the very first. */
size_t cable_send_all(cable *it, const departure *list, size_t count);

/* Whether it can carry something now; where it can't, `lacks` and `fault` tell why. What isn't open is tried again, once a second, and
 * interfaces are looked for. */
bool cable_is_up(cable *it);

/* The words of a setting's link on it, with the port that it took. */
const char *cable_words(const cable *it, const network_setting *set, char words[LINK_ROOM]);

/* Who is at the other end where the link's line doesn't say it: who came in, or the address of a name. Else NULL. */
const address *cable_with(const cable *it);

/* Whether a connection was lost since this was asked last; there may be another already. */
bool cable_was_lost(cable *it);

/* How many came in while somebody was connected, since this was asked last. */
uint64_t cable_refused(cable *it);

#endif

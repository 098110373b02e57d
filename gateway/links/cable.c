#include "links/cable.h"

#include <errno.h>
#include <string.h>

#include "links/pc.h"
#include "links/plugged.h"
#include "systems/card.h"
#include "systems/clock.h"
#include "systems/fault.h"
#include "systems/multicast.h"
#include "systems/sockets.h"

/* Milliseconds from one try to open something to the next. */
enum { BETWEEN = 1000 };

/* Milliseconds until a link is opened again once more from an address that it left and came back to. */
enum { BETWEEN_MOVES = 600000 };

/* Milliseconds of silence, after which a name is asked for again: a gateway at the other end says something each minute. */
enum { SILENT = 90000 };

static bool is_connection(const cable *it)
{
    return it->set->type == LINK_QEMU_LISTEN || it->set->type == LINK_QEMU_CONNECT;
}

/* Opens an interface; where it is one of several links, the frames for nodes of the others are heard there too. */
static const char *open_interface(cable *it)
{
    const network_setting *set = it->set;
    it->fd = interface_open(set->name, it->kinds, &it->index, it->card);
    if (it->fd < 0)
        return errno == EPROTOTYPE ? "it isn't Ethernet" : "can't open the interface";
    if (!set->is_of_several || interface_hears_all(it->fd, it->index))
        return NULL;
    int why = errno;
    close_any(&it->fd);
    errno = why;
    return "can't hear all frames there";
}

/* Opens a link by datagrams, once it is known where they go: to somebody else. */
static const char *open_datagrams(cable *it)
{
    errno = 0;
    if (!it->remote.is_known)
        return REMOTE_UNKNOWN;
    it->fd = datagram_open(&it->local, &it->remote.at);
    it->heard = clock_now();
    if (it->fd < 0)
        return "can't take the addresses";
    if (!connection_is_own(it->fd))
        return NULL;
    close_any(&it->fd);
    errno = 0;
    return "the address there is the gateway's own";
}

static void close_group(cable *it)
{
    int why = errno;
    close_any(&it->fd);
    close_any(&it->says);
    errno = why;
}

/* Opens both ends of a group. (the card's number is known before: where another card has the address since, it is seen) */
static const char *open_group(cable *it)
{
    const network_setting *set = it->set;
    (void)multicast_card(&set->local, &it->index);
    it->fd = multicast_join(&set->remote, &set->local);
    if (it->fd >= 0)
        it->says = multicast_speak(&set->remote, &set->local, &it->own);
    if (it->says >= 0)
        return NULL;
    close_group(it);
    if (errno == ENODEV || errno == EADDRNOTAVAIL)
        return "no card has that address";
    return errno == ENOBUFS ? "the system lets nobody join one more group" : "can't join the group";
}

/* Opens a link by peers: what it has to have, and then its socket. */
static const char *open_peers(cable *it)
{
    const char *lacks = NULL;
    if (it->peers == NULL)
        it->peers = peers_open(it->set, &lacks);
    if (it->peers == NULL)
        return lacks;
    it->fd = datagram_open(&it->local, NULL);
    return it->fd < 0 ? "can't take the address" : NULL;
}

/* Opens a link whose datagrams are packets. */
static const char *open_bare(cable *it)
{
    if (it->bare == NULL)
        it->bare = rfc1234_open(it->set);
    if (it->bare == NULL)
        return "out of memory";
    it->fd = datagram_open(&it->local, NULL);
    return it->fd < 0 ? "can't take the address" : NULL;
}

/* Opens it. Returns NULL, or what went wrong. */
static const char *open_link(cable *it)
{
    switch (it->set->type) {
    case LINK_DOSBOX:
        it->fd = datagram_open(&it->local, NULL);
        return it->fd < 0 ? "can't take the address" : NULL;
    case LINK_QEMU_UDP:
        return open_datagrams(it);
    case LINK_QEMU_LISTEN:
        it->listener = listener_open(&it->local);
        return it->listener < 0 ? "can't listen there" : NULL;
    case LINK_WEB:
        it->web = web_open(it->set, &it->local);
        return it->web == NULL ? "can't listen there" : NULL;
    case LINK_QEMU_CONNECT:
    case LINK_VDE:
        return NULL; /* (it is tried as soon as one asks whether it is up) */
    case LINK_QEMU_MCAST:
        return open_group(it);
    case LINK_PEERS:
        return open_peers(it);
    case LINK_RFC1234:
        return open_bare(it);
    case LINK_TAP:
        it->fd = tap_open(it->set->name, &it->index);
        return it->fd < 0 ? "can't open the TAP" : NULL;
    default:
        return open_interface(it);
    }
}

/* The same; it has the port that it took only where it is open. */
static const char *opened(cable *it)
{
    it->local = it->set->local;
    const char *lacks = open_link(it);
    if (lacks != NULL)
        it->local = it->set->local;
    return lacks;
}

/* Whether a fault is of what may come by itself: an address that the machine is given later, a name, a card, a way to another machine. */
static bool is_not_there_yet(int fault)
{
    return fault == 0 || fault == EADDRNOTAVAIL || fault == ENODEV || fault == ENXIO || fault == ENETDOWN || fault == ENETUNREACH ||
           fault == EHOSTUNREACH;
}

/* Whether it lacks what somebody has to put there for its peers: a key, or libsodium. */
static bool lacks_of_peers(const cable *it)
{
    return it->set->type == LINK_PEERS && it->peers == NULL;
}

const char *cable_open(cable *it, const network_setting *set)
{
    it->set = set;
    it->kinds = kind_bits(set->kind);
    it->fd = it->listener = it->says = it->plug.call = -1;
    it->web = NULL;
    it->peers = NULL;
    it->bare = NULL;
    stream_clear(&it->stream);
    far_end far = far_end_of(set);
    remote_begin(&it->remote, &far);
    it->tried = clock_now();
    it->lacks = opened(it);
    it->fault = errno;
    if (it->lacks != NULL)
        return is_not_there_yet(errno) || lacks_of_peers(it) ? NULL : it->lacks;
    if (is_connection(it) || set->type == LINK_VDE) {
        it->lacks = it->listener >= 0 ? "nobody is connected" : "not connected yet";
        it->fault = 0;
        it->tried = 0;
    }
    return NULL;
}

const char *cable_words(const cable *it, const network_setting *set, char words[LINK_ROOM])
{
    network_setting taken = *set;
    taken.local = it->local;
    return link_words(&taken, words);
}

void cable_hears(cable *it, unsigned kinds)
{
    if (it->kinds != kinds && (it->fd < 0 || interface_hears_kinds(it->fd, kinds)))
        it->kinds = kinds;
}

void cable_follow(cable *it, const network_setting *set)
{
    it->set = set;
    if (it->web != NULL)
        web_follow(it->web, set);
    if (it->peers != NULL)
        peers_follow(it->peers, set);
    if (it->bare != NULL)
        rfc1234_follow(it->bare, set);
}

bool cable_is_open(const cable *it)
{
    return it->fd >= 0 || it->web != NULL;
}

void cable_close(cable *it)
{
    if (it->plug.call >= 0)
        plug_end(&it->plug, &it->fd);
    close_any(&it->fd);
    close_any(&it->says);
    close_any(&it->listener);
    if (it->web != NULL)
        web_close(it->web);
    if (it->peers != NULL)
        peers_close(it->peers);
    if (it->bare != NULL)
        rfc1234_close(it->bare);
    it->web = NULL;
    it->peers = NULL;
    it->bare = NULL;
    remote_end(&it->remote);
}

/* (what waits for a look the system would tell again and again meanwhile) */
static bool looks_later(const cable *it)
{
    return pc_is_held_up(it) || (it->starved != 0 && clock_now() - it->starved < PC_LOOKS);
}

/* Whether frames may come and go: of a switch only by a port that it gave. */
static bool has_port(const cable *it)
{
    return it->set->type != LINK_VDE || it->is_settled;
}

size_t cable_waits(const cable *it, watch list[2])
{
    size_t count = 0;
    bool is_under_way = is_connection(it) && (!it->stream.is_connected || it->stream.out > 0);
    if (looks_later(it))
        return 0;
    if (it->fd >= 0 && has_port(it))
        list[count++] = (watch){.fd = it->fd, .sends = is_under_way};
    if (it->plug.call >= 0)
        list[count++] = (watch){.fd = it->plug.call};
    if (it->listener >= 0 && pc_may_come(it))
        list[count++] = (watch){.fd = it->listener};
    return count;
}

bool cable_is_new(const cable *it)
{
    return it->stream.is_connected && !it->is_settled;
}

bool cable_has_more(const cable *it)
{
    return it->web != NULL ? web_has_more(it->web) : it->is_settled && stream_has_frame(&it->stream);
}

int cable_patience(const cable *it, int left)
{
    return looks_later(it) && left > PC_LOOKS ? PC_LOOKS : left;
}

bool cable_was_lost(cable *it)
{
    bool was_lost = it->was_lost;
    it->was_lost = false;
    return was_lost;
}

uint64_t cable_refused(cable *it)
{
    uint64_t count = it->refused;
    it->refused = 0;
    return count;
}

const address *cable_with(const cable *it)
{
    if (is_connection(it))
        return it->set->type == LINK_QEMU_LISTEN || it->set->host[0] != '\0' ? &it->peer : NULL;
    return has_name(it->set) ? &it->remote.at : NULL;
}

/* ---- Whether it is up ---- */

/* Whether the other end may be gone: nobody is connected, or nothing came for long. */
static bool may_be_gone(cable *it)
{
    if (it->set->type == LINK_QEMU_CONNECT)
        return !it->stream.is_connected;
    if (it->has_heard)
        it->heard = clock_now();
    it->has_heard = false;
    return it->fd < 0 || clock_now() - it->heard >= SILENT;
}

/* Looks for the address of a name. Where it is another one, what goes out goes there from now on, which is told; a connection stays. */
static void follow_name(cable *it)
{
    far_end far = far_end_of(it->set);
    if (!has_name(it->set) || !remote_look(&it->remote, &far, may_be_gone(it)) || it->stream.is_connected)
        return;
    it->was_lost = true;
    close_any(&it->fd);
    it->tried = 0;
}

/* Whether a link by datagrams takes whatever address of the machine leads to the other end. */
static bool is_at_any_address(const network_setting *set)
{
    static const address ANY = {.port = 0};
    return set->type == LINK_QEMU_UDP && memcmp(set->local.host, ANY.host, sizeof ANY.host) == 0 &&
           memcmp(set->local.six, ANY.six, sizeof ANY.six) == 0;
}

/* Whether a link was opened again lately, since another address than this seemed to lead there, and has this one again: ways may go by ports. */
static bool came_back(const cable *it, const address *own)
{
    return it->moved != 0 && clock_now() - it->moved < BETWEEN_MOVES && same_address(&it->moved_from, own);
}

/* Where that is another address by now, as where the machine was given one, or a card came up that leads there, the link is opened again. */
static void follow_own_address(cable *it)
{
    address own;
    if (it->fd < 0 || !is_at_any_address(it->set) || datagram_has_address(it->fd, &own) || came_back(it, &own))
        return;
    it->moved_from = own;
    it->moved = clock_now();
    it->was_lost = true;
    close_any(&it->fd);
    it->tried = 0;
}

/* Opens what was not there, once a second. Returns whether it is there now. */
static bool opens_now(cable *it)
{
    uint64_t now = clock_now();
    bool is_called = it->set->type == LINK_QEMU_CONNECT || it->set->type == LINK_VDE;
    if (it->fd >= 0 || it->listener >= 0 || it->web != NULL || is_called)
        return true;
    if (it->tried != 0 && now - it->tried < BETWEEN)
        return false;
    it->tried = now;
    const char *lacks = opened(it);
    it->fault = lacks != NULL ? errno : 0;
    it->lacks = lacks != NULL ? lacks : is_connection(it) ? "nobody is connected" : NULL;
    return lacks == NULL;
}

/* What a card lacks that isn't up. */
static const char *const CARD_LACKS[] = {[CARD_ABSENT] = "it isn't there", [CARD_OTHER] = "it isn't Ethernet",
    [CARD_OFF] = "it is switched off", [CARD_UNPLUGGED] = "no carrier"};

/* Whether a card is up; else what it lacks. Where the system can't say it, all is as it was. */
static bool card_is_up(cable *it, card_state state, const char *const lacks[])
{
    if (state == CARD_UNKNOWN)
        return it->lacks == NULL;
    it->fault = 0;
    it->lacks = state == CARD_UP ? NULL : lacks[state];
    return state == CARD_UP;
}

/* Hears the interface of a number, which has the link's name now. */
static bool hears_again(cable *it, unsigned index)
{
    it->index = 0;
    if (!interface_again(it->fd, index) || (it->set->is_of_several && !interface_hears_all(it->fd, index)))
        return false;
    it->index = index;
    return true;
}

/* One that was taken away and is there again has another number, or isn't heard by the same, and has perhaps another address. */
static bool interface_is_up(cable *it)
{
    unsigned index;
    card_state state = interface_state(it->set->name, &index, it->card);
    bool is_there = state != CARD_UNKNOWN && state != CARD_ABSENT && state != CARD_OTHER;
    if (!is_there || (index == it->index && interface_is_heard(it->fd, index)) || hears_again(it, index))
        return card_is_up(it, state, CARD_LACKS);
    it->fault = errno;
    it->lacks = "can't open the interface";
    return false;
}

/* One that was taken away is opened again, where it is there or may be made. */
static bool tap_is_up(cable *it)
{
    unsigned index;
    uint8_t of_host[6];
    card_state state = interface_state(it->set->name, &index, of_host);
    if (state == CARD_UNKNOWN || index == it->index)
        return card_is_up(it, state, CARD_LACKS);
    close_any(&it->fd);
    it->tried = 0;
    return opens_now(it) && card_is_up(it, interface_state(it->set->name, &index, of_host), CARD_LACKS);
}

/* A group is heard by the card that has the address, for as long as it has it: then another may. */
static bool group_is_up(cable *it)
{
    static const char *const LACKS[] = {[CARD_ABSENT] = "no card has that address", [CARD_OTHER] = "it isn't Ethernet",
        [CARD_OFF] = "its card is switched off", [CARD_UNPLUGGED] = "its card has no carrier"};
    unsigned index;
    card_state state = multicast_card(&it->set->local, &index);
    if (state == CARD_UNKNOWN || index == it->index)
        return card_is_up(it, state, LACKS);
    close_group(it);
    it->tried = 0;
    return opens_now(it) && card_is_up(it, multicast_card(&it->set->local, &index), LACKS);
}

bool cable_is_up(cable *it)
{
    follow_name(it);
    follow_own_address(it);
    if (!opens_now(it))
        return false;
    switch (it->set->type) {
    case LINK_QEMU_LISTEN:
    case LINK_QEMU_CONNECT:
        return pc_is_up(it);
    case LINK_TAP:
        return tap_is_up(it);
    case LINK_INTERFACE:
        return interface_is_up(it);
    case LINK_QEMU_MCAST:
        return group_is_up(it);
    case LINK_VDE:
        return plugged_is_up(it);
    case LINK_RFC1234:
        rfc1234_look(it->bare);
        return true;
    default:
        return true;
    }
}

/* ---- Sending and receiving ---- */

static ssize_t receive_stream(cable *it, uint8_t *bytes, size_t room)
{
    if (!it->is_settled) {
        errno = EAGAIN;
        return -1;
    }
    ssize_t length = stream_receive(&it->stream, it->fd, bytes, room);
    if (length < 0 && !may_pass(errno))
        pc_goes(it);
    return length;
}

/* The one frame that came, if one did. */
static bool receive_frame(cable *it, arrivals *in)
{
    arrival *first = &in->list[0];
    ssize_t length = it->set->type == LINK_TAP ? tap_receive(it->fd, first->bytes, sizeof first->bytes)
                                               : receive_stream(it, first->bytes, sizeof first->bytes);
    first->length = length > 0 ? (size_t)length : 0;
    first->is_sent = false;
    in->count = 1;
    return length >= 0;
}

/* The next of a group. What the gateway says itself comes back, and counts as sent by this machine. */
static bool receive_of_group(cable *it, arrivals *in)
{
    bool has_come = multicast_receive(it->fd, &it->set->remote, in);
    for (size_t k = 0; has_come && k < in->count; k++)
        in->list[k].is_sent = same_address(&in->list[k].from, &it->own);
    return has_come;
}

/* The next of peers whose datagrams are packets, as frames. */
static bool receive_bare(cable *it, arrivals *in)
{
    bool has_come = datagrams_receive(it->fd, in);
    if (has_come)
        rfc1234_receive(it->bare, in);
    return has_come;
}

/* The next that came by a port of a switch, if there is one. */
static bool receive_of_switch(cable *it, arrivals *in)
{
    errno = EAGAIN;
    return has_port(it) && plug_receive(&it->plug, it->fd, in);
}

static bool receive(cable *it, arrivals *in)
{
    switch (it->set->type) {
    case LINK_QEMU_LISTEN:
    case LINK_QEMU_CONNECT:
    case LINK_TAP:
        return receive_frame(it, in);
    case LINK_QEMU_MCAST:
        return receive_of_group(it, in);
    case LINK_VDE:
        return receive_of_switch(it, in);
    case LINK_PEERS:
        return peers_receive(it->peers, it->fd, in);
    case LINK_RFC1234:
        return receive_bare(it, in);
    default:
        return datagrams_receive(it->fd, in);
    }
}

bool cable_receive(cable *it, arrivals *in)
{
    if (it->web != NULL)
        return web_receive(it->web, in);
    bool has_come = receive(it, in);
    int fault = errno;
    it->starved = !has_come && is_for_want_of_room(fault) ? clock_now() : 0;
    errno = fault;
    it->has_heard = it->has_heard || has_come;
    return has_come;
}

bool cable_send(cable *it, const uint8_t *bytes, size_t length)
{
    if (it->web != NULL)
        return web_send(it->web, bytes, length);
    if (it->fd < 0 || !has_port(it))
        return false;
    if (is_connection(it))
        return it->stream.is_connected && stream_send(&it->stream, it->fd, bytes, length);
    if (it->set->type == LINK_TAP)
        return tap_send(it->fd, bytes, length);
    if (it->peers != NULL)
        return peers_send(it->peers, it->fd, bytes, length);
    if (it->bare != NULL)
        return rfc1234_send(it->bare, it->fd, bytes, length);
    return datagram_send(it->set->type == LINK_QEMU_MCAST ? it->says : it->fd, bytes, length);
}

bool cable_send_to(cable *it, const departure *what)
{
    return it->web != NULL ? web_send_to(it->web, what) : datagram_send_to(it->fd, what);
}

size_t cable_send_all(cable *it, const departure *list, size_t count)
{
    size_t sent = 0;
    if (it->web == NULL)
        return datagrams_send(it->fd, list, count);
    while (sent < count && web_send_to(it->web, &list[sent]))
        sent++;
    return sent;
}

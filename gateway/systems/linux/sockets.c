/* (for several datagrams at a time, and what the system knows of a connection) */
#define _GNU_SOURCE
#include "systems/sockets.h"

#include <arpa/inet.h>
#include <errno.h>
#include <fcntl.h>
#include <linux/if_packet.h>
#include <linux/sockios.h>
#include <netinet/in.h>
#include <linux/in6.h>
#include <netinet/tcp.h>
#include <poll.h>
#include <string.h>
#include <sys/ioctl.h>
#include <sys/socket.h>
#include <unistd.h>

/* Bytes that the system keeps: of what has come, while the gateway sends to many; and of what it sends, as to machines that are gone. */
enum { KEPT = 8 << 20, KEPT_SENT = 8 << 20, KEPT_LITTLE = 32 << 10, MOST_WAITING = 128 };

/* Bytes that may be under way on a connection, or wait: to somebody far much has to be under way. */
enum { UNDER_WAY = 256 << 10 };

/* What goes to strangers may hold one part in so many of what the system keeps of what is sent, and what goes to clients who may be gone, with
 * that. */
enum { STRANGERS_PART = 4, LISTENERS_PART = 2 };

/* How often something is sent where the call tells only what somebody complained of: the next complaint may be there already. */
enum { MOST_TRIES = 16 };

/* Seconds of silence, after which a connection is asked whether it is there; from one question to the next; and how many there are. */
enum { SILENT = 20, AGAIN = 20, TIMES = 2, MINUTE = SILENT + AGAIN * TIMES, MILLISECONDS = 1000 };

void close_any(int *fd)
{
    int closed = *fd;
    *fd = -1;
    if (closed >= 0)
        close(closed);
}

/* ---- Addresses ---- */

static struct sockaddr_in to_system(const address *at)
{
    struct sockaddr_in it = {0};
    it.sin_family = AF_INET;
    it.sin_port = htons(at->port);
    memcpy(&it.sin_addr, at->host, sizeof at->host);
    return it;
}

static address of_system(const struct sockaddr_in *at)
{
    address it = {.port = ntohs(at->sin_port)};
    memcpy(it.host, &at->sin_addr, sizeof it.host);
    return it;
}

/* An address of either kind as the system takes it. Clients are of IPv4; places are of either. */
typedef union any_address {
    struct sockaddr one;
    struct sockaddr_in four;
    struct sockaddr_in6 six;
    struct sockaddr_ll card; /* (of a frame) */
} any_address;

static int family_of(const address *at)
{
    return at->is_six ? AF_INET6 : AF_INET;
}

/* Returns its size. */
static socklen_t to_any(const address *at, any_address *it)
{
    memset(it, 0, sizeof *it);
    if (!at->is_six) {
        it->four = to_system(at);
        return sizeof it->four;
    }
    it->six.sin6_family = AF_INET6;
    it->six.sin6_port = htons(at->port);
    memcpy(&it->six.sin6_addr, at->six, sizeof at->six);
    return sizeof it->six;
}

static address of_any(const any_address *at)
{
    address it = {.is_six = at->one.sa_family == AF_INET6};
    if (!it.is_six)
        return of_system(&at->four);
    it.port = ntohs(at->six.sin6_port);
    memcpy(it.six, &at->six.sin6_addr, sizeof it.six);
    return it;
}

/* ---- Opening ---- */

/* Makes a socket that doesn't wait, or closes it. */
static int unwaiting(int fd)
{
    int flags = fd < 0 ? -1 : fcntl(fd, F_GETFL);
    if (flags >= 0 && fcntl(fd, F_SETFL, flags | O_NONBLOCK) == 0 && fcntl(fd, F_SETFD, FD_CLOEXEC) == 0)
        return fd;
    int why = errno;
    close_any(&fd);
    errno = why;
    return -1;
}

static bool set(int fd, int level, int option, int value)
{
    return setsockopt(fd, level, option, &value, sizeof value) == 0;
}

/* Whether a socket has an address; tells the port that it took. */
static bool is_bound(int fd, address *local)
{
    any_address at;
    socklen_t size = to_any(local, &at);
    /* (an address of IPv6 is none of IPv4 too, as other programs may take it) */
    if (local->is_six && !set(fd, IPPROTO_IPV6, IPV6_V6ONLY, 1))
        return false;
    if (bind(fd, &at.one, size) != 0 || getsockname(fd, &at.one, &size) != 0)
        return false;
    *local = of_any(&at);
    return true;
}

/* Whether a connection is there or under way; a socket for datagrams hears that address alone. */
static bool is_connected(int fd, const address *remote)
{
    any_address to;
    socklen_t size = to_any(remote, &to);
    return connect(fd, &to.one, size) == 0 || errno == EINPROGRESS;
}

/* The socket, where all is well; else it is closed. */
static int kept_if(bool is_well, int fd)
{
    int why = errno;
    if (!is_well)
        close_any(&fd);
    errno = why;
    return fd;
}

/* Asks for room, as much as the gateway has the right to: by the first option without the limit for all programs, by the second within it.
 * (less is enough: then more is lost when many send at once) */
static void keep(int fd, int without_limit, int within_limit, int size)
{
    (void)(set(fd, SOL_SOCKET, without_limit, size) || set(fd, SOL_SOCKET, within_limit, size));
}

/* By IPv6 only the sender cuts what is too long for its way, so it believes a router that says so: that makes pieces of 1,280 bytes at least,
 * whoever forges it. And where the system chooses, it takes the address that stays, not one of those that it changes to hide the machine. */
static void set_six(int fd)
{
    (void)set(fd, IPPROTO_IPV6, IPV6_MTU_DISCOVER, IPV6_PMTUDISC_DONT);
    (void)set(fd, IPPROTO_IPV6, IPV6_ADDR_PREFERENCES, IPV6_PREFER_SRC_PUBLIC);
}

int datagram_open(address *local, const address *remote)
{
    int fd = unwaiting(socket(family_of(local), SOCK_DGRAM, 0));
    if (fd < 0)
        return -1;
    keep(fd, SO_RCVBUFFORCE, SO_RCVBUF, KEPT);
    keep(fd, SO_SNDBUFFORCE, SO_SNDBUF, KEPT_SENT);
    if (local->is_six)
        set_six(fd);
    else /* (else anybody who forges a router's complaint makes the system cut what goes to a client, into pieces as small as he likes) */
        (void)set(fd, IPPROTO_IP, IP_MTU_DISCOVER, IP_PMTUDISC_OMIT);
    return kept_if(is_bound(fd, local) && (remote == NULL || is_connected(fd, remote)), fd);
}

/* The address of a socket, or of the other end of one. Returns whether it is known. */
static bool address_of(int fd, int asks(int, struct sockaddr *, socklen_t *), address *it)
{
    any_address at = {.six = {.sin6_family = AF_INET}};
    socklen_t size = sizeof at;
    bool is_known = asks(fd, &at.one, &size) == 0;
    *it = of_any(&at);
    return is_known;
}

/* Whether an address isn't the machine's any more. (a socket for another port there tells it) */
static bool is_gone(address own)
{
    int fd = unwaiting(socket(family_of(&own), SOCK_DGRAM, 0));
    bool is_so = fd >= 0 && !is_bound(fd, &own) && errno == EADDRNOTAVAIL;
    close_any(&fd);
    return is_so;
}

/* Whether what goes to another machine would leave from another address than that. (a socket to there tells it) */
static bool leaves_elsewhere(const address *own, const address *remote)
{
    address chosen = {.port = 0};
    int fd = unwaiting(socket(family_of(own), SOCK_DGRAM, 0));
    if (fd >= 0 && own->is_six)
        set_six(fd);
    bool is_so = fd >= 0 && is_connected(fd, remote) && address_of(fd, getsockname, &chosen);
    chosen.port = own->port;
    is_so = is_so && !same_address(&chosen, own);
    close_any(&fd);
    return is_so;
}

bool datagram_has_address(int fd, address *own)
{
    address remote;
    if (!address_of(fd, getsockname, own) || !address_of(fd, getpeername, &remote))
        return true;
    own->port = 0; /* (a socket for another one asks) */
    return !is_gone(*own) && !leaves_elsewhere(own, &remote);
}

int listener_open(address *local)
{
    int yes = 1;
    int fd = unwaiting(socket(family_of(local), SOCK_STREAM, 0));
    if (fd < 0)
        return -1;
    bool is_well = setsockopt(fd, SOL_SOCKET, SO_REUSEADDR, &yes, sizeof yes) == 0 && is_bound(fd, local);
    return kept_if(is_well && listen(fd, MOST_WAITING) == 0, fd);
}

/* (each connection has what its listener has; of what goes each keeps little anyway) */
void listener_keep_little(int listener)
{
    (void)set(listener, SOL_SOCKET, SO_RCVBUF, KEPT_LITTLE);
}

/* Of what goes the system keeps so many bytes that it hasn't sent yet, since what the other end is too slow for is to be dropped, not late. What
 * is under way is more: else somebody far would get no more than that in the time of a word there and back, however wide the way is. */
static void keep_unsent(int fd, int bytes)
{
    (void)set(fd, SOL_SOCKET, SO_SNDBUF, UNDER_WAY);
    (void)set(fd, IPPROTO_TCP, TCP_NOTSENT_LOWAT, bytes);
}

/* Frames go out at once; little waits; and whether the other end is there is known after a minute. */
static int plain_connection(int fd)
{
    if (fd < 0)
        return fd;
    (void)set(fd, IPPROTO_TCP, TCP_NODELAY, 1);
    keep_unsent(fd, KEPT_LITTLE);
    (void)set(fd, SOL_SOCKET, SO_KEEPALIVE, 1);
    (void)set(fd, IPPROTO_TCP, TCP_KEEPIDLE, SILENT);
    (void)set(fd, IPPROTO_TCP, TCP_KEEPINTVL, AGAIN);
    (void)set(fd, IPPROTO_TCP, TCP_KEEPCNT, TIMES);
    return fd;
}

int listener_take(int listener, address *from)
{
    any_address at = {.six = {.sin6_family = AF_INET}};
    socklen_t size = sizeof at;
    int fd = plain_connection(unwaiting(accept(listener, &at.one, &size)));
    *from = of_any(&at);
    return fd;
}

int connection_begin(const address *remote)
{
    int fd = plain_connection(unwaiting(socket(family_of(remote), SOCK_STREAM, 0)));
    return fd < 0 ? -1 : kept_if(is_connected(fd, remote), fd);
}

int connection_state(int fd)
{
    int fault = 0;
    socklen_t size = sizeof fault;
    struct pollfd waiting = {fd, POLLOUT, 0};
    if (poll(&waiting, 1, 0) <= 0)
        return 0;
    if (getsockopt(fd, SOL_SOCKET, SO_ERROR, &fault, &size) != 0)
        return -1;
    errno = fault;
    return fault == 0 ? 1 : -1;
}

void connection_finish(int fd)
{
    (void)shutdown(fd, SHUT_WR);
}

void connection_drop(int *fd)
{
    struct linger none = {.l_onoff = 1, .l_linger = 0};
    (void)!setsockopt(*fd, SOL_SOCKET, SO_LINGER, &none, sizeof none);
    close_any(fd);
}

bool connection_is_own(int fd)
{
    any_address at = {.six = {.sin6_family = AF_INET}}, with = at;
    socklen_t size = sizeof at, other_size = sizeof with;
    if (getsockname(fd, &at.one, &size) != 0 || getpeername(fd, &with.one, &other_size) != 0)
        return false;
    address own = of_any(&at), other = of_any(&with);
    return same_address(&own, &other);
}

void connection_keep_little(int fd, int bytes)
{
    (void)set(fd, SOL_SOCKET, SO_RCVBUF, bytes);
    keep_unsent(fd, bytes);
}

/* (while something is under way nobody is asked whether he is there, and Linux tries for a quarter of an hour. Who acknowledges, but takes
 * nothing, as a PC that is halted, has nothing under way) */
bool connection_is_dead(int fd)
{
    struct tcp_info about = {0};
    socklen_t size = sizeof about;
    return getsockopt(fd, IPPROTO_TCP, TCP_INFO, &about, &size) == 0 && about.tcpi_unacked > 0 &&
           about.tcpi_last_ack_recv >= MINUTE * MILLISECONDS;
}

bool connection_has_more(int fd)
{
    char byte;
    return recv(fd, &byte, sizeof byte, MSG_PEEK) >= 0 || errno != EAGAIN;
}

bool connection_has_ended(int fd)
{
    struct pollfd ended = {fd, POLLRDHUP, 0};
    return poll(&ended, 1, 0) > 0;
}

/* ---- Sending and receiving ---- */

/* Datagrams as the system takes them: each with its place, and with its bytes in one piece. */
typedef struct batch {
    struct mmsghdr list[MOST_TOGETHER];
    struct iovec pieces[MOST_TOGETHER];
    any_address places[MOST_TOGETHER];
} batch;

static void set_piece(batch *it, size_t k, uint8_t *bytes, size_t length, socklen_t size_of_place)
{
    it->pieces[k] = (struct iovec){bytes, length};
    it->list[k].msg_hdr = (struct msghdr){
        .msg_name = &it->places[k], .msg_namelen = size_of_place, .msg_iov = &it->pieces[k], .msg_iovlen = 1};
}

/* The rooms of what comes, as the system takes them. They are the same each time, and are set where they aren't. */
static batch *rooms_of(arrivals *in)
{
    static batch rooms;
    static const arrivals *whose;
    for (size_t k = 0; whose != in && k < MOST_TOGETHER; k++)
        set_piece(&rooms, k, in->list[k].bytes, sizeof in->list[k].bytes, sizeof rooms.places[k]);
    whose = in;
    return &rooms;
}

/* Whether a call on a socket for datagrams has done nothing but to tell what ICMP said of an earlier one, for IPv4 or IPv6: such as that it
 * was too long, or that somebody on its way forbids it. Anybody can send that. */
static bool tells_complaint(ssize_t answer)
{
    if (answer >= 0)
        return false;
    switch (errno) {
    case ECONNREFUSED:
    case EACCES:
    case EMSGSIZE:
    case EOPNOTSUPP:
    case ENOPROTOOPT:
    case ENETUNREACH:
    case EHOSTUNREACH:
    case EHOSTDOWN:
    case ENONET:
    case EPROTO:
        return true;
    default:
        return false;
    }
}

/* Whether what came is a frame that this machine sends itself. */
static bool is_sent_here(const any_address *from)
{
    return from->one.sa_family == AF_PACKET && from->card.sll_pkttype == PACKET_OUTGOING;
}

bool datagrams_receive(int fd, arrivals *in)
{
    batch *all = rooms_of(in);
    int count = recvmmsg(fd, all->list, (unsigned)in->most, MSG_TRUNC, NULL);
    for (int k = 0; k < count; k++) {
        in->list[k].length = all->list[k].msg_len;
        in->list[k].from = of_any(&all->places[k]);
        in->list[k].is_sent = is_sent_here(&all->places[k]);
        all->list[k].msg_hdr.msg_namelen = sizeof all->places[k];
    }
    in->count = count > 0 ? (size_t)count : 0;
    if (tells_complaint(count))
        errno = ECONNREFUSED;
    return count > 0;
}

bool datagram_send(int fd, const uint8_t *bytes, size_t length)
{
    int tries = 0;
    ssize_t sent;
    do
        sent = send(fd, bytes, length, MSG_NOSIGNAL);
    while (tells_complaint(sent) && ++tries < MOST_TRIES);
    return sent == (ssize_t)length;
}

/* Whether there is room for what goes to somebody who may not be there: it is kept in one part of so many. Linux asks for a card that it doesn't
 * know and keeps what is to go to it meanwhile, in the socket's room: so made-up neighbours could fill it, until nothing goes to anybody. */
static bool has_room_in(int fd, int part)
{
    int kept, room;
    socklen_t size = sizeof room;
    return ioctl(fd, SIOCOUTQ, &kept) != 0 || getsockopt(fd, SOL_SOCKET, SO_SNDBUF, &room, &size) != 0 || kept < room / part;
}

static bool is_sent(int fd, const departure *what, int how)
{
    any_address at;
    socklen_t size = to_any(&what->to, &at);
    return sendto(fd, what->bytes, what->length, how, &at.one, size) == (ssize_t)what->length;
}

bool datagram_send_to(int fd, const departure *what)
{
    if (has_room_in(fd, STRANGERS_PART))
        return is_sent(fd, what, 0);
    errno = EAGAIN;
    return false;
}

/* How many of the first may go now: all, or, where much waits already, those before the first who may be gone. */
static size_t may_go(int fd, const departure *list, size_t count)
{
    size_t surely_there = 0;
    while (surely_there < count && !list[surely_there].may_be_gone)
        surely_there++;
    return surely_there == count || has_room_in(fd, LISTENERS_PART) ? count : surely_there;
}

/* (of one who is known to be there Linux doesn't ask. Else it would, a while after he was switched off, and keep what goes to him. Where the card
 * to him has lost its carrier it does ask) */
size_t datagrams_send(int fd, const departure *list, size_t most)
{
    batch all;
    size_t count = may_go(fd, list, most);
    if (count == 0)
        errno = EAGAIN;
    if (count <= 1) /* (a call for one is the faster) */
        return count == 1 && is_sent(fd, list, MSG_CONFIRM);
    for (size_t k = 0; k < count; k++) {
        socklen_t size = to_any(&list[k].to, &all.places[k]);
        set_piece(&all, k, (uint8_t *)list[k].bytes, list[k].length, size);
    }
    int sent = sendmmsg(fd, all.list, (unsigned)count, MSG_CONFIRM);
    return sent > 0 ? (size_t)sent : 0;
}

ssize_t connection_receive(int fd, uint8_t *bytes, size_t room)
{
    return recv(fd, bytes, room, 0);
}

ssize_t connection_send(int fd, const uint8_t *bytes, size_t length)
{
    return send(fd, bytes, length, MSG_NOSIGNAL);
}

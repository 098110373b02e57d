/* Sockets by what POSIX says of them, and by what macOS and the BSDs have beside it, as far as their headers name it. */
#include "systems/sockets.h"

#include <arpa/inet.h>
#include <errno.h>
#include <fcntl.h>
#include <netinet/in.h>
#include <netinet/tcp.h>
#include <poll.h>
#include <string.h>
#include <sys/socket.h>
#include <sys/uio.h>
#include <unistd.h>

/* Bytes that the system keeps of what has come, while the gateway sends to many, and of what it sends: as much as it allows, from this much
 * on down. */
enum { KEPT = 8 << 20, LEAST_KEPT = 64 << 10, KEPT_LITTLE = 32 << 10, MOST_WAITING = 128 };

/* Bytes that may be under way on a connection, or wait: to somebody far much has to be under way. */
enum { UNDER_WAY = 256 << 10 };

/* How often something is sent where the call tells only what somebody complained of: the next complaint may be there already. */
enum { MOST_TRIES = 16 };

/* Seconds of silence, after which a connection is asked whether it is there; from one question to the next; and how many there are. */
enum { SILENT = 20, AGAIN = 20, TIMES = 2, MINUTE = SILENT + AGAIN * TIMES };

/* (macOS has no such flag for a call, but an option of the socket) */
#ifndef MSG_NOSIGNAL
#define MSG_NOSIGNAL 0
#endif

/* (not all systems tell that the other end sends nothing more) */
#ifndef POLLRDHUP
#define POLLRDHUP 0
#endif

void close_any(int *fd)
{
    int closed = *fd;
    *fd = -1;
    if (closed >= 0)
        close(closed);
}

/* ---- Addresses ---- */

static struct sockaddr_in to_system(const address *at)
{
    struct sockaddr_in it = {0};
    it.sin_family = AF_INET;
    it.sin_port = htons(at->port);
    memcpy(&it.sin_addr, at->host, sizeof at->host);
    return it;
}

static address of_system(const struct sockaddr_in *at)
{
    address it = {.port = ntohs(at->sin_port)};
    memcpy(it.host, &at->sin_addr, sizeof it.host);
    return it;
}

/* An address of either kind as the system takes it. Clients are of IPv4. */
typedef union any_address {
    struct sockaddr one;
    struct sockaddr_in four;
    struct sockaddr_in6 six;
} any_address;

static int family_of(const address *at)
{
    return at->is_six ? AF_INET6 : AF_INET;
}

/* Returns its size. */
static socklen_t to_any(const address *at, any_address *it)
{
    memset(it, 0, sizeof *it);
    if (!at->is_six) {
        it->four = to_system(at);
        return sizeof it->four;
    }
    it->six.sin6_family = AF_INET6;
    it->six.sin6_port = htons(at->port);
    memcpy(&it->six.sin6_addr, at->six, sizeof at->six);
    return sizeof it->six;
}

static address of_any(const any_address *at)
{
    address it = {.is_six = at->one.sa_family == AF_INET6};
    if (!it.is_six)
        return of_system(&at->four);
    it.port = ntohs(at->six.sin6_port);
    memcpy(it.six, &at->six.sin6_addr, sizeof it.six);
    return it;
}

/* Room for an address that the system is to tell, which is none until then. */
static any_address untold(void)
{
    any_address it;
    memset(&it, 0, sizeof it);
    it.one.sa_family = AF_INET;
    return it;
}

/* ---- Opening ---- */

/* The socket, where all is well; else it is closed. */
static int kept_if(bool is_well, int fd)
{
    int why = errno;
    if (!is_well)
        close_any(&fd);
    errno = why;
    return fd;
}

/* Makes a socket that doesn't wait, or closes it. */
static int unwaiting(int fd)
{
    int flags = fd < 0 ? -1 : fcntl(fd, F_GETFL);
    return kept_if(flags >= 0 && fcntl(fd, F_SETFL, flags | O_NONBLOCK) == 0 && fcntl(fd, F_SETFD, FD_CLOEXEC) == 0, fd);
}

static bool set(int fd, int level, int option, int value)
{
    return setsockopt(fd, level, option, &value, sizeof value) == 0;
}

/* Whether a socket has an address; tells the port that it took. */
static bool is_bound(int fd, address *local)
{
    any_address at;
    socklen_t size = to_any(local, &at);
    /* (an address of IPv6 is none of IPv4 too, as other programs may take it) */
    if (local->is_six && !set(fd, IPPROTO_IPV6, IPV6_V6ONLY, 1))
        return false;
    if (bind(fd, &at.one, size) != 0 || getsockname(fd, &at.one, &size) != 0)
        return false;
    *local = of_any(&at);
    return true;
}

/* Whether a connection is there or under way; a socket for datagrams hears that address alone. */
static bool is_connected(int fd, const address *remote)
{
    any_address to;
    socklen_t size = to_any(remote, &to);
    return connect(fd, &to.one, size) == 0 || errno == EINPROGRESS;
}

/* Asks for room. (the BSDs refuse what is more than they allow. Less is enough: then more is lost when many send at once) */
static void keep(int fd, int option)
{
    int size = KEPT;
    while (!set(fd, SOL_SOCKET, option, size) && size > LEAST_KEPT)
        size /= 2;
}

/* Where the system chooses an address of IPv6, it takes the one that stays, not one of those that it changes to hide the machine. */
static void set_six(int fd)
{
#ifdef IPV6_PREFER_TEMPADDR
    (void)set(fd, IPPROTO_IPV6, IPV6_PREFER_TEMPADDR, 0);
#else
    (void)fd;
#endif
}

/* (by IPv4 these systems cut what is too long for its way only by their own cards, whatever a router says that anybody can forge) */
int datagram_open(address *local, const address *remote)
{
    int fd = unwaiting(socket(family_of(local), SOCK_DGRAM, 0));
    if (fd < 0)
        return -1;
    keep(fd, SO_RCVBUF);
    keep(fd, SO_SNDBUF);
    if (local->is_six)
        set_six(fd);
    return kept_if(is_bound(fd, local) && (remote == NULL || is_connected(fd, remote)), fd);
}

/* The address of a socket, or of the other end of one. Returns whether it is known. */
static bool address_of(int fd, int asks(int, struct sockaddr *, socklen_t *), address *it)
{
    any_address at = untold();
    socklen_t size = sizeof at;
    bool is_known = asks(fd, &at.one, &size) == 0;
    *it = of_any(&at);
    return is_known;
}

/* Whether an address isn't the machine's any more. (a socket for another port there tells it) */
static bool is_gone(address own)
{
    int fd = unwaiting(socket(family_of(&own), SOCK_DGRAM, 0));
    bool is_so = fd >= 0 && !is_bound(fd, &own) && errno == EADDRNOTAVAIL;
    close_any(&fd);
    return is_so;
}

/* Whether what goes to another machine would leave from another address than that. (a socket to there tells it) */
static bool leaves_elsewhere(const address *own, const address *remote)
{
    address chosen = {.port = 0};
    int fd = unwaiting(socket(family_of(own), SOCK_DGRAM, 0));
    if (fd >= 0 && own->is_six)
        set_six(fd);
    bool is_so = fd >= 0 && is_connected(fd, remote) && address_of(fd, getsockname, &chosen);
    chosen.port = own->port;
    is_so = is_so && !same_address(&chosen, own);
    close_any(&fd);
    return is_so;
}

bool datagram_has_address(int fd, address *own)
{
    address remote;
    if (!address_of(fd, getsockname, own) || !address_of(fd, getpeername, &remote))
        return true;
    own->port = 0; /* (a socket for another one asks) */
    return !is_gone(*own) && !leaves_elsewhere(own, &remote);
}

int listener_open(address *local)
{
    int fd = unwaiting(socket(family_of(local), SOCK_STREAM, 0));
    if (fd < 0)
        return -1;
    return kept_if(set(fd, SOL_SOCKET, SO_REUSEADDR, 1) && is_bound(fd, local) && listen(fd, MOST_WAITING) == 0, fd);
}

/* (each connection has what its listener has; of what goes each keeps little anyway) */
void listener_keep_little(int listener)
{
    (void)set(listener, SOL_SOCKET, SO_RCVBUF, KEPT_LITTLE);
}

/* How a connection is asked whether its other end is there, as each system names it: after how many seconds of silence, .. */
static const struct {
    int option, value;
} ASKS[] = {
    {TCP_NODELAY, 1}, /* (and frames go out at once) */
#if defined TCP_KEEPIDLE
    {TCP_KEEPIDLE, SILENT},
#elif defined TCP_KEEPALIVE
    {TCP_KEEPALIVE, SILENT}, /* (macOS) */
#endif
#ifdef TCP_KEEPINTVL
    {TCP_KEEPINTVL, AGAIN},
#endif
#ifdef TCP_KEEPCNT
    {TCP_KEEPCNT, TIMES},
#endif
#ifdef TCP_RXT_CONNDROPTIME
    {TCP_RXT_CONNDROPTIME, MINUTE}, /* (macOS: for how long it sends again what isn't acknowledged) */
#endif
};

/* The system keeps so many bytes of what it hasn't sent yet; where it can't tell that from what is under way, as many as may be under way. */
static void keep_unsent(int fd, int bytes)
{
    (void)set(fd, SOL_SOCKET, SO_SNDBUF, UNDER_WAY);
#ifdef TCP_NOTSENT_LOWAT
    (void)set(fd, IPPROTO_TCP, TCP_NOTSENT_LOWAT, bytes);
#else
    (void)bytes;
#endif
}

/* (the system keeps little of what goes: what the other end is too slow for is to be dropped, not late) */
static int plain_connection(int fd)
{
    if (fd < 0)
        return fd;
#ifdef SO_NOSIGPIPE
    (void)set(fd, SOL_SOCKET, SO_NOSIGPIPE, 1);
#endif
    keep_unsent(fd, KEPT_LITTLE);
    (void)set(fd, SOL_SOCKET, SO_KEEPALIVE, 1);
    for (size_t k = 0; k < sizeof ASKS / sizeof *ASKS; k++)
        (void)set(fd, IPPROTO_TCP, ASKS[k].option, ASKS[k].value);
    return fd;
}

int listener_take(int listener, address *from)
{
    any_address at = untold();
    socklen_t size = sizeof at;
    int fd = plain_connection(unwaiting(accept(listener, &at.one, &size)));
    *from = of_any(&at);
    return fd;
}

int connection_begin(const address *remote)
{
    int fd = plain_connection(unwaiting(socket(family_of(remote), SOCK_STREAM, 0)));
    return fd < 0 ? -1 : kept_if(is_connected(fd, remote), fd);
}

int connection_state(int fd)
{
    int fault = 0;
    socklen_t size = sizeof fault;
    struct pollfd waiting = {fd, POLLOUT, 0};
    if (poll(&waiting, 1, 0) <= 0)
        return 0;
    if (getsockopt(fd, SOL_SOCKET, SO_ERROR, &fault, &size) != 0)
        return -1;
    errno = fault;
    return fault == 0 ? 1 : -1;
}

void connection_finish(int fd)
{
    (void)shutdown(fd, SHUT_WR);
}

void connection_drop(int *fd)
{
    struct linger none = {.l_onoff = 1, .l_linger = 0};
    (void)!setsockopt(*fd, SOL_SOCKET, SO_LINGER, &none, sizeof none);
    close_any(fd);
}

bool connection_is_own(int fd)
{
    any_address at = untold(), with = at;
    socklen_t size = sizeof at, other_size = sizeof with;
    if (getsockname(fd, &at.one, &size) != 0 || getpeername(fd, &with.one, &other_size) != 0)
        return false;
    address own = of_any(&at), other = of_any(&with);
    return same_address(&own, &other);
}

void connection_keep_little(int fd, int bytes)
{
    (void)set(fd, SOL_SOCKET, SO_RCVBUF, bytes);
    keep_unsent(fd, bytes);
}

/* (POSIX has no way to ask. The system ends such a connection by itself: macOS after a minute, by its option, the BSDs after some more) */
bool connection_is_dead(int fd)
{
    (void)fd;
    return false;
}

bool connection_has_more(int fd)
{
    char byte;
    return recv(fd, &byte, sizeof byte, MSG_PEEK) >= 0 || errno != EAGAIN;
}

/* (where the system doesn't tell it while something waits to be received, it is told once all of that was) */
bool connection_has_ended(int fd)
{
    char byte;
    struct pollfd ended = {fd, POLLRDHUP, 0};
    if (poll(&ended, 1, 0) > 0)
        return true;
    ssize_t length = recv(fd, &byte, sizeof byte, MSG_PEEK);
    return length == 0 || (length < 0 && errno != EAGAIN && errno != EINTR);
}

/* ---- Sending and receiving ---- */

/* Whether a call on a socket for datagrams has done nothing but to tell what ICMP said of an earlier one, for IPv4 or IPv6: such as that it
 * was too long, or that somebody on its way forbids it. Anybody can send that. */
static bool tells_complaint(ssize_t answer)
{
    if (answer >= 0)
        return false;
    switch (errno) {
    case ECONNREFUSED:
    case EACCES:
    case EMSGSIZE:
    case EOPNOTSUPP:
    case ENOPROTOOPT:
    case ENETUNREACH:
    case EHOSTUNREACH:
#ifdef EHOSTDOWN
    case EHOSTDOWN:
#endif
#ifdef ENONET
    case ENONET:
#endif
    case EPROTO:
        return true;
    default:
        return false;
    }
}

/* Receives one datagram. Of one that is longer than the room POSIX tells no length: it is one more. Returns what the system answers. */
static ssize_t receive(int fd, arrival *it)
{
    any_address from = untold();
    struct iovec piece = {it->bytes, sizeof it->bytes};
    struct msghdr what = {.msg_name = &from, .msg_namelen = sizeof from, .msg_iov = &piece, .msg_iovlen = 1};
    ssize_t length = recvmsg(fd, &what, 0);
    if (length < 0)
        return length;
    it->from = of_any(&from);
    it->is_sent = false;
    it->length = (size_t)length + ((what.msg_flags & MSG_TRUNC) != 0);
    return length;
}

bool datagrams_receive(int fd, arrivals *in)
{
    ssize_t length = 0;
    in->count = 0;
    while (in->count < in->most && (length = receive(fd, &in->list[in->count])) >= 0)
        in->count++;
    if (in->count == 0 && tells_complaint(length))
        errno = ECONNREFUSED;
    return in->count > 0;
}

bool datagram_send(int fd, const uint8_t *bytes, size_t length)
{
    int tries = 0;
    ssize_t sent;
    do
        sent = send(fd, bytes, length, MSG_NOSIGNAL);
    while (tells_complaint(sent) && ++tries < MOST_TRIES);
    return sent == (ssize_t)length;
}

/* (what goes to a machine that doesn't answer fills nobody's room on the BSDs and macOS: they keep a few datagrams for it, beside the
 * sockets' room) */
bool datagram_send_to(int fd, const departure *what)
{
    any_address at;
    socklen_t size = to_any(&what->to, &at);
    return sendto(fd, what->bytes, what->length, 0, &at.one, size) == (ssize_t)what->length;
}

size_t datagrams_send(int fd, const departure *list, size_t count)
{
    size_t sent = 0;
    while (sent < count && datagram_send_to(fd, &list[sent]))
        sent++;
    return sent;
}

ssize_t connection_receive(int fd, uint8_t *bytes, size_t room)
{
    return recv(fd, bytes, room, 0);
}

ssize_t connection_send(int fd, const uint8_t *bytes, size_t length)
{
    return send(fd, bytes, length, MSG_NOSIGNAL);
}

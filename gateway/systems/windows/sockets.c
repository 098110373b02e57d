/* A socket is a small number on Windows too, which an int holds. */
#include "systems/sockets.h"

#include <errno.h>
#include <string.h>

#include "systems/windows/cards.h"
#include "systems/windows/net.h"
#include <mstcpip.h>
#include <mswsock.h>

/* Bytes that the system keeps for the gateway, while it sends to many. */
enum { KEPT = 1 << 20, KEPT_LITTLE = 32 << 10, MOST_WAITING = 128 };

/* Bytes that may be under way on a connection, or wait: to somebody far much has to be under way. */
enum { UNDER_WAY = 256 << 10 };

/* Milliseconds of silence, after which a connection is asked whether it is there; and each until it is asked again, which Windows does ten
 * times. Together a minute. */
enum { SILENT = 20000, AGAIN = 4000 };

/* What a call of Winsock has answered; where it failed, its fault is kept. */
static int answered(int answer)
{
    if (answer == SOCKET_ERROR)
        keep_fault();
    return answer;
}

void close_any(int *fd)
{
    int closed = *fd;
    *fd = -1;
    if (closed < 0)
        return;
    card_closed(closed);
    closesocket((SOCKET)closed);
}

/* ---- Addresses ---- */

static struct sockaddr_in to_system(const address *at)
{
    struct sockaddr_in it = {.sin_family = AF_INET, .sin_port = htons(at->port)};
    memcpy(&it.sin_addr, at->host, sizeof at->host);
    return it;
}

static address of_system(const struct sockaddr_in *at)
{
    address it = {.port = ntohs(at->sin_port)};
    memcpy(it.host, &at->sin_addr, sizeof it.host);
    return it;
}

/* An address of either kind as the system takes it. Clients are of IPv4, which is the faster. */
typedef union any_address {
    struct sockaddr one;
    struct sockaddr_in four;
    struct sockaddr_in6 six;
} any_address;

static int family_of(const address *at)
{
    return at->is_six ? AF_INET6 : AF_INET;
}

/* Returns its size. */
static int to_any(const address *at, any_address *it)
{
    memset(it, 0, sizeof *it);
    if (!at->is_six) {
        it->four = to_system(at);
        return sizeof it->four;
    }
    it->six.sin6_family = AF_INET6;
    it->six.sin6_port = htons(at->port);
    memcpy(&it->six.sin6_addr, at->six, sizeof at->six);
    return sizeof it->six;
}

static address of_any(const any_address *at)
{
    address it = {.is_six = at->one.sa_family == AF_INET6};
    if (!it.is_six)
        return of_system(&at->four);
    it.port = ntohs(at->six.sin6_port);
    memcpy(it.six, &at->six.sin6_addr, sizeof it.six);
    return it;
}

/* ---- Opening ---- */

/* The socket, where all is well; else it is closed. */
static int kept_if(bool is_well, int fd)
{
    int why = errno;
    if (!is_well)
        close_any(&fd);
    errno = why;
    return fd;
}

/* A socket that doesn't wait, or -1. */
static int unwaiting(SOCKET made)
{
    u_long yes = 1;
    if (made == INVALID_SOCKET) {
        keep_fault();
        return -1;
    }
    return kept_if(answered(ioctlsocket(made, FIONBIO, &yes)) == 0, (int)made);
}

static bool set(int fd, int level, int option, int value)
{
    return answered(setsockopt((SOCKET)fd, level, option, (const char *)&value, sizeof value)) == 0;
}

/* Whether a socket has an address, which no other program takes too; tells the port that it took. */
static bool is_bound(int fd, address *local)
{
    any_address at;
    int size = to_any(local, &at);
    /* (an address of IPv6 is none of IPv4 too, as Windows has it without a word) */
    if (!set(fd, SOL_SOCKET, SO_EXCLUSIVEADDRUSE, 1) || answered(bind((SOCKET)fd, &at.one, size)) != 0 ||
        answered(getsockname((SOCKET)fd, &at.one, &size)) != 0)
        return false;
    *local = of_any(&at);
    return true;
}

/* Whether a connection is there or under way; a socket for datagrams hears that address alone. */
static bool is_connected(int fd, const address *remote)
{
    any_address to;
    int size = to_any(remote, &to);
    return answered(connect((SOCKET)fd, &to.one, size)) == 0 || errno == EAGAIN;
}

int datagram_open(address *local, const address *remote)
{
    BOOL tells = FALSE;
    DWORD ignored;
    int fd = unwaiting(socket(family_of(local), SOCK_DGRAM, 0));
    if (fd < 0)
        return -1;
    /* (that a client has gone is no fault of the socket's) */
    (void)WSAIoctl((SOCKET)fd, SIO_UDP_CONNRESET, &tells, sizeof tells, NULL, 0, &ignored, NULL, NULL);
    /* (less is enough: then more is lost when many send at once) */
    (void)set(fd, SOL_SOCKET, SO_RCVBUF, KEPT);
    return kept_if(is_bound(fd, local) && (remote == NULL || is_connected(fd, remote)), fd);
}

/* (a socket for another port at that address tells it) */
bool datagram_has_address(int fd, address *own)
{
    any_address at = {.six = {.sin6_family = AF_INET}};
    int size = sizeof at;
    if (getsockname((SOCKET)fd, &at.one, &size) != 0)
        return true;
    *own = of_any(&at);
    own->port = 0;
    address another = *own;
    int other = unwaiting(socket(family_of(own), SOCK_DGRAM, 0));
    bool is_gone = other >= 0 && !is_bound(other, &another) && errno == EADDRNOTAVAIL;
    close_any(&other);
    return !is_gone;
}

int listener_open(address *local)
{
    int fd = unwaiting(socket(family_of(local), SOCK_STREAM, 0));
    if (fd < 0)
        return -1;
    return kept_if(is_bound(fd, local) && answered(listen((SOCKET)fd, MOST_WAITING)) == 0, fd);
}

/* (each connection has what its listener has; of what goes each keeps little anyway) */
void listener_keep_little(int listener)
{
    (void)set(listener, SOL_SOCKET, SO_RCVBUF, KEPT_LITTLE);
}

/* Frames go out at once; the system keeps little of what goes, since what the other end is too slow for is to be dropped, not late; whether
 * that is there is known after a minute; and a byte that somebody sends out of band is no fault,
 * which is what it would be told as again and again. */
static int plain_connection(int fd)
{
    struct tcp_keepalive asks = {.onoff = 1, .keepalivetime = SILENT, .keepaliveinterval = AGAIN};
    DWORD ignored;
    if (fd >= 0) {
        (void)set(fd, IPPROTO_TCP, TCP_NODELAY, 1);
        (void)set(fd, SOL_SOCKET, SO_SNDBUF, UNDER_WAY);
        (void)set(fd, SOL_SOCKET, SO_OOBINLINE, 1);
        (void)WSAIoctl((SOCKET)fd, SIO_KEEPALIVE_VALS, &asks, sizeof asks, NULL, 0, &ignored, NULL, NULL);
    }
    return fd;
}

int listener_take(int listener, address *from)
{
    any_address at = {.six = {.sin6_family = AF_INET}};
    int size = sizeof at;
    int fd = plain_connection(unwaiting(accept((SOCKET)listener, &at.one, &size)));
    *from = of_any(&at);
    return fd;
}

int connection_begin(const address *remote)
{
    int fd = plain_connection(unwaiting(socket(family_of(remote), SOCK_STREAM, 0)));
    return fd < 0 ? -1 : kept_if(is_connected(fd, remote), fd);
}

int connection_state(int fd)
{
    struct timeval at_once = {0, 0};
    fd_set made, failed;
    FD_ZERO(&made);
    FD_ZERO(&failed);
    FD_SET((SOCKET)fd, &made);
    FD_SET((SOCKET)fd, &failed);
    if (select(0, NULL, &made, &failed, &at_once) <= 0)
        return 0;
    if (!FD_ISSET((SOCKET)fd, &failed))
        return 1;
    int fault = 0, size = sizeof fault;
    (void)getsockopt((SOCKET)fd, SOL_SOCKET, SO_ERROR, (char *)&fault, &size);
    WSASetLastError(fault);
    keep_fault();
    return -1;
}

void connection_finish(int fd)
{
    (void)shutdown((SOCKET)fd, SD_SEND);
}

void connection_drop(int *fd)
{
    struct linger none = {.l_onoff = 1, .l_linger = 0};
    (void)setsockopt((SOCKET)*fd, SOL_SOCKET, SO_LINGER, (const char *)&none, sizeof none);
    close_any(fd);
}

bool connection_is_own(int fd)
{
    any_address at = {.six = {.sin6_family = AF_INET}}, with = at;
    int size = sizeof at, other_size = sizeof with;
    if (getsockname((SOCKET)fd, &at.one, &size) != 0 || getpeername((SOCKET)fd, &with.one, &other_size) != 0)
        return false;
    address own = of_any(&at), other = of_any(&with);
    return same_address(&own, &other);
}

void connection_keep_little(int fd, int bytes)
{
    (void)set(fd, SOL_SOCKET, SO_RCVBUF, bytes);
    (void)set(fd, SOL_SOCKET, SO_SNDBUF, UNDER_WAY);
}

/* (Windows ends a connection by itself on which nobody acknowledges what is under way, before a minute is over) */
bool connection_is_dead(int fd)
{
    (void)fd;
    return false;
}

bool connection_has_more(int fd)
{
    char byte;
    return recv((SOCKET)fd, &byte, sizeof byte, MSG_PEEK) >= 0 || WSAGetLastError() != WSAEWOULDBLOCK;
}

bool connection_has_ended(int fd)
{
    WSAPOLLFD ended = {.fd = (SOCKET)fd, .events = POLLRDNORM};
    return WSAPoll(&ended, 1, 0) > 0 && (ended.revents & (POLLHUP | POLLERR)) != 0;
}

/* ---- Sending and receiving ---- */

/* How much was received. Of a datagram that is longer than the room Windows tells no length: it is one more. */
static ssize_t received(int length, size_t room)
{
    if (length == SOCKET_ERROR && WSAGetLastError() == WSAEMSGSIZE)
        return (ssize_t)room + 1;
    return answered(length);
}

/* (one at a time: Windows has no call for several) */
bool datagrams_receive(int fd, arrivals *in)
{
    arrival *first = &in->list[0];
    any_address at = {.six = {.sin6_family = AF_INET}};
    int size = sizeof at, room = sizeof first->bytes;
    ssize_t length = received(recvfrom((SOCKET)fd, (char *)first->bytes, room, 0, &at.one, &size), (size_t)room);
    first->length = length > 0 ? (size_t)length : 0;
    first->from = of_any(&at);
    first->is_sent = false;
    in->count = 1;
    return length >= 0;
}

bool datagram_send(int fd, const uint8_t *bytes, size_t length)
{
    return is_card(fd) ? card_send(fd, bytes, length) : connection_send(fd, bytes, length) == (ssize_t)length;
}

/* (Windows keeps one datagram for a machine that doesn't answer, and no others wait for it) */
bool datagram_send_to(int fd, const departure *what)
{
    any_address at;
    int length = (int)what->length, size = to_any(&what->to, &at);
    return answered(sendto((SOCKET)fd, (const char *)what->bytes, length, 0, &at.one, size)) == length;
}

size_t datagrams_send(int fd, const departure *list, size_t count)
{
    size_t sent = 0;
    while (sent < count && datagram_send_to(fd, &list[sent]))
        sent++;
    return sent;
}

ssize_t connection_receive(int fd, uint8_t *bytes, size_t room)
{
    return answered(recv((SOCKET)fd, (char *)bytes, (int)room, 0));
}

ssize_t connection_send(int fd, const uint8_t *bytes, size_t length)
{
    return answered(send((SOCKET)fd, (const char *)bytes, (int)length, 0));
}

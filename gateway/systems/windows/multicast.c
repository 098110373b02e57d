/* Groups of UDP on Windows, where a socket that hears one is at any address of the machine, so that what was sent elsewhere comes there too:
 * of each datagram it is asked where it was sent. */
#include "systems/multicast.h"

#include <errno.h>

#include "systems/sockets.h"
#include "systems/windows/net.h"
#include <mswsock.h>

/* Bytes that the system keeps of what has come. */
enum { KEPT = 1 << 20 };

/* Whether a call of Winsock went well; where not, its fault is kept. */
static bool is_well(int answer)
{
    if (answer == SOCKET_ERROR)
        keep_fault();
    return answer != SOCKET_ERROR;
}

static struct in_addr host_of(const address *at)
{
    struct in_addr it;
    memcpy(&it, at->host, sizeof it);
    return it;
}

static struct sockaddr_in at_port(struct in_addr host, uint16_t port)
{
    return (struct sockaddr_in){.sin_family = AF_INET, .sin_port = htons(port), .sin_addr = host};
}

/* The socket, where all is well; else it is closed. */
static int kept_if(bool is_there, int fd)
{
    int why = errno;
    if (!is_there)
        close_any(&fd);
    errno = why;
    return fd;
}

static int opened(void)
{
    u_long yes = 1;
    SOCKET made = socket(AF_INET, SOCK_DGRAM, 0);
    if (made == INVALID_SOCKET) {
        keep_fault();
        return -1;
    }
    return kept_if(is_well(ioctlsocket(made, FIONBIO, &yes)), (int)made);
}

static bool set(int fd, int level, int option, const void *value, int size)
{
    return is_well(setsockopt((SOCKET)fd, level, option, value, size));
}

static bool is_bound(int fd, struct sockaddr_in at)
{
    return is_well(bind((SOCKET)fd, (const struct sockaddr *)&at, sizeof at));
}

int multicast_join(const address *group, const address *card)
{
    static const struct in_addr ANY = {{{0, 0, 0, 0}}};
    struct ip_mreq wanted = {.imr_multiaddr = host_of(group), .imr_interface = host_of(card)};
    int yes = 1, size = KEPT, fd = opened();
    if (fd < 0)
        return -1;
    (void)set(fd, SOL_SOCKET, SO_RCVBUF, &size, sizeof size);
    bool is_there = set(fd, SOL_SOCKET, SO_REUSEADDR, &yes, sizeof yes) && set(fd, IPPROTO_IP, IP_PKTINFO, &yes, sizeof yes) &&
                    is_bound(fd, at_port(ANY, group->port));
    return kept_if(is_there && set(fd, IPPROTO_IP, IP_ADD_MEMBERSHIP, &wanted, sizeof wanted), fd);
}

static bool speaks_by(int fd, const address *card)
{
    struct in_addr by = host_of(card);
    DWORD one = 1;
    return set(fd, IPPROTO_IP, IP_MULTICAST_IF, &by, sizeof by) && set(fd, IPPROTO_IP, IP_MULTICAST_TTL, &one, sizeof one) &&
           set(fd, IPPROTO_IP, IP_MULTICAST_LOOP, &one, sizeof one);
}

/* A socket that speaks by a port that the system takes; tells it. */
static int speaks_by_any_port(const address *group, const address *card, address *own)
{
    struct sockaddr_in to = at_port(host_of(group), group->port), at = at_port(host_of(card), 0);
    int size = sizeof at, fd = opened();
    bool is_there = fd >= 0 && is_bound(fd, at) && speaks_by(fd, card) &&
                    is_well(connect((SOCKET)fd, (const struct sockaddr *)&to, sizeof to)) &&
                    is_well(getsockname((SOCKET)fd, (struct sockaddr *)&at, &size));
    *own = *card;
    own->port = ntohs(at.sin_port);
    return kept_if(is_there, fd);
}

/* (the members that are programs such as QEMU speak by the group's port: where the system takes that one, it is to take another) */
int multicast_speak(const address *group, const address *card, address *own)
{
    int first = speaks_by_any_port(group, card, own);
    if (first < 0 || own->port != group->port)
        return first;
    int second = speaks_by_any_port(group, card, own), why = errno;
    close_any(&first);
    errno = why;
    return second;
}

/* The call of Winsock's that tells where a datagram was sent, which a socket is asked for; NULL where it has none. */
static LPFN_WSARECVMSG receives_by(int fd)
{
    static LPFN_WSARECVMSG found;
    GUID which = WSAID_WSARECVMSG;
    DWORD length;
    if (found == NULL && !is_well(WSAIoctl((SOCKET)fd, SIO_GET_EXTENSION_FUNCTION_POINTER, &which, sizeof which, &found, sizeof found, &length,
                                           NULL, NULL)))
        found = NULL;
    return found;
}

/* Whether a message was sent to a group, by what stands beside it. */
static bool is_to(WSAMSG *what, const address *group)
{
    IN_PKTINFO where = {.ipi_ifindex = 0};
    WSACMSGHDR *beside = WSA_CMSG_FIRSTHDR(what);
    if (beside == NULL || beside->cmsg_level != IPPROTO_IP || beside->cmsg_type != IP_PKTINFO)
        return false;
    memcpy(&where, WSA_CMSG_DATA(beside), sizeof where);
    return memcmp(&where.ipi_addr, group->host, sizeof group->host) == 0;
}

/* (one at a time. Of one that is longer than the room Windows tells no length: it is one more) */
bool multicast_receive(int fd, const address *group, arrivals *in)
{
    arrival *first = &in->list[0];
    union {
        WSACMSGHDR front;
        char bytes[WSA_CMSG_SPACE(sizeof(IN_PKTINFO))];
    } beside;
    struct sockaddr_in from = {.sin_family = AF_INET};
    WSABUF piece = {sizeof first->bytes, (char *)first->bytes};
    WSAMSG what = {.name = (struct sockaddr *)&from, .namelen = sizeof from, .lpBuffers = &piece, .dwBufferCount = 1,
                   .Control = {sizeof beside, beside.bytes}};
    DWORD length = 0;
    LPFN_WSARECVMSG receives = receives_by(fd);
    in->count = 0;
    bool is_whole = receives != NULL && is_well(receives((SOCKET)fd, &what, &length, NULL, NULL));
    bool is_cut = receives != NULL && !is_whole && WSAGetLastError() == WSAEMSGSIZE;
    if (!is_whole && !is_cut)
        return false;
    first->from = (address){.port = ntohs(from.sin_port)};
    memcpy(first->from.host, &from.sin_addr, sizeof first->from.host);
    first->is_sent = false;
    first->length = is_cut ? sizeof first->bytes + 1 : length;
    in->count = is_to(&what, group);
    return true;
}

/* (a socket at the address tells whether the machine has it; of the card Windows says more by another library alone) */
card_state multicast_card(const address *card, unsigned *index)
{
    int fd = opened();
    if (fd < 0)
        return CARD_UNKNOWN;
    bool is_there = is_bound(fd, at_port(host_of(card), 0)), is_gone = !is_there && errno == EADDRNOTAVAIL;
    close_any(&fd);
    *index = is_there;
    return is_there ? CARD_UP : is_gone ? CARD_ABSENT : CARD_UNKNOWN;
}

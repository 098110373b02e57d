/* (for groups, and for cards by their addresses) */
#define _DEFAULT_SOURCE
#include "systems/multicast.h"

#include <arpa/inet.h>
#include <errno.h>
#include <fcntl.h>
#include <ifaddrs.h>
#include <net/if.h>
#include <netinet/in.h>
#include <sys/socket.h>
#include <unistd.h>

#include "systems/sockets.h"

/* Bytes that the system keeps of what has come: as much as it allows, from this much on down. */
enum { KEPT = 8 << 20, LEAST_KEPT = 64 << 10 };

/* The first number of addresses that are this machine's own. */
enum { OWN_MACHINE = 127 };

/* A membership of a group, by the address of a card, as all systems have it. (not all headers show it) */
typedef struct membership {
    struct in_addr group, card;
} membership;

static struct in_addr host_of(const address *at)
{
    struct in_addr it;
    memcpy(&it, at->host, sizeof it);
    return it;
}

static struct sockaddr_in to_system(const address *at, uint16_t port)
{
    struct sockaddr_in it = {0};
    it.sin_family = AF_INET;
    it.sin_port = htons(port);
    it.sin_addr = host_of(at);
    return it;
}

/* The socket, where all is well; else it is closed. */
static int kept_if(bool is_well, int fd)
{
    int why = errno;
    if (!is_well)
        close_any(&fd);
    errno = why;
    return fd;
}

/* A socket that doesn't wait. */
static int opened(void)
{
    int fd = socket(AF_INET, SOCK_DGRAM, 0), flags = fd < 0 ? -1 : fcntl(fd, F_GETFL);
    return kept_if(flags >= 0 && fcntl(fd, F_SETFL, flags | O_NONBLOCK) == 0 && fcntl(fd, F_SETFD, FD_CLOEXEC) == 0, fd);
}

static bool set(int fd, int level, int option, int value)
{
    return setsockopt(fd, level, option, &value, sizeof value) == 0;
}

/* Asks for room. (less is enough: then more is lost when many send at once) */
static void keep(int fd)
{
    int size = KEPT;
#ifdef SO_RCVBUFFORCE
    if (set(fd, SOL_SOCKET, SO_RCVBUFFORCE, size))
        return;
#endif
    while (!set(fd, SOL_SOCKET, SO_RCVBUF, size) && size > LEAST_KEPT)
        size /= 2;
}

/* Whether a socket hears only what comes for groups, and by cards, that it has joined itself. (others do so without a word) */
static bool hears_its_own(int fd)
{
#ifdef IP_MULTICAST_ALL
    return set(fd, IPPROTO_IP, IP_MULTICAST_ALL, 0);
#else
    return fd >= 0;
#endif
}

/* (at the group's own address no datagram is heard that was sent to this machine) */
int multicast_join(const address *group, const address *card)
{
    struct sockaddr_in at = to_system(group, group->port);
    membership wanted = {.group = host_of(group), .card = host_of(card)};
    int fd = opened();
    if (fd < 0)
        return -1;
    keep(fd);
    bool is_there = set(fd, SOL_SOCKET, SO_REUSEADDR, 1) && hears_its_own(fd) && bind(fd, (const struct sockaddr *)&at, sizeof at) == 0;
    return kept_if(is_there && setsockopt(fd, IPPROTO_IP, IP_ADD_MEMBERSHIP, &wanted, sizeof wanted) == 0, fd);
}

/* Whether what a socket sends leaves by a card, goes no farther than its cable, and comes to others of this machine. (some systems take
 * these numbers in one byte alone) */
static bool speaks_by(int fd, const address *card)
{
    struct in_addr by = host_of(card);
    unsigned char one = 1;
#ifdef IP_PMTUDISC_OMIT /* (a frame may be longer than a datagram of the card: then it goes in pieces) */
    (void)set(fd, IPPROTO_IP, IP_MTU_DISCOVER, IP_PMTUDISC_OMIT);
#endif
    return setsockopt(fd, IPPROTO_IP, IP_MULTICAST_IF, &by, sizeof by) == 0 &&
           setsockopt(fd, IPPROTO_IP, IP_MULTICAST_TTL, &one, sizeof one) == 0 &&
           setsockopt(fd, IPPROTO_IP, IP_MULTICAST_LOOP, &one, sizeof one) == 0;
}

/* A socket that speaks by a port that the system takes; tells it. */
static int speaks_by_any_port(const address *group, const address *card, address *own)
{
    struct sockaddr_in to = to_system(group, group->port), at = to_system(card, 0);
    socklen_t size = sizeof at;
    int fd = opened();
    bool is_well = fd >= 0 && bind(fd, (const struct sockaddr *)&at, sizeof at) == 0 && speaks_by(fd, card) &&
                   connect(fd, (const struct sockaddr *)&to, sizeof to) == 0 && getsockname(fd, (struct sockaddr *)&at, &size) == 0;
    *own = *card;
    own->port = ntohs(at.sin_port);
    return kept_if(is_well, fd);
}

/* (the members that are programs such as QEMU speak by the group's port: where the system takes that one, it is to take another) */
int multicast_speak(const address *group, const address *card, address *own)
{
    int first = speaks_by_any_port(group, card, own);
    if (first < 0 || own->port != group->port)
        return first;
    int second = speaks_by_any_port(group, card, own), why = errno;
    close_any(&first);
    errno = why;
    return second;
}

/* (at the group's address nothing else comes) */
bool multicast_receive(int fd, const address *group, arrivals *in)
{
    (void)group;
    return datagrams_receive(fd, in);
}

/* Whether a card has an address: of those of this machine alone any. */
static bool has_address(const struct ifaddrs *it, const address *card)
{
    if (it->ifa_addr == NULL || it->ifa_addr->sa_family != AF_INET)
        return false;
    struct sockaddr_in at;
    memcpy(&at, it->ifa_addr, sizeof at);
    return memcmp(&at.sin_addr, card->host, sizeof card->host) == 0 || (card->host[0] == OWN_MACHINE && (it->ifa_flags & IFF_LOOPBACK) != 0);
}

card_state multicast_card(const address *card, unsigned *index)
{
    struct ifaddrs *all;
    *index = 0;
    if (getifaddrs(&all) != 0)
        return CARD_UNKNOWN;
    const struct ifaddrs *it = all;
    while (it != NULL && !has_address(it, card))
        it = it->ifa_next;
    unsigned flags = it != NULL ? it->ifa_flags : 0;
    if (it != NULL)
        *index = if_nametoindex(it->ifa_name);
    bool is_there = it != NULL;
    freeifaddrs(all);
    if (!is_there || *index == 0)
        return is_there ? CARD_UNKNOWN : CARD_ABSENT;
    return !(flags & IFF_UP) ? CARD_OFF : flags & IFF_RUNNING ? CARD_UP : CARD_UNPLUGGED;
}

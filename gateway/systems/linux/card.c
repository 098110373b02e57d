/* (for the requests and the flags of interfaces) */
#define _DEFAULT_SOURCE
#include "systems/card.h"

#include <arpa/inet.h>
#include <errno.h>
#include <fcntl.h>
#include <linux/filter.h>
#include <linux/if_ether.h>
#include <linux/if_packet.h>
#include <linux/if_tun.h>
#include <net/if.h>
#include <net/if_arp.h>
#include <string.h>
#include <sys/ioctl.h>
#include <sys/socket.h>
#include <unistd.h>

#include "configuration/settings.h"
#include "ipx.h"
#include "ipxr.h"
#include "systems/sockets.h"

/* Bytes that the system keeps of the frames that have come on an interface. */
enum { KEPT = 8 << 20 };

/* (a name of a configuration has room for any name of an interface, and no more) */
typedef char has_room_for_names[NAME_ROOM == IF_NAMESIZE ? 1 : -1];

uint8_t has_cards(void)
{
    return IPXR_CARDS_ALL;
}

/* Asks the system about an interface, or tells it: by one socket that is kept for that, so that it can also be asked where no more files
 * may be open. */
static bool ask(unsigned long what, const char *name, struct ifreq *about)
{
    static int fd = -1;
    if (fd < 0)
        fd = socket(AF_INET, SOCK_DGRAM | SOCK_CLOEXEC, 0);
    strncpy(about->ifr_name, name, sizeof about->ifr_name - 1);
    return fd >= 0 && ioctl(fd, what, about) == 0;
}

/* The number of an interface; 0 where it isn't known, and then errno is ENODEV where there is none of that name. */
static unsigned index_of(const char *name)
{
    struct ifreq about = {0};
    return ask(SIOCGIFINDEX, name, &about) ? (unsigned)about.ifr_ifindex : 0;
}

card_state interface_state(const char *name, unsigned *index, uint8_t card[6])
{
    struct ifreq about = {0}, flags = {0};
    *index = index_of(name);
    if (*index == 0 || !ask(SIOCGIFHWADDR, name, &about) || !ask(SIOCGIFFLAGS, name, &flags)) {
        *index = 0;
        return errno == ENODEV ? CARD_ABSENT : CARD_UNKNOWN;
    }
    if (about.ifr_hwaddr.sa_family != ARPHRD_ETHER)
        return CARD_OTHER;
    memcpy(card, about.ifr_hwaddr.sa_data, 6);
    if (!(flags.ifr_flags & IFF_UP))
        return CARD_OFF;
    return flags.ifr_flags & IFF_RUNNING ? CARD_UP : CARD_UNPLUGGED;
}

/* Switches an interface on. Who may not is told nothing: somebody else may do it later. */
static void switch_on(const char *name)
{
    struct ifreq about = {0};
    if (ask(SIOCGIFFLAGS, name, &about) && !(about.ifr_flags & IFF_UP)) {
        about.ifr_flags |= IFF_UP;
        (void)ask(SIOCSIFFLAGS, name, &about);
    }
}

int tap_open(const char *name, unsigned *index)
{
    struct ifreq about = {0};
    int fd = open("/dev/net/tun", O_RDWR | O_NONBLOCK | O_CLOEXEC);
    if (fd < 0)
        return -1;
    about.ifr_flags = IFF_TAP | IFF_NO_PI;
    strncpy(about.ifr_name, name, sizeof about.ifr_name - 1);
    /* (by its number one sees later that it is this one still) */
    if (ioctl(fd, TUNSETIFF, &about) < 0 || (*index = index_of(name)) == 0) {
        int why = errno;
        close_any(&fd);
        errno = why;
        return -1;
    }
    switch_on(name);
    return fd;
}

ssize_t tap_receive(int fd, uint8_t *frame, size_t room)
{
    return read(fd, frame, room);
}

bool tap_send(int fd, const uint8_t *frame, size_t length)
{
    return write(fd, frame, length) == (ssize_t)length;
}

/* What a socket lets pass, as the system's own filter, so that a busy card's other traffic wakes nobody. No frame with the tag of another
 * VLAN; those of IPX' type, or with a length and the first bytes of one of the three other kinds, where they are of a kind that is heard and
 * came from the cable. Of other kinds, and of what this machine sends, a packet to the gateway's own socket for loops. The library looks at
 * what follows. (X is where the packet begins) */
enum { TYPE_OF_IPX = 0x8137, LEAST_TYPE = 0x600, AT_TYPE_OR_LENGTH = 12, BEHIND_LENGTH = 14, BEHIND_LLC = 17, AT_TYPE_OF_SNAP = 20,
       BEHIND_SNAP = 22, VLAN = 0xFFF };
enum { RAW = 0xFFFF, LLC = 0xE0E0, SNAP = 0xAAAA };
static const struct sock_filter OF_IPX[] = {
    BPF_STMT(BPF_LD | BPF_W | BPF_ABS, (uint32_t)(SKF_AD_OFF + SKF_AD_VLAN_TAG_PRESENT)),
    BPF_JUMP(BPF_JMP | BPF_JEQ | BPF_K, 0, 3, 0),
    BPF_STMT(BPF_LD | BPF_W | BPF_ABS, (uint32_t)(SKF_AD_OFF + SKF_AD_VLAN_TAG)),
    BPF_STMT(BPF_ALU | BPF_AND | BPF_K, VLAN),
    BPF_JUMP(BPF_JMP | BPF_JEQ | BPF_K, 0, 0, 21), /* (number 0 is no VLAN: such a tag says how urgent a frame is) */
    BPF_STMT(BPF_LD | BPF_H | BPF_ABS, AT_TYPE_OR_LENGTH),
    BPF_JUMP(BPF_JMP | BPF_JEQ | BPF_K, TYPE_OF_IPX, 7, 0),
    BPF_JUMP(BPF_JMP | BPF_JGE | BPF_K, LEAST_TYPE, 18, 0),
    BPF_STMT(BPF_LD | BPF_H | BPF_ABS, BEHIND_LENGTH),
    BPF_JUMP(BPF_JMP | BPF_JEQ | BPF_K, RAW, 6, 0),
    BPF_JUMP(BPF_JMP | BPF_JEQ | BPF_K, LLC, 7, 0),
    BPF_JUMP(BPF_JMP | BPF_JEQ | BPF_K, SNAP, 0, 14),
    BPF_STMT(BPF_LD | BPF_H | BPF_ABS, AT_TYPE_OF_SNAP),
    BPF_JUMP(BPF_JMP | BPF_JEQ | BPF_K, TYPE_OF_IPX, 6, 12),
    BPF_STMT(BPF_LDX | BPF_IMM, BEHIND_LENGTH), /* Ethernet II */
    BPF_JUMP(BPF_JMP | BPF_JA, 6, 0, 0),
    BPF_STMT(BPF_LDX | BPF_IMM, BEHIND_LENGTH), /* raw */
    BPF_JUMP(BPF_JMP | BPF_JA, 4, 0, 0),
    BPF_STMT(BPF_LDX | BPF_IMM, BEHIND_LLC),
    BPF_JUMP(BPF_JMP | BPF_JA, 2, 0, 0),
    BPF_STMT(BPF_LDX | BPF_IMM, BEHIND_SNAP),
    BPF_JUMP(BPF_JMP | BPF_JA, 0, 0, 0),
    BPF_STMT(BPF_LD | BPF_W | BPF_ABS, (uint32_t)(SKF_AD_OFF + SKF_AD_PKTTYPE)),
    BPF_JUMP(BPF_JMP | BPF_JEQ | BPF_K, PACKET_OUTGOING, 0, 3),
    BPF_STMT(BPF_LD | BPF_H | BPF_IND, AT_TO_SOCKET),
    BPF_JUMP(BPF_JMP | BPF_JEQ | BPF_K, LOOP_SOCKET, 1, 0),
    BPF_STMT(BPF_RET | BPF_K, 0),
    BPF_STMT(BPF_RET | BPF_K, UINT32_MAX),
};
enum { FILTER_LENGTH = sizeof OF_IPX / sizeof *OF_IPX, FOR_LOOPS = FILTER_LENGTH - 4 };

/* The row that leads on what is of a kind. */
static const uint8_t ROW_OF[] = {[IPXR_FRAME_ETHERNET2] = 15, [IPXR_FRAME_RAW] = 17, [IPXR_FRAME_LLC] = 19, [IPXR_FRAME_SNAP] = 21};

/* (one more kind of frames needs its row) */
typedef char has_row_for_each_kind[sizeof ROW_OF == IPXR_FRAME_KINDS + 1 ? 1 : -1];

bool interface_hears_kinds(int fd, unsigned kinds)
{
    struct sock_filter own[FILTER_LENGTH];
    struct sock_fprog filter = {.len = FILTER_LENGTH, .filter = own};
    memcpy(own, OF_IPX, sizeof own);
    for (uint8_t kind = IPXR_NO_FRAME + 1; kind <= IPXR_FRAME_KINDS; kind++)
        if ((kinds & 1u << kind) == 0)
            own[ROW_OF[kind]].k = FOR_LOOPS - ROW_OF[kind] - 1u;
    return setsockopt(fd, SOL_SOCKET, SO_ATTACH_FILTER, &filter, sizeof filter) == 0;
}

/* (by all protocols: one that hears a single one can't say that somebody speaks another kind) */
bool interface_again(int fd, unsigned index)
{
    struct sockaddr_ll at = {0};
    at.sll_family = AF_PACKET;
    at.sll_protocol = htons(ETH_P_ALL);
    at.sll_ifindex = (int)index;
    return bind(fd, (const struct sockaddr *)&at, sizeof at) == 0;
}

/* (the system lets go of one that is taken away. Where it can't say it, all is as it was) */
bool interface_is_heard(int fd, unsigned index)
{
    struct sockaddr_ll at = {0};
    socklen_t size = sizeof at;
    return getsockname(fd, (struct sockaddr *)&at, &size) != 0 || at.sll_ifindex == (int)index;
}

bool interface_hears_all(int fd, unsigned index)
{
    struct packet_mreq all = {.mr_ifindex = (int)index, .mr_type = PACKET_MR_PROMISC};
    return setsockopt(fd, SOL_PACKET, PACKET_ADD_MEMBERSHIP, &all, sizeof all) == 0;
}

/* Asks for room for what waits while the gateway sends to many or stands still, as much as it has the right to. (less is enough) */
static void keep(int fd)
{
    int size = KEPT;
    (void)(setsockopt(fd, SOL_SOCKET, SO_RCVBUFFORCE, &size, sizeof size) == 0 ||
           setsockopt(fd, SOL_SOCKET, SO_RCVBUF, &size, sizeof size) == 0);
}

int interface_open(const char *name, unsigned kinds, unsigned *index, uint8_t card[6])
{
    struct ifreq about = {0};
    if (!ask(SIOCGIFHWADDR, name, &about))
        return -1;
    if (about.ifr_hwaddr.sa_family != ARPHRD_ETHER) {
        errno = EPROTOTYPE;
        return -1;
    }
    memcpy(card, about.ifr_hwaddr.sa_data, 6);
    *index = index_of(name);
    /* (without a protocol it hears nothing before it is bound) */
    int fd = *index == 0 ? -1 : socket(AF_PACKET, SOCK_RAW | SOCK_NONBLOCK | SOCK_CLOEXEC, 0);
    if (fd >= 0 && (!interface_hears_kinds(fd, kinds) || !interface_again(fd, *index))) {
        int why = errno;
        close_any(&fd);
        errno = why;
    }
    if (fd >= 0)
        keep(fd);
    return fd;
}

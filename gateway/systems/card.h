/* Ethernet of this machine: interfaces, and TAPs, which are interfaces whose other end is a program. Where the system has neither, a
 * configuration that names one is wrong, and the calls below have nothing to do. */
#ifndef CARD_H
#define CARD_H

#include <stdbool.h>
#include <stddef.h>
#include <stdint.h>
#include <sys/types.h>

/* Which of them this system has, and whether it has switches of VDE: one of IPXR_CARDS_.. */
uint8_t has_cards(void);

/* A TAP by its name, made where there is none and it may be made; tells its number. Returns it, or -1. */
int tap_open(const char *name, unsigned *index);

/* The next frame of a TAP, of which what is beyond the room is lost, or -1; and whether one is on its way. */
ssize_t tap_receive(int fd, uint8_t *frame, size_t room);
bool tap_send(int fd, const uint8_t *frame, size_t length);

/* A socket that hears the frames of some kinds on an interface, of each the bit 1 << kind, and is used as one of datagrams; tells the
 * interface's number and its own address. Returns it, or -1: errno is EPROTOTYPE where the interface isn't one of Ethernet. */
int interface_open(const char *name, unsigned kinds, unsigned *index, uint8_t card[6]);

/* Lets a socket of an interface hear other kinds from now on. Returns whether it does. */
bool interface_hears_kinds(int fd, unsigned kinds);

/* Lets a socket of an interface hear the frames for other nodes too. Returns whether it does. */
bool interface_hears_all(int fd, unsigned index);

/* Lets a socket hear the interface that has the name now. */
bool interface_again(int fd, unsigned index);

/* Whether a socket hears the interface of that number: not one that was taken away, also where it is there again by the same number. */
bool interface_is_heard(int fd, unsigned index);

typedef enum {
    CARD_UNKNOWN,   /* the system can't say it now */
    CARD_ABSENT,
    CARD_OTHER,     /* it isn't Ethernet */
    CARD_OFF,       /* it is switched off */
    CARD_UNPLUGGED, /* it has no carrier */
    CARD_UP,
} card_state;

/* How the interface is that has a name now. Tells its number, or 0 where there is none or it isn't known; and its own address, where it is
 * there and Ethernet. */
card_state interface_state(const char *name, unsigned *index, uint8_t card[6]);

enum {
    CARD_NAME_ROOM = 260,   /* bytes of a card's name as the system shows it, with the 0 behind */
    CARD_WORD_ROOM = 16,    /* and of what a configuration may write for it */
    MOST_CARDS_LISTED = 256,
};

/* A card of Ethernet, as it is listed. */
typedef struct card_listed {
    char name[CARD_NAME_ROOM];
    char other[CARD_WORD_ROOM]; /* what names it too in a configuration, where its name can't stand there; or empty */
    card_state state;
    uint8_t card[6];
} card_listed;

/* The cards that are there, as many as there is room for. Returns how many. */
size_t cards_list(card_listed *list, size_t room);

/* What the system lacks, in words, so that no interface can be opened; or NULL. */
const char *cards_lack(void);

#endif

/* Cards of Windows, by Npcap: each has an ear, which hears it, and a socket on which that sends what comes. There are no TAPs: no
 * configuration gets this far with one. */
#include "systems/card.h"

#include <errno.h>
#include <stdio.h>
#include <string.h>

#include "configuration/settings.h"
#include "systems/clock.h"
#include "systems/sockets.h"
#include "systems/windows/adapters.h"
#include "systems/windows/bell.h"
#include "systems/windows/cards.h"
#include "systems/windows/ear.h"
#include "systems/windows/npcap.h"

enum {
    BETWEEN = 900,      /* milliseconds from one try to open a card to the next: with the next second it may be tried again, */
    RESTS = 10,         /* and so many times as long as the try took, for which nobody was heard */
    KEPT = 1 << 20,     /* bytes that the system keeps of what has come, while the gateway sends to many */
    SHORTEST_FRAME = 60 /* bytes: what is shorter has zeros behind it on the cable too */
};

/* One that is open. */
typedef struct open_card {
    int fd;          /* the socket, or -1 where this is none */
    unsigned index;  /* of the card that it hears */
    bool hears_all;
    unsigned kinds;
    uint64_t opened; /* milliseconds of the clock when that was tried last, */
    uint64_t took;   /* and those that it took */
    bool was_deaf;   /* it couldn't be read when one looked last, and hasn't been since; */
    int fault;       /* and why, or why it couldn't be opened; or 0 */
    ear *ear;        /* or NULL while it isn't open */
    char device[DEVICE_ROOM];
} open_card;

static struct {
    open_card list[MOST_LINKS];
    size_t count;
} cards;

uint8_t has_cards(void)
{
    return IPXR_CARDS_INTERFACES;
}

const char *cards_lack(void)
{
    const char *lacks;
    (void)npcap(&lacks);
    return lacks;
}

static open_card *card_of(int fd)
{
    for (size_t k = 0; k < cards.count; k++)
        if (cards.list[k].fd == fd)
            return &cards.list[k];
    return NULL;
}

/* ---- TAPs ---- */

int tap_open(const char *name, unsigned *index)
{
    (void)name;
    (void)index;
    errno = ENOSYS;
    return -1;
}

ssize_t tap_receive(int fd, uint8_t *frame, size_t room)
{
    (void)fd;
    (void)frame;
    (void)room;
    errno = ENOSYS;
    return -1;
}

bool tap_send(int fd, const uint8_t *frame, size_t length)
{
    (void)fd;
    (void)frame;
    (void)length;
    errno = ENOSYS;
    return false;
}

/* ---- Interfaces ---- */

card_state interface_state(const char *name, unsigned *index, uint8_t card[6])
{
    adapter it;
    adapter_found found = adapter_named(name, &it);
    bool is_there = found == ADAPTER_FOUND && it.state != CARD_ABSENT;
    *index = is_there ? it.index : 0;
    if (is_there && it.state != CARD_OTHER)
        memcpy(card, it.card, sizeof it.card);
    return found == ADAPTER_UNKNOWN ? CARD_UNKNOWN : found == ADAPTER_ABSENT ? CARD_ABSENT : it.state;
}

size_t cards_list(card_listed *list, size_t room)
{
    static adapter found[MOST_CARDS_LISTED];
    size_t count = adapters_all(found, room < MOST_CARDS_LISTED ? room : MOST_CARDS_LISTED);
    for (size_t k = 0; k < count; k++) {
        list[k].state = found[k].state;
        snprintf(list[k].other, sizeof list[k].other, "if%u", found[k].index);
        memcpy(list[k].card, found[k].card, sizeof list[k].card);
        memcpy(list[k].name, found[k].name, sizeof list[k].name);
    }
    return count;
}

/* Opens the card's ear anew. */
static bool hears(open_card *it)
{
    if (it->ear != NULL)
        ear_close(it->ear);
    it->opened = clock_now();
    it->ear = ear_open(it->device, it->hears_all, it->kinds, it->fd);
    if (it->ear == NULL)
        it->fault = errno;
    it->took = clock_now() - it->opened;
    return it->ear != NULL;
}

/* The socket of one more card, or -1. */
static int socket_of_card(void)
{
    int size = KEPT;
    SOCKET made = socket_to_itself();
    if (made == INVALID_SOCKET) {
        keep_fault();
        return -1;
    }
    /* (less is enough: then more is lost when many send at once) */
    (void)setsockopt(made, SOL_SOCKET, SO_RCVBUF, (const char *)&size, sizeof size);
    return (int)made;
}

/* Whether a card can be a link; else errno has the reason. */
static bool is_there(const char *name, adapter *found)
{
    adapter_found how = adapter_named(name, found);
    errno = how == ADAPTER_UNKNOWN ? ENOMEM : how == ADAPTER_ABSENT || found->state == CARD_ABSENT ? ENODEV : EPROTOTYPE;
    return how == ADAPTER_FOUND && found->state != CARD_ABSENT && found->state != CARD_OTHER;
}

int interface_open(const char *name, unsigned kinds, unsigned *index, uint8_t card[6])
{
    adapter found;
    if (!is_there(name, &found))
        return -1;
    int fd = cards.count < MOST_LINKS ? socket_of_card() : -1;
    if (fd < 0)
        return -1;
    open_card *it = &cards.list[cards.count++];
    *it = (open_card){.fd = fd, .index = found.index, .kinds = kinds};
    memcpy(it->device, found.device, sizeof it->device);
    *index = found.index;
    memcpy(card, found.card, sizeof found.card);
    if (hears(it))
        return fd;
    int why = it->fault;
    close_any(&fd);
    errno = why;
    return -1;
}

bool interface_hears_kinds(int fd, unsigned kinds)
{
    open_card *it = card_of(fd);
    if (it == NULL)
        return false;
    it->kinds = kinds;
    if (it->ear != NULL)
        ear_hears(it->ear, kinds);
    return true;
}

/* (Npcap takes that only as it opens a card) */
bool interface_hears_all(int fd, unsigned index)
{
    open_card *it = card_of(fd);
    if (it == NULL || it->index != index)
        return false;
    if (it->hears_all)
        return true;
    it->hears_all = true;
    return hears(it);
}

/* The card that has a number now. */
static bool finds(open_card *it, unsigned index)
{
    adapter found;
    if (!adapter_numbered(index, &found)) {
        errno = ENODEV;
        return false;
    }
    it->index = index;
    it->was_deaf = false;
    memcpy(it->device, found.device, sizeof it->device);
    return true;
}

/* How a card's ear is; a fault of reading is kept until it has read again. */
static ear_state ear_of(open_card *it)
{
    int fault;
    ear_state state = ear_is(it->ear, &fault);
    if (state == EAR_NEW)
        return state;
    it->was_deaf = state == EAR_IS_DEAF;
    it->fault = it->was_deaf ? fault : 0;
    return state;
}

/* Whether a card is heard: one that could be opened and not read is only once it has been read. */
static bool is_heard(open_card *it)
{
    ear_state state = it->ear != NULL ? ear_of(it) : EAR_IS_DEAF;
    return state == EAR_HEARS || (state == EAR_NEW && !it->was_deaf);
}

/* (once a second, or more rarely where it takes long: one that can be opened and not read would be opened again and again. One that nothing has
 * been read of isn't opened once more) */
static bool may_open(open_card *it)
{
    bool is_new = it->ear != NULL && ear_of(it) == EAR_NEW;
    uint64_t rest = it->took * RESTS;
    return !is_new && clock_now() - it->opened >= (rest > BETWEEN ? rest : BETWEEN);
}

bool interface_again(int fd, unsigned index)
{
    open_card *it = card_of(fd);
    bool is_other = it != NULL && it->index != index;
    if (it == NULL || (is_other && !finds(it, index)))
        return false;
    if (is_other || (!is_heard(it) && may_open(it)))
        (void)hears(it);
    errno = it->fault;
    return is_heard(it);
}

bool interface_is_heard(int fd, unsigned index)
{
    open_card *it = card_of(fd);
    return it != NULL && it->index == index && is_heard(it);
}

/* ---- Its socket ---- */

bool is_card(int fd)
{
    return cards.count > 0 && card_of(fd) != NULL;
}

void card_closed(int fd)
{
    open_card *it = card_of(fd);
    if (it == NULL)
        return;
    if (it->ear != NULL)
        ear_close(it->ear);
    *it = cards.list[--cards.count];
}

/* Tells all that hear a card of a frame that is sent there, or that it wasn't sent after all. */
static void tell_ears(unsigned index, void (*tell)(ear *, const uint8_t *, size_t), const uint8_t *frame, size_t length)
{
    for (size_t k = 0; k < cards.count; k++)
        if (cards.list[k].index == index && cards.list[k].ear != NULL)
            tell(cards.list[k].ear, frame, length);
}

bool card_send(int fd, const uint8_t *frame, size_t length)
{
    uint8_t padded[SHORTEST_FRAME] = {0};
    const open_card *it = card_of(fd);
    if (it == NULL || it->ear == NULL) {
        errno = ENETDOWN;
        return false;
    }
    if (length < sizeof padded) {
        memcpy(padded, frame, length);
        frame = padded;
        length = sizeof padded;
    }
    tell_ears(it->index, ear_expects, frame, length);
    if (ear_send(it->ear, frame, length))
        return true;
    int why = errno;
    tell_ears(it->index, ear_forgets, frame, length);
    errno = why;
    return false;
}

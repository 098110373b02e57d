/* card.h of a made-up system. */
#include "cards.h"

#include <errno.h>
#include <string.h>

#include "chance.h"
#include "descriptors.h"
#include "ipxr_settings.h"
#include "outside.h"
#include "play.h"
#include "weather.h"

static const int OF_OPENING[] = {EMFILE, ENFILE, ENOMEM, ENOBUFS, EPERM, ENODEV, EBUSY, 0};
static const int OF_BINDING[] = {ENODEV, ENETDOWN, ENOMEM, EINVAL, 0};
static const int OF_READING[] = {EAGAIN, EINTR, EIO, ENOMEM, EBADFD, 0};
static const int OF_WRITING[] = {EAGAIN, EIO, ENOBUFS, ENOMEM, EINTR, EINVAL, 0};
static const int OF_ASKING[] = {EMFILE, ENFILE, ENOMEM, 0};

static made_card cards[MOST_CARDS] = {
    {.name = "eth0", .state = CARD_ABSENT, .is_ethernet = true}, {.name = "eth1", .state = CARD_ABSENT, .is_ethernet = true},
    {.name = "eth2", .state = CARD_ABSENT, .is_ethernet = true}, {.name = "lo", .state = CARD_ABSENT},
    {.name = "tap0", .state = CARD_ABSENT, .is_ethernet = true}, {.name = "tap1", .state = CARD_ABSENT, .is_ethernet = true},
};
static unsigned last_index;

made_card *card_named(const char *name)
{
    for (size_t k = 0; k < MOST_CARDS; k++)
        if (strcmp(cards[k].name, name) == 0)
            return &cards[k];
    return NULL;
}

made_card *any_card(void)
{
    return &cards[below(MOST_CARDS)];
}

/* Comes, with another number, and often with another address. */
static void come(made_card *it)
{
    it->state = CARD_UP;
    it->index = ++last_index;
    if (it->address[0] == 0 || one_in(3)) {
        chance_bytes(it->address, sizeof it->address);
        it->address[0] = 0x02;
    }
}

void cards_begin(void)
{
    for (size_t k = 0; k < MOST_CARDS; k++)
        if (!one_in(4))
            come(&cards[k]);
}

void card_changes(made_card *it)
{
    static const card_state STATES[] = {CARD_ABSENT, CARD_OFF, CARD_UNPLUGGED, CARD_UP};
    if (it->state == CARD_ABSENT)
        come(it);
    else
        it->state = STATES[below(4)];
    if (it->state != CARD_ABSENT && one_in(5))
        it->address[5] = (uint8_t)below(256);
    if (it->state != CARD_ABSENT && one_in(6))
        it->index = ++last_index;
    told("card %s: state %d index %u address ..%02X", it->name, it->state, it->index, it->address[5]);
}

bool outside_has_card(const char *name, unsigned index)
{
    const made_card *it = card_named(name);
    return it != NULL && it->state != CARD_ABSENT && it->index == index;
}

uint8_t has_cards(void)
{
    return IPXR_CARDS_ALL;
}

/* ---- TAPs ---- */

/* Whether somebody has a TAP open. */
static bool is_open(const made_card *it)
{
    for (int fd = FIRST_DESCRIPTOR; fd < MOST_DESCRIPTORS; fd++) {
        const descriptor *other = descriptor_if_open(fd);
        if (other != NULL && other->is == TAP && strcmp(other->name, it->name) == 0 && other->index == it->index)
            return true;
    }
    return false;
}

/* Names a descriptor after a card. */
static void be_of(int fd, what is, const made_card *it, unsigned kinds)
{
    descriptor *made = descriptor_at(fd, is);
    strncpy(made->name, it->name, sizeof made->name - 1);
    made->index = it->index;
    made->kinds = kinds;
}

int tap_open(const char *name, unsigned *index)
{
    made_card *it = card_named(name);
    if (fails(OF_OPENING))
        return -1;
    errno = it == NULL ? EPERM : EBUSY;
    if (it == NULL || is_open(it))
        return -1;
    int fd = descriptor_open(TAP);
    if (fd < 0)
        return -1;
    if (it->state == CARD_ABSENT)
        come(it);
    be_of(fd, TAP, it, 0);
    *index = it->index;
    return fd;
}

ssize_t tap_receive(int fd, uint8_t *frame, size_t room)
{
    descriptor *it = descriptor_at(fd, TAP);
    if (fails(OF_READING))
        return -1;
    message *next = next_message(it);
    errno = EAGAIN;
    if (next == NULL)
        return -1;
    size_t length = next->length < room ? next->length : room;
    memcpy(frame, next->bytes, length);
    give_back(next);
    return (ssize_t)length;
}

bool tap_send(int fd, const uint8_t *frame, size_t length)
{
    descriptor *it = descriptor_at(fd, TAP);
    if (fails(OF_WRITING))
        return false;
    outside_hears_frame(fd, it, frame, length);
    return true;
}

/* ---- Interfaces ---- */

int interface_open(const char *name, unsigned kinds, unsigned *index, uint8_t card[6])
{
    const made_card *it = card_named(name);
    if (fails(OF_OPENING))
        return -1;
    errno = it == NULL || it->state == CARD_ABSENT ? ENODEV : EPROTOTYPE;
    if (it == NULL || it->state == CARD_ABSENT || !it->is_ethernet)
        return -1;
    int fd = descriptor_open(CARD);
    if (fd < 0)
        return -1;
    be_of(fd, CARD, it, kinds);
    *index = it->index;
    memcpy(card, it->address, sizeof it->address);
    return fd;
}

bool interface_hears_all(int fd, unsigned index)
{
    const descriptor *it = descriptor_at(fd, CARD);
    errno = ENODEV;
    return !fails(OF_BINDING) && it->index == index;
}

bool interface_hears_kinds(int fd, unsigned kinds)
{
    descriptor *it = descriptor_at(fd, CARD);
    if (fails(OF_BINDING))
        return false;
    it->kinds = kinds;
    return true;
}

bool interface_again(int fd, unsigned index)
{
    descriptor *it = descriptor_at(fd, CARD);
    errno = ENODEV;
    if (fails(OF_BINDING) || !outside_has_card(it->name, index))
        return false;
    it->index = index;
    return true;
}

bool interface_is_heard(int fd, unsigned index)
{
    return descriptor_at(fd, CARD)->index == index;
}

card_state interface_state(const char *name, unsigned *index, uint8_t card[6])
{
    const made_card *it = card_named(name);
    *index = 0;
    errno = ENODEV;
    if (fails(OF_ASKING))
        return errno == ENODEV ? CARD_ABSENT : CARD_UNKNOWN;
    if (it == NULL || it->state == CARD_ABSENT)
        return CARD_ABSENT;
    *index = it->index;
    if (!it->is_ethernet)
        return CARD_OTHER;
    memcpy(card, it->address, sizeof it->address);
    return it->state;
}

/* (the gateway that is played lists none) */
size_t cards_list(card_listed *list, size_t room)
{
    (void)list;
    (void)room;
    return 0;
}

const char *cards_lack(void)
{
    return NULL;
}

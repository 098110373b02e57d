/* POSIX has neither TAPs nor packet sockets: no configuration gets this far with one. */
#include "systems/card.h"

#include <errno.h>

#include "ipxr_settings.h"

uint8_t has_cards(void)
{
    return IPXR_CARDS_NONE;
}

static int refused(void)
{
    errno = ENOSYS;
    return -1;
}

int tap_open(const char *name, unsigned *index)
{
    (void)name;
    (void)index;
    return refused();
}

ssize_t tap_receive(int fd, uint8_t *frame, size_t room)
{
    (void)fd;
    (void)frame;
    (void)room;
    return refused();
}

bool tap_send(int fd, const uint8_t *frame, size_t length)
{
    (void)fd;
    (void)frame;
    (void)length;
    return refused() == 0;
}

int interface_open(const char *name, unsigned kinds, unsigned *index, uint8_t card[6])
{
    (void)name;
    (void)kinds;
    (void)index;
    (void)card;
    return refused();
}

bool interface_hears_kinds(int fd, unsigned kinds)
{
    (void)fd;
    (void)kinds;
    return refused() == 0;
}

bool interface_hears_all(int fd, unsigned index)
{
    (void)fd;
    (void)index;
    return refused() == 0;
}

bool interface_again(int fd, unsigned index)
{
    (void)fd;
    (void)index;
    return refused() == 0;
}

bool interface_is_heard(int fd, unsigned index)
{
    (void)fd;
    (void)index;
    return refused() == 0;
}

card_state interface_state(const char *name, unsigned *index, uint8_t card[6])
{
    (void)name;
    (void)card;
    *index = 0;
    return CARD_ABSENT;
}

size_t cards_list(card_listed *list, size_t room)
{
    (void)list;
    (void)room;
    return 0;
}

const char *cards_lack(void)
{
    return "the gateway has no interfaces on this system";
}

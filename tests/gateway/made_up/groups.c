/* multicast.h of a made-up system. Cards have the addresses of this machine and 10.0.0.99, which comes and goes. */
#include "systems/multicast.h"

#include <errno.h>

#include "chance.h"
#include "descriptors.h"
#include "groups.h"
#include "outside.h"
#include "peace.h"
#include "play.h"
#include "systems/sockets.h"
#include "weather.h"

static const int OF_JOINING[] = {EMFILE, ENFILE, ENOBUFS, ENOMEM, EADDRINUSE, ENODEV, EACCES, 0};
static const int OF_SPEAKING[] = {EMFILE, ENFILE, ENOBUFS, ENOMEM, EADDRNOTAVAIL, ENETUNREACH, 0};
static const int OF_ASKING[] = {EMFILE, ENOMEM, 0};

enum { FIRST_PORT = 33000, PORTS = 64 };

static card_state state = CARD_UP;
static unsigned number = 1;

void group_card_changes(void)
{
    static const card_state STATES[] = {CARD_OFF, CARD_UNPLUGGED, CARD_UP, CARD_UP};
    state = STATES[below(4)];
    number += one_in(3);
    told("the card of groups: state %d, number %u", state, number);
}

card_state multicast_card(const address *card, unsigned *index)
{
    *index = 0;
    if (fails(OF_ASKING))
        return CARD_UNKNOWN;
    if (!outside_has_address(card))
        return CARD_ABSENT;
    *index = number;
    return is_peace() ? CARD_UP : state;
}

int multicast_join(const address *group, const address *card)
{
    if (fails(OF_JOINING) || !outside_has_address(card))
        return -1;
    int fd = descriptor_open(GROUP);
    if (fd >= 0) {
        descriptor_at(fd, GROUP)->remote = *group;
        descriptor_at(fd, GROUP)->local = *card;
    }
    return fd;
}

int multicast_speak(const address *group, const address *card, address *own)
{
    if (fails(OF_SPEAKING) || !outside_has_address(card))
        return -1;
    int fd = descriptor_open(SPEAKER);
    if (fd < 0)
        return -1;
    *own = *card;
    own->port = (uint16_t)(FIRST_PORT + fd % PORTS);
    descriptor *it = descriptor_at(fd, SPEAKER);
    it->remote = *group;
    it->local = *own;
    return fd;
}

bool multicast_receive(int fd, const address *group, arrivals *in)
{
    if (fd >= 0 && !same_address(&descriptor_at(fd, GROUP)->remote, group))
        wrong("descriptor %d hears another group than is asked for", fd);
    return datagrams_receive(fd, in);
}

/* Whether a socket hears what another one says. */
static bool hears(const descriptor *it, const descriptor *speaker)
{
    return it != NULL && it->is == GROUP && same_address(&it->remote, &speaker->remote) && it->local.host[0] == speaker->local.host[0];
}

int group_of(const descriptor *speaker)
{
    int fd = FIRST_DESCRIPTOR;
    while (fd < MOST_DESCRIPTORS && !hears(descriptor_if_open(fd), speaker))
        fd++;
    return fd < MOST_DESCRIPTORS ? fd : -1;
}

void comes_to_group(const descriptor *speaker, const uint8_t *frame, size_t length)
{
    for (int fd = FIRST_DESCRIPTOR; fd < MOST_DESCRIPTORS; fd++)
        if (hears(descriptor_if_open(fd), speaker))
            comes(descriptor_if_open(fd), &speaker->local, frame, length);
}

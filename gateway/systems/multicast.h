/* Groups of UDP, by multicast: what one member sends comes to all of them, on the card of this machine that has an address. By 127.0.0.1
 * that is this machine alone. A group is heard by a socket of its own, and spoken to by another, by whose address one knows one's own words
 * when they come back. */
#ifndef MULTICAST_H
#define MULTICAST_H

#include "systems/card.h"
#include "systems/datagram.h"

/* A socket that hears a group on the card with an address: what others of this machine say there too, and nothing that comes by another
 * card, or for another group. Returns it, or -1: errno is ENODEV or EADDRNOTAVAIL where no card has the address. */
int multicast_join(const address *group, const address *card);

/* A socket that speaks to a group by that card, no farther than its cable; tells its address, whose port isn't the group's. Returns it,
 * or -1. */
int multicast_speak(const address *group, const address *card, address *own);

/* The next datagrams that were sent to the group. Returns false where there is none; there may be none of the group where it returns true. */
bool multicast_receive(int fd, const address *group, arrivals *in);

/* How the card is that has an address now. Tells its number, or 0 where there is none or it isn't known. */
card_state multicast_card(const address *card, unsigned *index);

#endif

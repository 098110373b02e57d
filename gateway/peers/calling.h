/* Those whom a place calls: an address, or a name, each. Whoever isn't there is called each second; whoever is, and to whom nothing is said for a
 * while, hears that this place is there still, which keeps the way through a NAT open; and whoever says nothing for a while is called again. */
#ifndef CALLING_H
#define CALLING_H

#include "peers/peers.h"

/* Whom a configuration names; those who stay are known still. */
void calling_follow(peers *it, const network_setting *set);
void calling_end(peers *it);

/* A second has passed. */
void calling_second(peers *it, int fd);

/* A place was heard from an address: whoever is named there is that place. */
void calling_hears(peers *it, size_t number, const address *from);

/* No place is known any more. */
void calling_forgets(peers *it);

enum { PEER_ROOM = HOST_ROOM + 6 /* bytes of one in words, with the 0 behind */ };

/* One as a line names it. */
const char *peer_words(const called *it, char words[PEER_ROOM]);

/* Whether the one of a number is there. */
bool calling_reaches(const peers *it, size_t number);

#endif

/* Other places of links by peers: what they say, right and wrong, and what they hear. */
#ifndef PLACES_H
#define PLACES_H

#include "gateway.h"

/* The name of the file with the key that they have, and its text. */
extern const char PLACES_KEY[], PLACES_KEY_TEXT[];

/* Some of them say something; and what they say where nothing else happens: one comes to each link, and stays. */
void places_act(void);
void places_stay(gateway *it);

/* A datagram of the gateway's is sealed by their key, and has a number that none had before. */
void places_hear(int fd, const network *on, const departure *what);

/* After a turn nothing waits to go out. */
void places_are_well(gateway *it);

#endif

/* The links of the networks: whether they are up. A line tells each that goes down or comes up, and why. */
#ifndef LINKS_H
#define LINKS_H

#include "gateway.h"

/* Looks at a cable, or at all, and tells the router what has changed on their networks. */
void links_look(gateway *it, cable *carrier);
void links_look_at_all(gateway *it);

/* What a link lacks that is down, or NULL; and the system's number for it, or 0. */
const char *link_lacks(const network *on, int *fault);

/* What is before the words of a network where that is a link of several, "" else. */
const char *part_of(const network *on);

#endif

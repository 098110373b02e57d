/* What becomes of each packet: it has one fate. The functions through which all packets pass are watched; after each, what they counted is
 * compared with what they did. */
#ifndef FATES_H
#define FATES_H

#include "gateway.h"

/* A turn begins, and is over: each copy that was to go out went, or was counted as lost. */
void fates_begin(gateway *it);
void fates_are_well(gateway *it);

/* Packets that had a fate. */
unsigned long fates_seen(void);

#endif

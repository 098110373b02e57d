/* Peace: nothing happens for some minutes, and then the gateway must be as one that was just started. No client is left, and whoever comes
 * in then is let in and heard, whatever was before. */
#ifndef PEACE_H
#define PEACE_H

#include "gateway.h"

/* Peace begins, and is over, as where the gateway ends. */
void peace_begins(void);
void peace_is_over(void);

/* Whether it is peace; then a turn of it passes, and what holds at its end is looked at. */
bool peace_passes(gateway *it);

/* Whether it is peace; and whether somebody at a place answers a ping then: those alone who come in. */
bool is_peace(void);
bool peace_answers(const uint8_t place[6]);

/* What goes out in peace is noted: anything by a descriptor, a datagram to a place. */
void peace_hears(int fd, const uint8_t *bytes, size_t length);
void peace_hears_datagram(const uint8_t place[6], const uint8_t *bytes, size_t length);

#endif

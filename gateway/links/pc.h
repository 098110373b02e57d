/* The PC at the other end of a `qemu-tcp`: one at a time. */
#ifndef PC_H
#define PC_H

#include "links/cable.h"

/* Milliseconds from one look to the next at a machine that is held up. */
enum { PC_LOOKS = 50 };

/* Whether a PC is connected now. Those who come in are taken where there is none, else refused; one that is called is called again, once a
 * second. */
bool pc_is_up(cable *it);

/* Whether the next may come in: not while it isn't known yet whether one stays who came in before. */
bool pc_may_come(const cable *it);

/* Whether a machine has said a frame, and isn't the PC yet, since there was another less than a second ago. */
bool pc_is_held_up(const cable *it);

/* Takes it for gone. */
void pc_goes(cable *it);

#endif

/* By a narrow line what follows upon a registration, its second answer and its pings, waits until there is room. */
#ifndef WAITING_H
#define WAITING_H

#include "gateway.h"

/* What waits goes out as far as the line has room, if it is still for somebody. */
void waiting_send(network *on);

/* What waits in an old tunnel goes on waiting; by a narrower line not; and without one it goes out. */
void waiting_take(network *on, network *old);

#endif

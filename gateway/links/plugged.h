/* A link by a port of a switch of VDE: the switch is called until it gives one, and again once it has ended. */
#ifndef PLUGGED_H
#define PLUGGED_H

#include "links/cable.h"

/* Whether the link has a port of the switch. Where not, it is called, once a second. */
bool plugged_is_up(cable *it);

#endif

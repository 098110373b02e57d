/* Clients of whom it is known that they are gone, as by a connection that ended: they leave at once. */
#ifndef LEAVING_H
#define LEAVING_H

#include "gateway.h"

/* All clients leave of whom `is_there` says that they aren't. (without memory for that they leave as they don't answer any more) */
void tunnel_lets_leave(const gateway *it, network *on, bool is_there(const network *, const uint8_t place[6]));

#endif

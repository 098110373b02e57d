/* For games that broadcast to their own network alone: the broadcasts of some sockets are handed to the other networks that name the
 * socket too. It is no business of a router's; the library says which are, and makes the copies. */
#ifndef EXTEND_H
#define EXTEND_H

#include "gateway.h"

/* A broadcast came on a network. It goes on unchanged but for its destination network, where its source names the network on which it
 * came; so what was handed on once is never handed on again, here or by another gateway. */
void extend(gateway *it, network *on, const origin *by, const uint8_t *packet, size_t length);

#endif

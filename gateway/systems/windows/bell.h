/* A bell: a socket that hears itself alone. Orders come in a thread of their own, and ring it, so that whoever waits for sockets hears
 * them at once. Where it can't be hung, orders are heard with the next second. */
#ifndef BELL_H
#define BELL_H

#include <stdbool.h>

#include "systems/windows/net.h"

/* A socket that hears itself alone, and doesn't wait; or INVALID_SOCKET. */
SOCKET socket_to_itself(void);

void bell_hang(void);
void bell_ring(void);

/* What is waited for, or INVALID_SOCKET; and that it has been heard. */
SOCKET bell_socket(void);
void bell_hush(void);

#endif

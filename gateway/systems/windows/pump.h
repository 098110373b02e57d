/* A pump: what comes by a pipe of Windows goes to a socket, and back, so that the gateway waits for a pipe as for all others. */
#ifndef PUMP_H
#define PUMP_H

#include "systems/windows/net.h"

/* Begins to pump between a pipe, which was opened for overlapped calls, and a socket, which is returned; it waits. The pipe is closed once
 * the socket is, or its other end; then a place is given back by that semaphore, unless it is NULL. Returns INVALID_SOCKET where that can't
 * be; then the pipe is the caller's still, and Windows has the fault. */
SOCKET pump_begin(HANDLE pipe, HANDLE places);

/* Waits until nothing is pumped any more, so many milliseconds at most: a pipe's end, and what is on its way there, is lost with the program. */
void pumps_end(int milliseconds);

#endif

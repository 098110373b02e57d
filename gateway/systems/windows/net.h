/* Winsock, with room for as many sockets in a set as the gateway has. */
#ifndef NET_H
#define NET_H

/* (Windows 7: its clock that stands still while the machine sleeps) */
#undef _WIN32_WINNT
#define _WIN32_WINNT 0x0601

#include "systems/watch.h"

/* (one more for the bell; it is to be said before the header) */
#define FD_SETSIZE (MOST_WATCHED + 1)
#include <winsock2.h>
#include <ws2tcpip.h>

/* Puts the fault of Winsock's last call into errno. */
void keep_fault(void);

#endif

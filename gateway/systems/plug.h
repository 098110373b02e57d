/* A plug in a switch of VDE (Virtual Distributed Ethernet). Whoever wants a port calls the switch at its control socket, and stays connected
 * for as long as he has the port. Frames come and go by a second socket, one in each datagram, which has a file beside the switch's. */
#ifndef PLUG_H
#define PLUG_H

#include <stdbool.h>
#include <stddef.h>
#include <stdint.h>

#include "systems/datagram.h"

enum {
    PLUG_PATH = 108,   /* bytes of a socket's path, with the 0 behind */
    PLUG_ANSWER = 128, /* room for what a switch answers */
};

typedef struct plug {
    int call;                    /* the connection, or -1 */
    char path[PLUG_PATH];        /* by which the switch is called */
    bool is_wrong;               /* a switch wouldn't say what came */
    char file[PLUG_PATH];        /* of the socket for frames, or "", */
    uint64_t device, number;     /* by which that file is known again */
    char far[PLUG_PATH];         /* the switch's own socket, where it gave a port */
    uint8_t answer[PLUG_ANSWER]; /* what it answers, as far as it has come */
    size_t answered;
} plug;

typedef enum {
    PLUG_WAITS, /* the switch hasn't answered yet */
    PLUG_HAS_PORT,
    PLUG_REFUSED, /* it has closed the connection */
    PLUG_WRONG,   /* what it says isn't what a switch says; or its port can't be reached, and errno has the reason */
} plug_state;

/* Calls a switch by its path, that of its control socket or of the folder where that is `ctl`, and asks it for a port. Nobody is waited for.
 * Returns the socket for frames, or -1. */
int plug_call(plug *it, const char *path);

/* What became of the call; where the switch has given a port, whether it is there still. */
plug_state plug_looks(plug *it, int fd);

/* The next frames that the switch has sent. What anybody else sends there isn't heard. Returns false where there is none. */
bool plug_receive(plug *it, int fd, arrivals *in);

/* Gives the port back: both sockets are closed, and the file is gone. */
void plug_end(plug *it, int *fd);

#endif

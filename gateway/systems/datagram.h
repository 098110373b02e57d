/* Datagrams and frames as they come and go, several at a time. */
#ifndef DATAGRAM_H
#define DATAGRAM_H

#include <stdbool.h>
#include <stddef.h>
#include <stdint.h>

#include "systems/address.h"

/* Room for what comes in one piece. What is longer is told by its length. */
#define MOST_RECEIVED 2048

/* How many come, or go, by one call of the system. */
#define MOST_TOGETHER 32

/* What came, and for a datagram who sent it. The length may be more than the room: what is beyond is lost. A frame may be one that this
 * machine sends there, by another way than the socket. */
typedef struct arrival {
    address from;
    bool is_sent;
    size_t length;
    uint8_t bytes[MOST_RECEIVED];
} arrival;

/* What comes by one call, of so many at most. */
typedef struct arrivals {
    size_t most;
    size_t count;
    arrival list[MOST_TOGETHER];
} arrivals;

/* What goes to somebody. */
typedef struct departure {
    address to;
    size_t length;
    const uint8_t *bytes;
    bool may_be_gone; /* nothing has come from there for seconds */
} departure;

#endif

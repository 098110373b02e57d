/* Clients that haven't answered their last ping. Each is pinged again, at moments that nobody can tell beforehand, until it answers or
 * leaves: else somebody who knows when pings go out could fill a client's buffer just then, time after time, and put it out. */
#ifndef ASKED_H
#define ASKED_H

#include <stdbool.h>
#include <stdint.h>

#include "ipxr_cable.h"
#include "ipxr_tunnel.h"
#include "siphash.h"

/* What a client was asked. */
typedef struct asked {
    ipxr_own ping;      /* the last one, */
    ipxr_asked moment; /* and when it goes once more, unless it is answered */
} asked;

/* When the next of a network's clients is asked again. */
typedef struct asks {
    ipxr_asks moments;
} asks;

/* A client gets a ping, or gets the last once more. A moment for the next is chosen by a hash whose key nobody knows. */
void asked_ping(asked *it, asks *all, const uint8_t key[SIPHASH_KEY], const ipxr_own *ping);
void asked_again(asked *it, asks *all, const uint8_t key[SIPHASH_KEY]);

/* Whether a client is to be asked again now; if it is later, the network's next moment is no later than that. */
bool asked_is_due(const asked *it, asks *all);

/* Whether any of a network may be due; then the next moment is forgotten, until asked_is_due has seen all of them. */
bool asks_are_due(asks *it);

/* Milliseconds until then, at most so many. */
int asks_patience(const asks *it, int most);

#endif

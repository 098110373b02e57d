/* The handshake of a WebSocket (RFC 6455, chapter 4): what a server answers to a key. */
#ifndef HANDSHAKE_H
#define HANDSHAKE_H

#include <stdbool.h>

#include "web/request.h"

enum { ACCEPT_ROOM = 29 /* bytes of such an answer, with the 0 behind */ };

/* Answers a key. Returns false where it isn't one: sixteen bytes, in 24 letters of base64. */
bool handshake_accept(const piece *key, char accept[ACCEPT_ROOM]);

#endif

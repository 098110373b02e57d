/* A short answer to an HTTP request, of which the connection ends. */
#ifndef RESPONSE_H
#define RESPONSE_H

#include <stddef.h>

#include "web/request.h"

enum { RESPONSE_ROOM = 512 };

/* Writes an answer with a status and a sentence as its text, and where `fields` isn't NULL with more fields, each with its end. Returns its
 * bytes. */
size_t response_write(char room[RESPONSE_ROOM], int status, const char *fields, const char *sentence);

#endif

/* What stands behind --status-web, ADDRESS[,NAME]..: where browsers come in, and by which names they may ask. */
#ifndef WEB_ADDRESS_H
#define WEB_ADDRESS_H

#include <stdbool.h>

#include "systems/address.h"
#include "web/request.h"

#define WEB_ADDRESS_WORDS "an address such as 127.0.0.1:8080 behind --status-web, and names of this machine behind commas"

/* Reads it: a numeric address with a port, or a port alone, which is one of this machine's own; and names. Returns whether it is one. */
bool web_address_read(const char *words, address *at);

/* Whether somebody asks for the page by a host that is its own: with a port or without, an address of numbers, localhost, or one of the
 * names. A browser on a stranger's page would name that page's host, though its name leads here, and let the stranger read what comes. */
bool web_address_has(const char *words, const piece *host);

#endif

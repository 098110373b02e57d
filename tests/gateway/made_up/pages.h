/* Browsers and others who connect to links by WebSocket, what they say, right and wrong, and what they hear. */
#ifndef PAGES_H
#define PAGES_H

#include <stdbool.h>
#include <stddef.h>
#include <stdint.h>

#include "descriptors.h"

/* Somebody connects, or several do; asks, speaks, or sends what is none of this. */
void pages_act(void);

/* What the gateway sends on a connection; returns whether it is one of a page. */
bool page_hears(int fd, descriptor *on, const uint8_t *bytes, size_t length);

#endif

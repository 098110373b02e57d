/* Frames among the pages of a link (links/among.h). */
#ifndef HUB_H
#define HUB_H

#include "web/web.h"

/* A page says a frame, which goes to the pages that it is for. Returns whether the gateway hears it too. */
bool hub_hears(web *it, const page *by, const uint8_t *frame, size_t length);

/* The gateway says one. Returns false where a page had no room for it, and none got it. */
bool hub_sends(web *it, const uint8_t *frame, size_t length);

#endif

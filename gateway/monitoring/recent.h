/* The last events, as JSON, for the page of the status: as many as there is room for. */
#ifndef RECENT_H
#define RECENT_H

#include <stddef.h>

/* Keeps an event, which is a line; the oldest goes where there is no room. */
void recent_keep(const char *json);

/* The oldest event that is there and has `*number` others before it since the start, or more; the number goes behind it. NULL where there is
 * none. */
const char *recent_next(size_t *number);

#endif

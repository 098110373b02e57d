/* The page of the status, that of page.html. */
#ifndef PAGE_TEXT_H
#define PAGE_TEXT_H

#include <stddef.h>

/* Its lines, without their ends. */
extern const char *const PAGE_LINES[];
extern const size_t PAGE_LINE_COUNT;

/* What a browser lets the page do, by its Content-Security-Policy: run its own script, of which this has the hash, and ask this gateway. */
extern const char PAGE_POLICY[];

#endif

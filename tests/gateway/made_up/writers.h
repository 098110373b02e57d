/* The threads that write what the gateway says: each runs only while the driver lets it, so that all follows from the seed. */
#ifndef WRITERS_H
#define WRITERS_H

#include <stdbool.h>

/* Lets those write for whom something is there, as far as their readers take it; waits until they rest. */
void writers_write(void);

/* Whether somebody reads what is said, or takes nothing for a while. */
void writers_are_read(bool are);

/* Nobody reads the capture any more, for good. */
void capture_is_gone(void);

#endif

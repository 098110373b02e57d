/* Which calls of the made-up system fail, and which memory is refused: the driver says how often, and the seed which. */
#ifndef WEATHER_H
#define WEATHER_H

#include <stdbool.h>
#include <stddef.h>

typedef struct weather {
    unsigned calls;  /* one call in so many fails, or none where that is 0 */
    unsigned memory; /* the same of memory that is asked for; */
    unsigned nth;    /* and the one that is asked for as the nth from now is refused, once */
    unsigned most_open; /* so many descriptors may be open at one time */
} weather;

extern weather the_weather;

/* All is well again. */
void weather_clears(void);

/* Whether a call fails now, by a fault of a list, which goes into errno. A 0 ends the list. */
bool fails(const int *faults);

/* Blocks of memory that the gateway and the library have, and how many were refused to them. */
size_t blocks_in_use(void);
unsigned long blocks_refused(void);

/* Memory that is never refused, and not counted, for the test itself. */
void *own_memory(size_t size);
void give_back(void *block);

#endif

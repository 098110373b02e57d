/* Questions for names of machines, whose answers come when the driver wants. */
#ifndef NAMES_H
#define NAMES_H

#include <stdbool.h>
#include <stddef.h>

size_t names_asked(void);

/* The next of them is answered, with addresses of the made-up internet, or none. */
void name_is_answered(void);

#endif

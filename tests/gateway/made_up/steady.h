/* Players who play for a while, each as fast as games do, and one perhaps much faster: what seconds of it do to limits, no burst does. */
#ifndef STEADY_H
#define STEADY_H

#include <stdbool.h>

/* They begin, on a tunnel that has clients. Returns whether there is one. */
bool steady_begins(void);

/* A hundredth of a second of it. */
void steady_passes(void);

#endif

/* What lets a writer's thread go on that waits: whoever wakes it may do so before it waits, and needn't hold its lock. Once is enough: the
 * thread looks at all that there is. */
#ifndef WOKEN_H
#define WOKEN_H

#include <stdbool.h>

#include "systems/writer.h"

/* Whether a writer can wait from now on; else errno has the reason. */
bool woken_begin(writer which);

/* Waits until it is woken, or was since it waited last. */
void woken_wait(writer which);

void woken_wake(writer which);

#endif

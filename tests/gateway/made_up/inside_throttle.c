#include "limits/throttle.c"

#include "inside.h"

void links_are_well(void)
{
    queues_are_well(&told.of, "all links");
}

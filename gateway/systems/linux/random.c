#include "systems/system.h"

#include <sys/random.h>

bool system_random(uint8_t *bytes, size_t count)
{
    return getrandom(bytes, count, 0) == (ssize_t)count;
}

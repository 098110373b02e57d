#include "systems/system.h"

#include <errno.h>

#include "systems/windows/net.h"
#include <ntsecapi.h>

bool system_random(uint8_t *bytes, size_t count)
{
    if (RtlGenRandom(bytes, (ULONG)count))
        return true;
    errno = EIO;
    return false;
}

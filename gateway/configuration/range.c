#include "configuration/range.h"

#include <string.h>

bool ranges_have(const ranges *it, const address *at)
{
    return ipxr_ranges_have(it->list, it->count, at->host);
}

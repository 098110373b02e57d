/* Addresses of IPv4 that begin with the same bits, and lists of them: the library says which they have (ipxr_cable.h). */
#ifndef RANGE_H
#define RANGE_H

#include <stdbool.h>
#include <stddef.h>
#include <stdint.h>

#include "ipxr_cable.h"
#include "systems/address.h"

enum {
    HOST_BITS = 32,
    MOST_RANGES = 16, /* of a list */
};

typedef ipxr_range range;

typedef struct ranges {
    range list[MOST_RANGES];
    size_t count;
} ranges;

/* Whether an address is in one of them. */
bool ranges_have(const ranges *it, const address *at);

#endif

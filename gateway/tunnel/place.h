/* A place of the tunnel: where datagrams come from and go to, in six bytes, which are its client's node. */
#ifndef PLACE_H
#define PLACE_H

#include <string.h>

#include "ipx.h"
#include "systems/address.h"

static inline address address_of(const uint8_t place[NODE])
{
    address at = {.is_six = false};
    memcpy(at.host, place, sizeof at.host);
    at.port = get16(place + sizeof at.host);
    return at;
}

static inline void place_of(const address *at, uint8_t place[NODE])
{
    memcpy(place, at->host, sizeof at->host);
    put16(place + sizeof at->host, at->port);
}

#endif

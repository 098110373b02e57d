/* What holds after each turn. */
#ifndef CHECKS_H
#define CHECKS_H

#include "gateway.h"

/* Of a gateway that runs. */
void gateway_is_well(gateway *it);

/* Nothing is left of it: no descriptor, no file, no client; and as many blocks of memory as before it began. */
void nothing_is_left(size_t blocks);

#endif

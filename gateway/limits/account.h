/* What somebody has used of a limit that isn't the same on all networks: of each that differs for itself. So whoever may do much at once on
 * one network, and did, isn't held up on another where less may come at once. */
#ifndef ACCOUNT_H
#define ACCOUNT_H

#include "ipxr_limits.h"
#include "limits/meter.h"

typedef struct account {
    ipxr_limit of; /* nothing, as long as nobody used it */
    meter used;
    struct account *next; /* of another limit */
} account;

/* What is used of a limit now. Where there is no memory limits that differ share one. */
ipxr_meter *account_of(account *first, const ipxr_limit *of);

/* Nothing is used of any from now on. */
void account_forget(account *first);

#endif

/* A gateway that runs gets other settings. */
#ifndef CHANGE_H
#define CHANGE_H

#include "gateway.h"

/* What a change did, for who wanted it. */
typedef struct changed {
    size_t added, removed; /* networks */
    size_t reopened;       /* links of networks that stay */
    size_t clients;        /* networks with other rules for their clients */
    size_t sockets;        /* networks that extend other sockets, or have another edge */
    size_t keys;           /* links of `peers` with another key */
    size_t faults;         /* links that couldn't be opened, and are tried again each second */
    bool is_new_router;    /* the router was made anew */
    bool is_refused;       /* there was no memory for it: all is as it was */
} changed;

/* Changes to these settings, which stay the caller's. Links that are the same stay open, and the router stays where its ports are the
 * same. Where memory is refused nothing changes, and the gateway has the settings that it had. */
changed gateway_change(gateway *it, const settings *set);

/* Whether anything has changed. */
bool has_changed(const changed *it);

#endif

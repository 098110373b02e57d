/* Names of machines, as the system knows them: its own call may wait for other machines, so a thread calls it. */
#ifndef RESOLVER_H
#define RESOLVER_H

#include <stdbool.h>
#include <stddef.h>

#include "systems/address.h"

enum { MOST_ANSWERS = 8 /* addresses of a name that are looked at */ };

/* The addresses of a name, in the order in which the system wants them to be tried; none where it isn't known. Their ports are 0. */
typedef struct answers {
    size_t count;
    address list[MOST_ANSWERS];
} answers;

/* Begins a thread. Returns whether there is one. */
bool resolver_begin(void (*run)(void *), void *with);

/* What all of these threads share is looked at by one at a time. */
void resolver_lock(void);
void resolver_unlock(void);

/* Which addresses are wanted. */
typedef enum { ANY_ADDRESS, ADDRESS_OF_IPV4, ADDRESS_OF_IPV6 } wanted;

/* Asks the system for the addresses of a name, and waits for them. */
void resolver_ask(const char *host, wanted which, answers *found);

#endif

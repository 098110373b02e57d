/* libsodium, which seals with a key. It is loaded while the gateway runs, when it is wanted for the first time: a gateway that seals nothing
 * needs nothing of it, and none is needed to compile one. */
#ifndef SODIUM_H
#define SODIUM_H

#include <stdbool.h>
#include <stddef.h>

/* One of its calls, whose type who asked for it knows. */
typedef void (*sodium_call)(void);

/* Loads it, and finds calls by their names. Returns whether all are there; else `lacks` is told why, in words that stay. Once it is loaded it
 * stays so until the program ends. */
bool sodium_load(const char *const *names, sodium_call *calls, size_t count, const char **lacks);

#endif

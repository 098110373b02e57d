/* The key that all places of a network share: a file with 64 hexadecimal digits, which nobody else may read. */
#ifndef KEY_H
#define KEY_H

#include <stdbool.h>
#include <stdint.h>
#include <stdio.h>

#include "peers/sealing.h"

/* Reads the key of a file. Returns NULL, or what is wrong with it, in words that stay; then errno has the system's reason, or is 0. */
const char *key_read(const char *name, uint8_t key[KEY]);

/* Prints a new one as such a file has it. Returns false where the system has no random numbers; errno has the reason. */
bool key_print(FILE *file);

#endif

/* What a program keeps from one start to the next: small files in a folder that is its own. Where the system names none, nothing is kept. */
#ifndef KEEPING_H
#define KEEPING_H

#include <stdbool.h>
#include <stddef.h>
#include <stdint.h>

typedef enum {
    IS_KEPT,
    IS_NOT_YET,     /* there is no such file; */
    IS_ANOTHER,     /* what is there is no regular file of that size; */
    CANT_BE_KEPT,   /* the system refuses it: errno has the reason; */
    HAS_NO_FOLDER,  /* or names no folder */
} kept;

/* Reads a regular file of exactly so many bytes. What else is there isn't read, and never waited for. */
kept keeping_read(const char *name, uint8_t *bytes, size_t count);

/* Writes a file that its owner alone may read, whole or not at all. */
kept keeping_write(const char *name, const uint8_t *bytes, size_t count);

#endif

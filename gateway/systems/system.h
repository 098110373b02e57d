/* What the gateway asks of the system, beside sockets, cards, the clock and orders. Each system has a folder with its own, and begins
 * the program there. */
#ifndef SYSTEM_H
#define SYSTEM_H

#include <stdbool.h>
#include <stddef.h>
#include <stdint.h>
#include <stdio.h>

/* The program, by the words of its command line in UTF-8. Each system's own main calls it, once sockets can be opened. Returns the exit
 * status. */
int gateway_main(int count, char **words);

/* Opens a file as fopen does; its name is in UTF-8. */
FILE *file_open(const char *name, const char *how);

/* Opens a file to be read, and never waits for who writes there: what isn't there yet can't be read. */
FILE *file_open_at_once(const char *name);

/* Whether nobody else may read a file, or no more than the group of another's who lent it: as ssh wants it of a key. On Windows that isn't
 * looked at. */
bool file_is_secret(FILE *file);

/* Whether a file is a pipe with a name, which can't be opened to be written before somebody reads there. */
bool file_is_fifo(const char *name);

/* A file whose text lies in memory once it is closed, by text_close with the same places; then it is the caller's to free. NULL where there is
 * none. */
FILE *text_open(char **text, size_t *length);
void text_close(FILE *file, char **text, size_t *length);

/* Bytes that nobody can tell beforehand. Returns whether the system gave them; else errno has the reason. */
bool system_random(uint8_t *bytes, size_t count);

/* The words of the fault that is in errno. */
const char *fault_words(void);

#endif

/* What is said on standard output, and complained of on standard error. Nothing here waits for who reads it: lines are gathered, and a
 * thread for each writes them. Where a reader is so late that there is no room for more, lines are dropped and counted; the count stands at
 * their place once somebody reads again. */
#ifndef OUTPUT_H
#define OUTPUT_H

#include <stdbool.h>
#include <stddef.h>
#include <stdio.h>

/* From now on lines are written. Returns false where the system has no thread for it; errno has the reason. */
bool output_begin(void);

/* A line, without its end. */
void say(const char *format, ...);
void complain(const char *format, ...);

/* The same for a capture: from now on its bytes go to a file. Returns false where the system has no thread for it. */
bool output_begin_capture(FILE *file);

/* The same for a pipe with a name: nobody waits until somebody reads there. */
bool output_begin_capture_fifo(const char *name);

/* What became of the bytes of a capture: they are written some time, or there was no room for them, or the file takes no more. */
typedef enum { WILL_BE_WRITTEN, NO_ROOM_FOR_IT, TAKES_NO_MORE } outcome;

/* Takes the bytes of a capture, all or none. */
outcome output_capture(const void *bytes, size_t length);

/* Why it takes no more, as errno has it. */
int output_capture_fault(void);

/* Waits until the bytes of a capture are written, as long as somebody reads them; and the same for all lines. */
void output_end_capture(void);
void output_end(void);

#endif

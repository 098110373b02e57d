/* Threads that write to standard output, to standard error, and to a capture. Each has a lock; what is
 * gathered for it is changed between writer_lock and writer_unlock alone. */
#ifndef WRITER_H
#define WRITER_H

#include <stdbool.h>
#include <stddef.h>
#include <stdio.h>
#include <sys/types.h>

typedef enum { OUTPUT, COMPLAINTS, CAPTURE, WRITERS } writer;

/* Begins a thread for a file, which calls a function that never returns; it ends with the program. Returns false where none can be had. */
bool writer_begin(writer which, FILE *file, void (*write_on)(writer which));

/* The same for a pipe with a name, which the thread opens as soon as somebody reads there. The name stays until the program ends. */
bool writer_begin_fifo(writer which, const char *name, void (*write_on)(writer which));

void writer_lock(writer which);
void writer_unlock(writer which);

/* In the thread, with the lock: lets go of it until writer_wake is called, or was since this was called last. */
void writer_wait(writer which);
void writer_wake(writer which);

/* Lets some milliseconds pass, or fewer. */
void writer_rest(int milliseconds);

/* Without the lock: writes some bytes, and waits as long as that takes. Returns how many; 0 where it can't be now, after a second; -1 where
 * nobody reads them any more, or a capture's file can't have them, and then errno says why. */
ssize_t writer_write(writer which, const char *bytes, size_t count);

#endif

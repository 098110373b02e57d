/* What tells this machine from others. */
#ifndef MACHINE_H
#define MACHINE_H

#include <stddef.h>

/* The machine's own number, which stays while its system does, as text; where it has none, its name. It is short where the room is. */
void machine_words(char *words, size_t room);

#endif

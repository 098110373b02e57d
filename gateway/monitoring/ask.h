/* Asking a gateway that runs, by its status socket: show, ping, trace and reload. */
#ifndef ASK_H
#define ASK_H

#include <stdbool.h>

/* Whether a command line that begins with this word asks a gateway. */
bool is_asking(const char *word);

/* Asks, and prints the answer. Returns the exit status. */
int ask_gateway(int count, char **words);

#endif

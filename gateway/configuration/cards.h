/* The Ethernet cards of this machine, and the words by which a configuration names them. */
#ifndef CARDS_SHOWN_H
#define CARDS_SHOWN_H

#include <stdio.h>

/* Lists them in columns, and says what the system lacks so that one could be opened. */
void cards_show(FILE *file);

#endif

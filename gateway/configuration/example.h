/* The example of a configuration: that of example.conf. */
#ifndef EXAMPLE_H
#define EXAMPLE_H

#include <stdio.h>

void example_show(FILE *file);

#endif

/* Configurations that are made up: networks and links of all kinds, and what stands below them. */
#ifndef CONFIGURATIONS_H
#define CONFIGURATIONS_H

#include <stdbool.h>

/* Makes up another one, which is right; or changes the last a little, so that it may be wrong. */
void configuration_begin(void);
void configuration_changes(void);

/* Its text. */
const char *configuration_text(void);

#endif

/* Reading the configuration anew while the gateway runs. What didn't change runs on; a wrong file changes nothing. */
#ifndef RELOAD_H
#define RELOAD_H

#include "monitoring/viewer.h"

/* The file that is read anew; the name stays the caller's. */
void reload_from(const char *configuration);

/* Reads it, since somebody gave the order; what is wrong is complained of. And the same for somebody who hears it, too. */
void reload(gateway *it);
void reload_for(gateway *it, viewer *v);

#endif

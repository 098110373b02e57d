/* Browsers that look at the page of the status: they ask for everything, in pieces, read slowly, or vanish. */
#ifndef BROWSERS_H
#define BROWSERS_H

#include <stdbool.h>

/* Whether the gateway of this seed has such a page. (seeds that found something before there was one play as they did) */
bool has_page(void);

/* Some of them do something, where there is a page. */
void browsers_act(void);

#endif

/* Who has come in and asks for a WebSocket. */
#ifndef ASKING_H
#define ASKING_H

#include "web/page.h"

/* Something has come from him. Once his request is whole he is a page of a link, or is told in a sentence why not. */
void asking_hear(page *it);

#endif

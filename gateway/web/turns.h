/* What the gateway's turns do for links by WebSocket. */
#ifndef TURNS_H
#define TURNS_H

#include "gateway.h"
#include "web/site.h"

/* Who went since the last turn is forgotten: clients leave. And what found no room is counted. */
void web_turn(gateway *it);

/* A second has passed. */
void web_second(gateway *it);

#endif

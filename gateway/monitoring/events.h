/* What happens, for those who follow it by the status socket: clients, places, links, routes and services that come and go. */
#ifndef EVENTS_H
#define EVENTS_H

#include "gateway.h"

/* A client came or left; a network, or a link of one, went up or down, or lacks something else; the configuration has it no more. */
void events_client(const network *on, const uint8_t node[6], const address *at, bool comes);
void events_link(const network *on);
void events_removed(const network *on);

/* A place came to a network, left it, or is somewhere else now. */
typedef enum { PLACE_COMES, PLACE_LEAVES, PLACE_MOVES } place_event;
void events_place(const network *on, const address *at, place_event what);

/* Whether somebody follows what happens, or the page of the status shows it. */
bool events_are_followed(void);

/* From now on somebody follows: what the router has learned by now is nothing new. */
void events_begin(gateway *it);

/* A second has passed: what the router has learned or forgotten since the last. */
void events_second(gateway *it);

#endif

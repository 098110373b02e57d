/* Routes and services by way of nodes that say nothing themselves: the router hears of them each second, in these nodes' names. While their network
 * is up, it hears of the same routes and services from nobody else, on no network: so nobody takes a line's place in the tables. */
#ifndef STATICS_H
#define STATICS_H

#include "gateway.h"

/* A second has passed, or the router has begun: it hears of them on ports that are up. */
void statics_second(gateway *it);

/* A network has come up: the router hears of its lines before anybody there says anything. */
void statics_say(gateway *it, const network *on);

/* Whether a packet may say what a line says of a network that is up. And what it leaves without that: so many bytes of it, 0 for nothing. */
bool statics_may_name(gateway *it, const uint8_t *packet);
size_t statics_leave(gateway *it, const ipxr_port *at, uint8_t *packet, size_t length);

/* Whether a service was heard by a line of the network's: its server says nothing itself. */
bool statics_have(const network_setting *set, const ipxr_service_record *service);

/* The lines of a network are others now, and its router is the same: what they say no more ends at once. */
void statics_change(gateway *it, const network *on, const network_setting *was);

#endif

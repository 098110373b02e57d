/* The status socket: who runs the gateway asks what it knows, follows what happens, and lets it ask stations and routers. Whoever asks
 * holds up nothing: there are few at once, each has bounded room, and who takes nothing for a minute is sent away. */
#ifndef STATUS_H
#define STATUS_H

#include "gateway.h"
#include "systems/watch.h"

/* Listens at a path, which stays the caller's. Returns false where it can't; errno has the reason. */
bool status_open(const char *path);
void status_close(void);

/* What is waited for: at most MOST_STATUS_WATCHED. Returns how many. */
size_t status_waits(watch *list);

/* Answers those of whom the list says that something has come. */
void status_attend(gateway *it, const watch *list, size_t count);

/* A second has passed. */
void status_second(gateway *it);

/* Whether a packet is an answer to what somebody wanted to be asked; then the router doesn't hear it. */
bool status_hears(const uint8_t *packet, size_t length);

/* Whether somebody follows what happens; and what he is told, in each form. */
bool status_is_followed(void);
void status_tell(const char *line, const char *json);

#endif

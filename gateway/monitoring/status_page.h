/* The status as a page for browsers (--status-web): what `show` shows, and the last events, by HTTP. Nothing can be changed there. Whoever
 * looks holds up nothing: there are few at once, each has bounded room and time, and a newcomer puts out the one who did nothing for longest. */
#ifndef STATUS_PAGE_H
#define STATUS_PAGE_H

#include "gateway.h"
#include "systems/watch.h"

/* Listens where some words say (web_address.h), which stay the caller's, and tells where that is. Returns false where it can't; errno has
 * the reason. */
bool status_page_open(const char *words);
void status_page_close(void);
bool status_page_is_open(void);

/* What is waited for: at most MOST_STATUS_PAGE_WATCHED. Returns how many. */
size_t status_page_waits(watch *list);

/* The milliseconds until it is to be looked whether somebody takes more, where these are fewer than so many. */
int status_page_patience(int milliseconds);

/* Answers those of whom the list says that something has come. */
void status_page_attend(gateway *it, const watch *list, size_t count);

/* A second has passed. */
void status_page_second(void);

#endif

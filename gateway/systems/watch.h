/* Waiting for what comes on sockets. */
#ifndef WATCH_H
#define WATCH_H

#include <stdbool.h>
#include <stddef.h>

#include "configuration/settings.h"

/* Of the status socket: those who ask, and where they come in. */
enum { MOST_VIEWERS = 8, MOST_STATUS_WATCHED = MOST_VIEWERS + 1 };

/* And the same of the status' page. */
enum { MOST_VISITORS = 8, MOST_STATUS_PAGE_WATCHED = MOST_VISITORS + 1 };

/* Of links by WebSocket: those who are pages of one, those who ask for one, and some who just went; and where they come in. */
enum {
    MOST_PAGES = 512,
    MOST_ASKING = 64,
    MOST_CONNECTIONS = MOST_PAGES + 2 * MOST_ASKING,
    MOST_WEB_WATCHED = MOST_CONNECTIONS + MOST_LINKS,
};

/* A cable has two at most: a connection, and where connections come in. */
#define MOST_WATCHED (2 * MOST_LINKS + MOST_STATUS_WATCHED + MOST_STATUS_PAGE_WATCHED + MOST_WEB_WATCHED)

typedef struct watch {
    int fd;
    bool sends;       /* whether it waits, too, until something can be sent, or a connection has come about or failed */
    bool has_come;    /* something has come of it */
    bool has_changed; /* and that isn't only something to be received */
} watch;

/* Where the system can't wait, milliseconds until one looks everywhere. */
enum { MOMENT = 10 };

/* Waits until something comes, somebody gives an order, or so many milliseconds have passed. Returns false where it isn't known what has
 * come, as there is an order. Where the system can't wait, it returns after a moment, and something may have come everywhere. */
bool watch_all(watch *list, size_t count, int milliseconds);

#endif

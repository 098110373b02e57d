/* A connection of a browser or another program: at first somebody who asks for a WebSocket, then the messages of one. What comes is heard as far
 * as there is room for it, so that the other end waits; what goes waits in bounded room, and a message that has none there is dropped whole.
 * Nothing here waits for anybody. */
#ifndef PAGE_H
#define PAGE_H

#include <stdbool.h>
#include <stddef.h>
#include <stdint.h>

#include "limits/receiver.h"
#include "systems/address.h"
#include "web/request.h"
#include "web/websocket.h"

enum {
    PAGE_COMING = REQUEST_ROOM, /* bytes that have come and weren't heard, at most: a whole head, and so the longest frame, too */
    PAGE_GOING = 32768,         /* and that wait to be sent, */
    PAGE_CONTROL = 256,         /* of which so many are left for what steers the connection */
    PAGE_KEPT = 16384,          /* bytes that the system is to keep, of what has come, and of what goes */
};

typedef enum {
    PAGE_ASKS,    /* its request isn't whole; */
    PAGE_IS_OPEN, /* it is at a link; */
    PAGE_ENDS,    /* it was told that all is over, and is given time to hear that; */
    PAGE_IS_GONE, /* it has no socket any more */
} page_state;

struct web;
struct site;

typedef struct page {
    page_state state;
    int fd;
    address from;
    uint64_t since;      /* milliseconds of the clock when it began to be so, */
    uint64_t spoke;      /* and when it said a message, or was let in */
    bool has_place;      /* it is a client of the tunnel, or said a frame: nobody else may have its place */
    bool is_finished;    /* it was told that nothing more comes */
    bool is_full;        /* it takes nothing more now, */
    uint64_t took;       /* and milliseconds of the clock when it took something, or had nothing to take */
    bool has_come;       /* something can be received, */
    bool is_behind;      /* or was, and its turn was over before all of it was heard */
    struct site *at;     /* where it came in, */
    struct web *of;      /* and the link at which it is, or was; NULL while it asks */
    uint8_t number;      /* among those of the link */
    receiver *reads;     /* what it receives of each of these, where they have frames; or NULL */
    request asked;
    websocket socket;
    size_t taken, in;    /* of what has come, the first bytes were heard */
    size_t sent, out;    /* of what goes, the first were sent */
    uint8_t coming[PAGE_COMING], going[PAGE_GOING];
} page;

/* Somebody came in. Returns NULL where there is no memory: then he goes at once. */
page *page_begin(int fd, const address *from, struct site *at);
void page_free(page *it);

/* It is so from now on. */
void page_is(page *it, page_state state);

/* Closes its socket: it is gone. */
void page_drop(page *it);

/* Receives once, if something has come. Returns whether there is more to hear now. */
bool page_receives(page *it);

/* The next message of an open one, of so many frames at most, which are counted down. Returns whether there is one: it is in `socket`. Pings
 * are answered meanwhile, and what is wrong ends it. */
bool page_says(page *it, unsigned *frames);

/* A message is to go. Returns whether there is room for it. */
bool page_send(page *it, const uint8_t *message, size_t length);

/* Plain bytes are to go: the answer to a request. */
void page_tell(page *it, const char *text, size_t length);

/* It ends, for a status; and what comes from now on isn't heard. */
void page_end(page *it, uint16_t status);

/* Whether something is to go; and as much goes as it takes. */
bool page_is_pending(const page *it);
void page_push(page *it);

/* One that ends: what comes is dropped. It is gone once the other end has gone. */
void page_fades(page *it);

#endif

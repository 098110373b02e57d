/* What the page of the status answers: which answer a request gets, and its bytes piece by piece, so that packets pass between two. */
#ifndef REPLY_H
#define REPLY_H

#include "monitoring/shown.h"
#include "web/request.h"

enum { REPLY_HEAD = 2048 /* bytes of the longest head, with a sentence behind it */ };

/* What stands behind the head. */
typedef enum { OF_NOTHING, OF_PAGE, OF_STATUS, OF_COUNTS } reply_body;

typedef struct reply {
    reply_body body;
    bool is_chunked; /* each piece stands behind its length; what has no length at all, for HTTP/1.0, ends with the connection */
    size_t line;     /* of the page, that is next */
    cursor so_far;   /* in what is shown */
} reply;

/* Begins the answer to a request of which the head was read as `status` says, and writes its own head; `words` are those behind
 * --status-web. */
void reply_begin(reply *it, const request *to, int status, const char *words, sheet *head);

/* Writes the next part of the body, of at most MOST_RECORD bytes. Returns false where all is written. */
bool reply_next(gateway *of, reply *it, sheet *s);

#endif

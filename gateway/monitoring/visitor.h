/* Somebody who looks at the page of the status: one request, and its answer. Nothing waits for him: what he hasn't read lies in bounded
 * room, and each thing that he does has its time. */
#ifndef VISITOR_H
#define VISITOR_H

#include "monitoring/reply.h"

enum { VISITOR_ROOM = 16384 };

/* He asks; he is answered; and then it is waited until he closes his side, too. */
typedef enum { AWAY, IS_ASKING, IS_ANSWERED, IS_LEAVING } visitor_state;

typedef struct visitor {
    visitor_state state;
    int fd;
    char head[REQUEST_ROOM]; /* what he said, */
    size_t head_count;
    request request;         /* as far as it was read */
    reply reply;
    bool is_whole;           /* the last of it is there: */
    char text[VISITOR_ROOM]; /* what is for him, from `sent` on */
    size_t sent, count;
    bool says_no_more;       /* he has closed his side, and may read on */
    uint64_t since;          /* milliseconds of the clock when he began with what he does, */
    uint64_t moved;          /* and when he last said or took something */
} visitor;

/* Begins with a connection. */
void visitor_begin(visitor *v, int fd);

/* Takes what he says. Where his request is whole, or wrong, his answer begins; `words` are those behind --status-web. */
void visitor_hear(visitor *v, const char *words);

/* Bytes that are on their way; whether he waits for the next piece of his answer; and that. */
size_t visitor_pending(const visitor *v);
bool visitor_waits(const visitor *v);
void visitor_fill(gateway *it, visitor *v);

/* Sends what he takes now. */
void visitor_push(visitor *v);

/* Whether somebody who is there takes too long. */
bool visitor_is_late(const visitor *v);

/* Ends the connection; what is on its way arrives, or nothing of it is kept. */
void visitor_close(visitor *v);
void visitor_drop(visitor *v);

#endif

/* Somebody who asks by the status socket, and what is on its way to him. Nothing waits for him: what he hasn't read lies in bounded room,
 * and what finds none is dropped. */
#ifndef VIEWER_H
#define VIEWER_H

#include "monitoring/answer.h"
#include "monitoring/probe.h"
#include "monitoring/shown.h"

enum { VIEWER_ROOM = 65536 };

typedef enum { ABSENT, ASKS, IS_SHOWN, FOLLOWS, PROBES, LEAVES } viewer_state;

typedef struct viewer {
    viewer_state state;
    int fd;
    sheet_form form;
    cursor so_far;         /* in what is shown to him */
    probe probe;           /* that he wanted */
    char asked[MOST_ASKED];
    size_t asked_count;
    char text[VIEWER_ROOM]; /* what is for him, from `sent` on */
    size_t sent, count;
    uint64_t missed;       /* events for which there was no room, since the last that had */
    uint64_t moved;        /* milliseconds of the clock when he last took something, or had nothing to take */
} viewer;

/* Begins with a connection. */
void viewer_begin(viewer *v, int fd);

/* Takes what he asks. Returns true once it is whole: a text without its end. */
bool viewer_asks(viewer *v);

/* Whether he is still there, where he has asked; what he says more is dropped. */
bool viewer_stays(viewer *v);

/* Bytes that are on their way, and the room that is left. */
size_t viewer_pending(const viewer *v);
size_t viewer_room(viewer *v);

/* Adds text; returns false, and adds none of it, where there is no room. */
bool viewer_add(viewer *v, const char *text, size_t length);
void viewer_say(viewer *v, const char *format, ...);

/* Adds as much as there is of what is shown to him, up to a piece. */
void viewer_fill(gateway *it, viewer *v);

/* What is there is all, and whether all is well. Or a complaint is the whole answer. */
void viewer_end(viewer *v, bool is_well);
void viewer_complain(viewer *v, const char *format, ...);
void viewer_complain_of(viewer *v, const char *text);

/* Sends what he takes now. He is gone where he has heard all, or the connection is lost. */
void viewer_push(viewer *v);

void viewer_close(viewer *v);

#endif

/* What `show` shows: links, clients, stations, peers, routes, services, edge and counts, piece by piece, each record as it is when it is written. */
#ifndef SHOWN_H
#define SHOWN_H

#include "gateway.h"
#include "monitoring/sheet.h"

/* Where one is who is shown something: the sections that are left, and the record of this one that is next. */
typedef struct cursor {
    size_t section, behind; /* the section, and the one behind the last */
    bool is_whole;          /* all of them are shown, in one object of JSON */
    bool has_events;        /* and behind them the last events, with the time that it is by their clock */
    bool has_begun;         /* the section has its headings */
    size_t written;         /* records of it so far */
    size_t network, index;  /* the record that is next */
    size_t metric;          /* and of what Prometheus collects */
} cursor;

/* Begins with a section by its word, or with all where there is none. Returns false where there is no such section. */
bool shown_begin(cursor *so_far, const char *word);

/* Begins with all, and the last events behind them (recent.h), for JSON. */
void shown_begin_with_events(cursor *so_far);

/* Writes the next piece, of at most MOST_RECORD bytes. Returns false where all is written. */
bool shown_next(gateway *it, cursor *so_far, sheet *s);

/* ---- Of its sections ---- */

/* Writes the record that is next, and goes behind it. Returns false where there is none, and nothing is written. */
bool shown_count(gateway *it, cursor *so_far, sheet *s);
extern const column COUNT_COLUMNS[];
bool shown_edge(gateway *it, cursor *so_far, sheet *s);
extern const column EDGE_COLUMNS[];

/* The next piece of all counts in the text format of Prometheus. Returns false where all is written. */
bool shown_metric(gateway *it, cursor *so_far, sheet *s);

#endif

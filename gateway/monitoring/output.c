#include "monitoring/output.h"

#include <errno.h>
#include <inttypes.h>
#include <stdarg.h>
#include <stdint.h>
#include <stdio.h>
#include <string.h>

#include "systems/writer.h"

enum {
    ROOM = 1 << 20,  /* bytes of lines: a report with full tables is half of it */
    PIECE = 4096,    /* bytes that are written at once */
    MOST_LINE = 1024,
    PATIENCE = 2000, /* milliseconds without a byte that is read, after which the end waits no more; */
    MOST = 20000,    /* and in all, also for somebody who reads a little at a time */
    REST = 5,        /* milliseconds from one look to the next */
};

/* Lines are gathered in one place, while those of the other are written. */
typedef struct outlet {
    char places[2][ROOM];
    int gathers;      /* the place for the next line */
    size_t count;     /* bytes there */
    size_t under_way; /* bytes of the other that aren't written yet */
    uint64_t dropped; /* lines, since the last one that had room */
    bool is_refused;  /* the system refused what was written last */
    bool is_closed;   /* nothing will be taken any more, */
    int fault;        /* by what errno said */
    bool is_captured; /* it is a capture's, which has begun */
} outlet;

static outlet outlets[WRITERS];

/* Milliseconds for which the end may wait still. */
static int left_for_end = MOST;

/* ---- Lines ---- */

static void append(outlet *it, const char *line, size_t length)
{
    memcpy(it->places[it->gathers] + it->count, line, length);
    it->count += length;
}

/* Takes a line, where there is room for it; in front of it how many were dropped before. */
static void take(outlet *it, const char *line, size_t length)
{
    char told[80];
    int told_length = 0;
    if (it->dropped > 0)
        told_length = snprintf(told, sizeof told, "%" PRIu64 " lines are missing here: they weren't read in time\n", it->dropped);
    if (it->count + (size_t)told_length + length > ROOM) {
        it->dropped++;
        return;
    }
    append(it, told, (size_t)told_length);
    append(it, line, length);
    it->dropped = 0;
}

static void gather(writer which, const char *format, va_list rest)
{
    outlet *it = &outlets[which];
    char line[MOST_LINE];
    int length = vsnprintf(line, sizeof line - 1, format, rest);
    if (length < 0)
        return;
    size_t end = length < MOST_LINE - 1 ? (size_t)length : MOST_LINE - 2;
    line[end] = '\n';
    writer_lock(which);
    if (!it->is_closed)
        take(it, line, end + 1);
    writer_wake(which);
    writer_unlock(which);
}

void say(const char *format, ...)
{
    va_list rest;
    va_start(rest, format);
    gather(OUTPUT, format, rest);
    va_end(rest);
}

void complain(const char *format, ...)
{
    va_list rest;
    va_start(rest, format);
    gather(COMPLAINTS, format, rest);
    va_end(rest);
}

outcome output_capture(const void *bytes, size_t length)
{
    outlet *it = &outlets[CAPTURE];
    writer_lock(CAPTURE);
    outcome became = it->is_closed ? TAKES_NO_MORE : it->count + length > ROOM ? NO_ROOM_FOR_IT : WILL_BE_WRITTEN;
    if (became == WILL_BE_WRITTEN)
        append(it, bytes, length);
    writer_wake(CAPTURE);
    writer_unlock(CAPTURE);
    return became;
}

int output_capture_fault(void)
{
    writer_lock(CAPTURE);
    int fault = outlets[CAPTURE].fault;
    writer_unlock(CAPTURE);
    return fault;
}

/* ---- The thread ---- */

/* Waits for lines, and takes the place where they are. How many were dropped is told now, where no line comes behind them. */
static const char *next_lines(writer which)
{
    outlet *it = &outlets[which];
    while (it->count == 0 && it->dropped == 0)
        writer_wait(which);
    if (it->count == 0)
        take(it, "", 0);
    const char *lines = it->places[it->gathers];
    it->under_way = it->count;
    it->gathers = 1 - it->gathers;
    it->count = 0;
    return lines;
}

/* What became of some bytes, and why. */
static void note_written(writer which, ssize_t written, int fault)
{
    outlet *it = &outlets[which];
    it->fault = fault;
    it->is_refused = written == 0;
    it->is_closed = written < 0;
    if (it->is_closed)
        it->under_way = it->count = it->dropped = 0;
    else
        it->under_way -= (size_t)written;
}

static void write_on(writer which)
{
    outlet *it = &outlets[which];
    const char *next = NULL;
    writer_lock(which);
    for (;;) {
        if (it->under_way == 0)
            next = next_lines(which);
        size_t piece = it->under_way < PIECE ? it->under_way : PIECE;
        writer_unlock(which);
        ssize_t written = writer_write(which, next, piece);
        int fault = errno;
        writer_lock(which);
        next += written > 0 ? written : 0;
        note_written(which, written, fault);
    }
}

/* ---- Begin and end ---- */

bool output_begin(void)
{
    left_for_end = MOST;
    return writer_begin(OUTPUT, stdout, write_on) && writer_begin(COMPLAINTS, stderr, write_on);
}

bool output_begin_capture(FILE *file)
{
    outlets[CAPTURE].is_captured = writer_begin(CAPTURE, file, write_on);
    return outlets[CAPTURE].is_captured;
}

bool output_begin_capture_fifo(const char *name)
{
    outlets[CAPTURE].is_captured = writer_begin_fifo(CAPTURE, name, write_on);
    return outlets[CAPTURE].is_captured;
}

/* Waits until nothing is left: no longer than somebody reads, and so many milliseconds at most. Returns how many of them are left. */
static int wait_for(writer which, int most)
{
    outlet *it = &outlets[which];
    size_t before = 0;
    for (int rested = 0; rested < PATIENCE && most > 0; rested += REST, most -= REST) {
        writer_lock(which);
        size_t left = it->is_refused ? 0 : it->under_way + it->count + (it->dropped > 0);
        writer_unlock(which);
        if (left == 0)
            break;
        if (left != before)
            rested = 0;
        before = left;
        writer_rest(REST);
    }
    return most;
}

void output_end_capture(void)
{
    if (outlets[CAPTURE].is_captured)
        left_for_end = wait_for(CAPTURE, left_for_end);
}

void output_end(void)
{
    left_for_end = wait_for(COMPLAINTS, wait_for(OUTPUT, left_for_end));
}

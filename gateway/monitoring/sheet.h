/* What is shown to somebody: records of fields, each as a line of columns that one can read, or as an object of JSON. Bytes that came from
 * networks are escaped in both, so no terminal obeys them, and JSON is always valid. */
#ifndef SHEET_H
#define SHEET_H

#include <stdbool.h>
#include <stddef.h>
#include <stdint.h>

enum { MOST_RECORD = 2048 /* bytes of the longest record: a name of 48 bytes takes 288, and a link in words 576 */ };

typedef enum { AS_COLUMNS, AS_JSON, AS_PROMETHEUS } sheet_form;

/* A column: its key in JSON, its heading, and how wide it is. A list of them ends with one without a key. */
typedef struct column {
    const char *key, *heading;
    int width;
} column;

/* Where it is written. What finds no room is left out. */
typedef struct sheet {
    char *text;
    size_t room, count;
    sheet_form form;
    const column *next; /* the column of the next field */
    bool is_first;      /* of its record */
} sheet;

/* Text as it is: of the gateway's own. */
void sheet_put(sheet *s, const char *format, ...);

/* The line of headings, where there are columns. */
void sheet_headings(sheet *s, const column *columns);

/* A record: each of its fields in the order of the columns, and its end. */
void record_begin(sheet *s, const column *columns);
void record_end(sheet *s);

void field_text(sheet *s, const char *value); /* NULL is nothing: a - in a column */
void field_name(sheet *s, const uint8_t *bytes, size_t count);
void field_number(sheet *s, uint64_t value);
void field_flag(sheet *s, bool value);

/* Bytes inside of a string of JSON, and in text, where blanks are escaped too. */
void sheet_json(sheet *s, const uint8_t *bytes, size_t count);
void sheet_word(sheet *s, const uint8_t *bytes, size_t count);

#endif

#include "monitoring/sheet.h"

#include <inttypes.h>
#include <stdarg.h>
#include <stdio.h>
#include <string.h>

enum { LAST_PLAIN = 126 /* the last byte of ASCII that a terminal shows */ };

void sheet_put(sheet *s, const char *format, ...)
{
    va_list rest;
    va_start(rest, format);
    int length = vsnprintf(s->text + s->count, s->room - s->count, format, rest);
    va_end(rest);
    if (length > 0)
        s->count += (size_t)length < s->room - s->count ? (size_t)length : s->room - s->count - 1;
}

/* ---- Bytes of others ---- */

/* (each byte is the character of its number: nothing says which letters a name's bytes are) */
void sheet_json(sheet *s, const uint8_t *bytes, size_t count)
{
    for (size_t k = 0; k < count; k++)
        if (bytes[k] == '"' || bytes[k] == '\\')
            sheet_put(s, "\\%c", bytes[k]);
        else if (bytes[k] < ' ' || bytes[k] > LAST_PLAIN)
            sheet_put(s, "\\u%04X", bytes[k]);
        else
            sheet_put(s, "%c", bytes[k]);
}

static void put_text(sheet *s, const uint8_t *bytes, size_t count, uint8_t first_plain)
{
    for (size_t k = 0; k < count; k++)
        if (bytes[k] < first_plain || bytes[k] > LAST_PLAIN || bytes[k] == '\\')
            sheet_put(s, "\\x%02X", bytes[k]);
        else
            sheet_put(s, "%c", bytes[k]);
}

void sheet_word(sheet *s, const uint8_t *bytes, size_t count)
{
    put_text(s, bytes, count, ' ' + 1);
}

/* ---- Columns ---- */

static bool is_last(const column *next)
{
    return next->key == NULL || next[1].key == NULL;
}

/* Fills up a column that was begun at a place of the text. */
static void pad(sheet *s, const column *next, size_t begun)
{
    int written = (int)(s->count - begun);
    if (!is_last(next))
        sheet_put(s, "%*s", written < next->width ? next->width - written + 1 : 1, "");
}

void sheet_headings(sheet *s, const column *columns)
{
    for (const column *next = columns; s->form == AS_COLUMNS && next->key != NULL; next++) {
        size_t begun = s->count;
        sheet_put(s, "%s", next->heading);
        pad(s, next, begun);
    }
    if (s->form == AS_COLUMNS)
        sheet_put(s, "\n");
}

/* ---- Records ---- */

void record_begin(sheet *s, const column *columns)
{
    s->next = columns;
    s->is_first = true;
    if (s->form == AS_JSON)
        sheet_put(s, "{");
}

void record_end(sheet *s)
{
    sheet_put(s, s->form == AS_JSON ? "}" : "\n");
}

/* Begins a field. Returns where it begins. (one too many has no column: what it is called shows that) */
static size_t begin(sheet *s)
{
    if (s->form == AS_JSON)
        sheet_put(s, "%s\"%s\": ", s->is_first ? "" : ", ", s->next->key != NULL ? s->next->key : "?");
    else if (s->next->key == NULL)
        sheet_put(s, " ");
    s->is_first = false;
    return s->count;
}

static void end(sheet *s, size_t begun)
{
    if (s->form == AS_COLUMNS)
        pad(s, s->next, begun);
    s->next += s->next->key != NULL;
}

/* A field of bytes, in quotes where it is JSON. */
static void put_field(sheet *s, const uint8_t *bytes, size_t count, uint8_t first_plain)
{
    size_t begun = begin(s);
    if (s->form == AS_JSON) {
        sheet_put(s, "\"");
        sheet_json(s, bytes, count);
        sheet_put(s, "\"");
    } else {
        put_text(s, bytes, count, first_plain);
    }
    end(s, begun);
}

/* A field as it is. */
static void put_plain(sheet *s, const char *text)
{
    size_t begun = begin(s);
    sheet_put(s, "%s", text);
    end(s, begun);
}

void field_text(sheet *s, const char *value)
{
    if (value != NULL)
        put_field(s, (const uint8_t *)value, strlen(value), ' ');
    else
        put_plain(s, s->form == AS_JSON ? "null" : "-");
}

void field_name(sheet *s, const uint8_t *bytes, size_t count)
{
    put_field(s, bytes, count, ' ' + 1);
}

void field_number(sheet *s, uint64_t value)
{
    char text[24];
    snprintf(text, sizeof text, "%" PRIu64, value);
    put_plain(s, text);
}

void field_flag(sheet *s, bool value)
{
    static const char *const WORDS_OF[2][2] = {{"no", "yes"}, {"false", "true"}};
    put_plain(s, WORDS_OF[s->form == AS_JSON][value]);
}

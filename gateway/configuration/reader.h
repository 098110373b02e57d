/* A line of a configuration, word by word, and what is told where one is wrong. */
#ifndef READER_H
#define READER_H

#include <stdbool.h>
#include <stddef.h>
#include <stdio.h>

#include "configuration/settings.h"
#include "ipxr_configuration.h"

enum {
    LINE_ROOM = (1 << 16) + 1, /* bytes of a line, and a 0 */
    MOST_SHOWN = 100,          /* bytes of a word that are shown: who wrote a longer one knows it by these */
};

/* The line that is being read. */
typedef struct reader {
    const char *name;          /* of the file */
    FILE *complaints;
    size_t faults;
    size_t line;               /* its number, from 1 */
    size_t bytes;              /* how many were read */
    const char *text;          /* the line, */
    size_t length;
    ipxr_configuration all;    /* what all lines say so far, */
    ipxr_setting said;         /* what the words of this one say, up to the first that is wrong, */
    ipxr_line_wrong wrong;     /* what is wrong with it, */
    uint8_t expected;          /* and what was expected there; 0 where nothing is wrong */
    char word[MOST_SHOWN + 2]; /* the word that was asked for last */
} reader;

/* Reads the next line, with its end, and a 0 behind it. Returns its length: 0 at the end of the file, where it fails, and where it is too
 * long or has too many faults, which is told. */
size_t reader_line(reader *r, FILE *file, char line[LINE_ROOM]);

/* How the first line of a file begins, behind the mark of UTF-8 that some editors write there. Returns NULL where the file is UTF-16, which
 * is told: nothing of it can be read. */
char *reader_begin(reader *r, char *line, size_t *length);

/* The word of the line with that number, from 0, as far as it is shown; or NULL, which is the line's end. */
const char *reader_word(reader *r, size_t number);

/* Tells what is wrong with a word of this line, or with its end where the word is NULL. Returns false for who says so. */
bool reader_fault(reader *r, const char *word, const char *format, ...);

/* Tells what is wrong with the line that was read last, if anything is. */
void reader_tell(reader *r);

/* Tells that the network of that line has no link, unless the line is 0. */
void reader_tell_unlinked(reader *r, size_t line);

/* An address, as a line says it. */
address address_said(const ipxr_setting_host *said);

#endif

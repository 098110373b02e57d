#include "configuration/reader.h"

#include <stdarg.h>
#include <string.h>

/* Where reading ends: a file that somebody named by mistake may be endless, and nobody is heard while it is read. */
enum { LONGEST_LINE = LINE_ROOM - 1, LONGEST_FILE = 1 << 20, MOST_FAULTS = 1000 };

/* Bytes of the text of a word, with the 0 behind. */
enum { SHOWN_ROOM = 4 * MOST_SHOWN + sizeof ".." };

static const char BLANKS[] = " \t\r\n\v\f";

/* The text of a word, or of how it begins. Bytes that a terminal doesn't show are there by number. */
static const char *shown_word(const char *word, char text[SHOWN_ROOM])
{
    size_t shown = 0;
    char *to = text;
    for (; word[shown] != '\0' && shown < MOST_SHOWN; shown++) {
        unsigned char byte = (unsigned char)word[shown];
        to += sprintf(to, byte > ' ' && byte < 127 ? "%c" : "\\x%02X", byte);
    }
    strcpy(to, word[shown] != '\0' ? ".." : "");
    return text;
}

bool reader_fault(reader *r, const char *word, const char *format, ...)
{
    char shown[SHOWN_ROOM];
    va_list rest;
    va_start(rest, format);
    fprintf(r->complaints, "%s:%zu: ", r->name, r->line);
    if (word != NULL)
        fprintf(r->complaints, "'%s': ", shown_word(word, shown));
    else
        fputs("the line ends: ", r->complaints);
    vfprintf(r->complaints, format, rest);
    fputc('\n', r->complaints);
    va_end(rest);
    r->faults++;
    return false;
}

/* Whether what was read isn't too much; else that is told, and of the line nothing but its first word is left. */
static bool is_little(reader *r, char *line, size_t length)
{
    bool is_cut = length == LONGEST_LINE && line[length - 1] != '\n';
    if (!is_cut && r->bytes <= LONGEST_FILE && r->faults < MOST_FAULTS)
        return true;
    line[strcspn(line, BLANKS)] = '\0';
    if (is_cut)
        return reader_fault(r, line, "expected at most %d bytes in a line", LONGEST_LINE);
    if (r->bytes > LONGEST_FILE)
        return reader_fault(r, line, "expected at most %d bytes in all lines", LONGEST_FILE);
    return reader_fault(r, line, "%d lines are wrong: nothing is read from here on", MOST_FAULTS);
}

size_t reader_line(reader *r, FILE *file, char line[LINE_ROOM])
{
    size_t length = 0;
    int byte = 0;
    while (length < LONGEST_LINE && byte != '\n' && (byte = getc(file)) != EOF)
        line[length++] = (char)byte;
    line[length] = '\0';
    if (length == 0)
        return 0;
    r->line++;
    r->bytes += length;
    return is_little(r, line, length) ? length : 0;
}

/* Whether a text is of two bytes a character: by its mark, or since one of its first two bytes is 0. */
static bool is_utf_16(const unsigned char *text, size_t length)
{
    return length > 1 && ((text[0] == 0xFF && text[1] == 0xFE) || (text[0] == 0xFE && text[1] == 0xFF) || (text[0] == 0) != (text[1] == 0));
}

char *reader_begin(reader *r, char *line, size_t *length)
{
    static const char MARK[] = "\xEF\xBB\xBF";
    size_t mark = strncmp(line, MARK, sizeof MARK - 1) == 0 ? sizeof MARK - 1 : 0;
    if (is_utf_16((const unsigned char *)line, *length)) {
        fprintf(r->complaints, "%s: expected UTF-8 or plain text, this is UTF-16: save it as UTF-8\n", r->name);
        r->faults++;
        return NULL;
    }
    *length -= mark;
    return line + mark;
}

const char *reader_word(reader *r, size_t number)
{
    size_t start = 0, length = ipxr_settings_word((const uint8_t *)r->text, r->length, number, &start);
    size_t shown = length < sizeof r->word ? length : sizeof r->word - 1;
    memcpy(r->word, r->text + start, shown);
    r->word[shown] = '\0';
    return length > 0 ? r->word : NULL;
}

#include "monitoring/note.h"

#include <inttypes.h>
#include <stdarg.h>
#include <stdio.h>

#include "ipx.h"
#include "ipxr.h"
#include "monitoring/output.h"
#include "systems/clock.h"

/* Bytes of a line, without the seconds. */
enum { MOST_NOTE = 512 };

static bool is_on;

void note_events(void)
{
    is_on = true;
}

bool notes_events(void)
{
    return is_on;
}

static void tell(const char *format, va_list rest)
{
    char line[MOST_NOTE];
    uint64_t now = clock_now();
    vsnprintf(line, sizeof line, format, rest);
    say("%" PRIu64 ".%03" PRIu64 " %s", now / 1000, now % 1000, line);
}

void note(const char *format, ...)
{
    va_list rest;
    va_start(rest, format);
    if (is_on)
        tell(format, rest);
    va_end(rest);
}

void event(const char *format, ...)
{
    va_list rest;
    va_start(rest, format);
    tell(format, rest);
    va_end(rest);
}

const char *node_words(const uint8_t *node, char words[WORDS])
{
    snprintf(words, WORDS, "%02X%02X%02X%02X%02X%02X", node[0], node[1], node[2], node[3], node[4], node[5]);
    return words;
}

const char *address_at(const uint8_t *bytes, char words[WORDS])
{
    char node[WORDS];
    snprintf(words, WORDS, "%08" PRIX32 ".%.12s.%04X", get32(bytes), node_words(bytes + 4, node), get16(bytes + 10));
    return words;
}

const char *answer_words(int32_t answer, char words[WORDS])
{
    words[0] = '\0';
    ipxr_word(answer, (uint8_t *)words, WORDS);
    return words;
}

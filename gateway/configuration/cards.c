#include "configuration/cards.h"

#include <string.h>

#include "configuration/settings.h"
#include "systems/card.h"

/* Bytes of a line that names a card, and columns of a card's word. */
enum { LINE = 32 + CARD_NAME_ROOM, WORD_WIDTH = CARD_WORD_ROOM - 1 };

/* ---- Names ---- */

enum { NO_LETTER = 4 };

/* How many bytes stand behind the first of a letter in UTF-8, or that none begins so. */
static int bytes_behind(unsigned char first)
{
    if (first < 0x80)
        return 0;
    if (first < 0xC2 || first > 0xF4)
        return NO_LETTER;
    return first < 0xE0 ? 1 : first < 0xF0 ? 2 : 3;
}

/* The number of the letter with which a text begins; tells how many bytes it has. Where it is no letter, these are 1 and the number is 0. */
static unsigned long letter_at(const char *text, size_t *bytes)
{
    static const unsigned char MASKS[] = {0x7F, 0x1F, 0x0F, 0x07};
    static const unsigned long LEAST[] = {0, 0x80, 0x800, 0x10000};
    int behind = bytes_behind((unsigned char)text[0]), k = 1;
    *bytes = 1;
    if (behind == NO_LETTER)
        return 0;
    unsigned long letter = (unsigned char)text[0] & MASKS[behind];
    for (; k <= behind && ((unsigned char)text[k] & 0xC0) == 0x80; k++)
        letter = letter << 6 | ((unsigned char)text[k] & 0x3F);
    if (k <= behind || letter < LEAST[behind])
        return 0;
    *bytes = (size_t)k;
    return letter;
}

/* What a terminal obeys or doesn't show: control characters, what turns the direction in which a line is read, what isn't seen, and what is
 * no letter of its own. */
static const struct {
    unsigned long first, last;
} HIDDEN[] = {
    {0, 0x1F}, {0x7F, 0x9F}, {0xAD, 0xAD}, {0x34F, 0x34F}, {0x61C, 0x61C}, {0x115F, 0x1160}, {0x17B4, 0x17B5}, {0x180B, 0x180F},
    {0x200B, 0x200F}, {0x2028, 0x202E}, {0x2060, 0x206F}, {0x2800, 0x2800}, {0x3164, 0x3164}, {0xD800, 0xDFFF},
    {0xFEFF, 0xFEFF}, {0xFFA0, 0xFFA0}, {0xFFF0, 0xFFFF}, {0xE0000, ~0ul},
};

static bool is_shown(unsigned long letter)
{
    size_t k = 0;
    while (letter > HIDDEN[k].last)
        k++;
    return letter < HIDDEN[k].first;
}

/* Whether a letter stands for itself where a name is printed. */
static bool is_plain_at(const char *name, size_t *bytes)
{
    return is_shown(letter_at(name, bytes)) && *name != '\\';
}

static bool is_plain(const char *name)
{
    size_t bytes = 0;
    while (*name != '\0' && is_plain_at(name, &bytes))
        name += bytes;
    return *name == '\0';
}

/* Prints a name: letters as they are; what a terminal would obey, and what is no text, by its bytes' numbers. Returns how many columns it took,
 * as far as each letter takes one. */
static int show_name(FILE *file, const char *name)
{
    int columns = 0;
    size_t bytes;
    for (; *name != '\0'; name += bytes) {
        bool is_letter = is_plain_at(name, &bytes);
        bytes = is_letter ? bytes : 1;
        columns += is_letter ? 1 : 4;
        if (is_letter)
            fprintf(file, "%.*s", (int)bytes, name);
        else
            fprintf(file, "\\x%02X", (unsigned char)*name);
    }
    return columns;
}

/* ---- The list ---- */

/* Whether a configuration may name a card so: by its own reader, which reads the same name. (what would be shown by numbers can't be typed) */
static bool can_be_named(const char *name)
{
    char line[LINE];
    ipxr_setting said;
    if (!is_plain(name))
        return false;
    int length = snprintf(line, sizeof line, "link interface %s raw", name);
    return ipxr_settings_line((const uint8_t *)line, (size_t)length, has_cards(), false, 0, &said) == 0 &&
           strcmp((const char *)said.link.name, name) == 0;
}

static const char *word_of(const card_listed *it)
{
    return can_be_named(it->name) ? it->name : it->other[0] != '\0' ? it->other : "-";
}

static const char *state_words(card_state state)
{
    switch (state) {
    case CARD_UP:
        return "up";
    case CARD_OFF:
        return "off";
    case CARD_UNPLUGGED:
        return "no carrier";
    case CARD_ABSENT:
        return "not there";
    default:
        return "unknown";
    }
}

static void show_card(FILE *file, const card_listed *it)
{
    const uint8_t *at = it->card;
    int columns = show_name(file, word_of(it)), blanks = columns < WORD_WIDTH ? WORD_WIDTH - columns : 0;
    fprintf(file, "%*s %-10s ", blanks, "", state_words(it->state));
    fprintf(file, "%02X%02X%02X%02X%02X%02X ", at[0], at[1], at[2], at[3], at[4], at[5]);
    show_name(file, it->name);
    fputc('\n', file);
}

void cards_show(FILE *file)
{
    static card_listed list[MOST_CARDS_LISTED];
    size_t count = cards_list(list, MOST_CARDS_LISTED);
    const char *lacks = cards_lack();
    if (count > 0)
        fprintf(file, "%-*s %-10s %-12s %s\n", WORD_WIDTH, "INTERFACE", "STATE", "ADDRESS", "NAME");
    for (size_t k = 0; k < count; k++)
        show_card(file, &list[k]);
    if (count == 0 && lacks == NULL)
        fputs("there are no Ethernet cards\n", file);
    if (count == MOST_CARDS_LISTED)
        fprintf(file, "there may be more: no more than %d are listed\n", MOST_CARDS_LISTED);
    if (lacks != NULL)
        fprintf(file, "%s\n", lacks);
}

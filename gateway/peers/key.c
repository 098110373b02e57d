#include "peers/key.h"

#include <ctype.h>
#include <errno.h>
#include <string.h>

#include "systems/system.h"

enum {
    DIGITS = 2 * KEY,
    MOST_TEXT = DIGITS + 64, /* bytes of a file that are looked at: spaces and ends of lines may be around the digits */
};

static int digit(char letter)
{
    static const char DIGIT[] = "0123456789abcdef";
    const char *found = letter != '\0' ? strchr(DIGIT, tolower((unsigned char)letter)) : NULL;
    return found != NULL ? (int)(found - DIGIT) : -1;
}

/* Whether a text is a key, and nothing else. */
static bool take(const char *text, uint8_t key[KEY])
{
    text += strspn(text, " \t\r\n");
    for (size_t k = 0; k < KEY; k++) {
        int high = digit(text[0]), low = high >= 0 ? digit(text[1]) : -1;
        if (low < 0)
            return false;
        key[k] = (uint8_t)(high << 4 | low);
        text += 2;
    }
    return text[strspn(text, " \t\r\n")] == '\0';
}

/* The same of a file that is open. */
static const char *read_open(FILE *file, uint8_t key[KEY])
{
    char text[MOST_TEXT + 1] = "";
    errno = 0;
    if (!file_is_secret(file))
        return "others may read the key file: chmod 600 it";
    size_t length = fread(text, 1, MOST_TEXT, file);
    if (ferror(file))
        return "can't read the key file";
    errno = 0;
    bool is_key = length < MOST_TEXT && strlen(text) == length && take(text, key);
    return is_key ? NULL : "the key file hasn't 64 hexadecimal digits: `ipxr-gateway key` makes some";
}

const char *key_read(const char *name, uint8_t key[KEY])
{
    FILE *file = file_open_at_once(name);
    if (file == NULL)
        return "can't open the key file";
    const char *wrong = read_open(file, key);
    int why = errno;
    fclose(file);
    errno = why;
    return wrong;
}

bool key_print(FILE *file)
{
    uint8_t key[KEY];
    if (!system_random(key, sizeof key))
        return false;
    for (size_t k = 0; k < KEY; k++)
        fprintf(file, "%02x", key[k]);
    fputc('\n', file);
    return true;
}

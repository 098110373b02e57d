#include "monitoring/web_address.h"

#include <stdio.h>
#include <string.h>

#include "configuration/reader.h"
#include "ipxr_settings.h"

enum { LINE_FOR_ADDRESS = 96, MOST_NAME = HOST_ROOM - 1 };

#define DIGITS "0123456789"
#define HEXADECIMAL DIGITS "abcdefABCDEF"
#define OF_NAMES "abcdefghijklmnopqrstuvwxyzABCDEFGHIJKLMNOPQRSTUVWXYZ" DIGITS "-._"

/* Whether some bytes are such characters alone, at least one. */
static bool are_all(const char *bytes, size_t count, const char *characters)
{
    size_t k = 0;
    while (k < count && bytes[k] != '\0' && strchr(characters, bytes[k]) != NULL)
        k++;
    return count > 0 && k == count;
}

/* ---- What the command line says ---- */

/* Reads an address of so many bytes. (the library reads lines: in this one an address and a port stand as they do here) */
static bool read_address(const char *words, size_t length, address *at)
{
    char line[LINE_FOR_ADDRESS];
    ipxr_setting said;
    if (!are_all(words, length, HEXADECIMAL "[]:."))
        return false;
    int count = snprintf(line, sizeof line, "link qemu-tcp listen %.*s raw", (int)length, words);
    if (count < 0 || (size_t)count >= sizeof line || ipxr_settings_line((const uint8_t *)line, (size_t)count, 0, 0, 1, &said) != 0)
        return false;
    *at = address_said(&said.link.local);
    return true;
}

/* The names behind the address, each behind its comma: the next one, or NULL; its length goes into `length`. */
static const char *next_name(const char *rest, size_t *length)
{
    if (*rest != ',')
        return NULL;
    *length = strcspn(rest + 1, ",");
    return rest + 1;
}

bool web_address_read(const char *words, address *at)
{
    size_t length = strcspn(words, ",");
    bool is_right = read_address(words, length, at);
    const char *name = words + length;
    while (is_right && (name = next_name(name, &length)) != NULL) {
        is_right = length <= MOST_NAME && are_all(name, length, OF_NAMES);
        name += length;
    }
    return is_right;
}

/* ---- What a browser asks for ---- */

/* (a name without letters is none: it was refused) */
static bool is_named(const char *words, const piece *host)
{
    char text[HOST_ROOM] = "";
    size_t count;
    const char *name = words + strcspn(words, ",");
    while (!piece_is_like(host, text) && (name = next_name(name, &count)) != NULL) {
        memcpy(text, name, count);
        text[count] = '\0';
        name += count;
    }
    return name != NULL;
}

/* (a name has no brackets, so what stands in such is an address, or nothing at all) */
static bool is_numeric(const char *host, size_t length)
{
    ipxr_setting_range range;
    if (length > 2 && host[0] == '[' && host[length - 1] == ']')
        return are_all(host + 1, length - 2, HEXADECIMAL ":.");
    return are_all(host, length, DIGITS ".") && ipxr_settings_range((const uint8_t *)host, length, &range);
}

/* A host without its port. */
static piece before_port(const piece *host)
{
    size_t count = host->length;
    while (count > 0 && are_all(host->text + count - 1, 1, DIGITS))
        count--;
    bool has_port = count > 0 && host->text[count - 1] == ':';
    return (piece){host->text, has_port ? count - 1 : host->length};
}

bool web_address_has(const char *words, const piece *host)
{
    piece it = before_port(host);
    return it.length > 0 && (is_numeric(it.text, it.length) || piece_is_like(&it, "localhost") || is_named(words, &it));
}

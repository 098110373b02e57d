/* system.h, machine.h and orders.h of a made-up system. */
#define _GNU_SOURCE
#include "files.h"

#include <errno.h>
#include <stdio.h>
#include <stdlib.h>
#include <string.h>

#include "chance.h"
#include "outside.h"
#include "peace.h"
#include "places.h"
#include "play.h"
#include "systems/keeping.h"
#include "systems/machine.h"
#include "systems/orders.h"
#include "systems/system.h"
#include "weather.h"

static const int OF_OPENING[] = {EMFILE, ENFILE, ENOMEM, ENOENT, EACCES, 0};
static const int OF_READING[] = {EIO, ENOMEM, EISDIR, 0};
static const int OF_RANDOM[] = {ENOSYS, EINTR, 0};

static size_t open_now;
static bool is_over, is_asked, is_to_read;

size_t files_open(void)
{
    return open_now;
}

/* ---- Files ---- */

int __real_fclose(FILE *file);
int __wrap_fclose(FILE *file);

static FILE *noted(FILE *file)
{
    if (file == NULL)
        wrong("the test itself has no file");
    open_now++;
    return file;
}

int __wrap_fclose(FILE *file)
{
    open_now--;
    int became = __real_fclose(file);
    if (the_weather.calls > 0 && one_in(the_weather.calls)) {
        errno = ENOSPC;
        return EOF;
    }
    return became;
}

void own_close(FILE *file)
{
    if (file != NULL)
        __real_fclose(file);
}

/* Gives nothing, and says why. */
static ssize_t give_nothing(void *with, char *bytes, size_t count)
{
    (void)with;
    (void)bytes;
    (void)count;
    return -1;
}

/* A configuration as it is, or one that can't be read. */
static FILE *configuration(const char *text, const char *how)
{
    static const cookie_io_functions_t SPOILT = {.read = give_nothing};
    if (fails(OF_READING))
        return fopencookie(NULL, how, SPOILT);
    return text[0] != '\0' ? fmemopen((char *)text, strlen(text), how) : fopen("/dev/null", how);
}

FILE *file_open(const char *name, const char *how)
{
    if (fails(OF_OPENING))
        return NULL;
    if (how[0] == 'w')
        return fopen("/dev/null", how); /* (the writer keeps it) */
    const char *text = outside_configuration();
    if (strcmp(name, PLACES_KEY) == 0)
        return noted(fmemopen((char *)PLACES_KEY_TEXT, strlen(PLACES_KEY_TEXT), how));
    errno = ENOENT;
    if (strcmp(name, "made-up.conf") != 0)
        return NULL;
    return noted(configuration(text, how));
}

FILE *file_open_at_once(const char *name)
{
    return file_open(name, "rb");
}

/* (who it belongs to may change) */
bool file_is_secret(FILE *file)
{
    return file != NULL && (is_peace() || !one_in(30));
}

/* (each time the same of a seed: a thread has it until the program ends) */
bool file_is_fifo(const char *name)
{
    (void)name;
    return the_play.seed % 4 == 1;
}

FILE *text_open(char **text, size_t *length)
{
    return fails(OF_OPENING) ? NULL : noted(open_memstream(text, length));
}

void text_close(FILE *file, char **text, size_t *length)
{
    (void)text;
    (void)length;
    fclose(file);
}

bool system_random(uint8_t *bytes, size_t count)
{
    if (fails(OF_RANDOM))
        return false;
    chance_bytes(bytes, count);
    return true;
}

/* ---- What is kept ---- */

/* A file with a key, of the one that there is; a folder of a seed is there or not. */
static struct {
    uint8_t bytes[16];
    bool is_there, is_used; /* the gateway that runs has read or written it */
} key_file;

static bool has_folder(void)
{
    return the_play.seed % 3 != 0;
}

bool is_right_key(const uint8_t key[16])
{
    static const uint8_t NONE[16] = {0};
    return memcmp(key, NONE, sizeof NONE) != 0 && (!key_file.is_used || memcmp(key, key_file.bytes, sizeof key_file.bytes) == 0);
}

kept keeping_read(const char *name, uint8_t *bytes, size_t count)
{
    (void)name;
    key_file.is_used = false;
    if (!has_folder())
        return HAS_NO_FOLDER;
    if (fails(OF_READING))
        return CANT_BE_KEPT;
    if (one_in(20) || count != sizeof key_file.bytes)
        return IS_ANOTHER;
    key_file.is_used = key_file.is_there;
    if (!key_file.is_there)
        return IS_NOT_YET;
    memcpy(bytes, key_file.bytes, count);
    return IS_KEPT;
}

kept keeping_write(const char *name, const uint8_t *bytes, size_t count)
{
    (void)name;
    if (fails(OF_OPENING))
        return CANT_BE_KEPT;
    memcpy(key_file.bytes, bytes, count);
    key_file.is_there = key_file.is_used = true;
    return IS_KEPT;
}

const char *fault_words(void)
{
    return strerror(errno);
}

void machine_words(char *words, size_t room)
{
    snprintf(words, room, "a made-up machine");
}

/* ---- Orders ---- */

void orders_begin(void)
{
    is_over = is_asked = is_to_read = false;
}

void order_end(void)
{
    is_over = true;
}

void order_report(void)
{
    is_asked = true;
}

void order_read(void)
{
    is_to_read = true;
}

void orders_hear(void)
{
}

bool is_told_to_end(void)
{
    return !outside_goes_on() || is_over;
}

bool is_asked_to_report(void)
{
    bool was_asked = is_asked;
    is_asked = false;
    return was_asked;
}

bool is_told_to_read(void)
{
    bool was_told = is_to_read;
    is_to_read = false;
    return was_told;
}

/* What the program asks of the system beside the C library and include/heap.c, on Windows: the words of its call, files and streams, and
 * the number of the last fault. tools/lib/targets.py names these functions.
 *
 * A word and a file's name are UTF-8, as on Linux. A file and a pipe give and take bytes as they are. At a console a line ends as
 * everywhere, and Ctrl-Z at the beginning of a line ends the input. */
#include <errno.h>
#include <fcntl.h>
#include <io.h>
#include <limits.h>
#include <stdint.h>
#include <string.h>
#include <windows.h>

/* The numbers of the streams. */
enum { STANDARD_INPUT, STANDARD_OUTPUT, STANDARD_ERROR };

enum {
    MOST_LETTERS = 32768,          /* Windows hands over no longer call */
    MOST_TEXT = 3 * MOST_LETTERS,  /* bytes of UTF-8 for so many */
    MOST_NAME = 32768,             /* letters of a file's name */
    ACCESS = 3, READING = 0,       /* of Linux' flags for opening: how a file may be used, and that it is only read */
    AT_ONCE_TO_CONSOLE = 16384,    /* bytes: older ones refuse more than twice as many */
    CTRL_Z = 0x1A,
    END_OF_CTRL_C = 5000,          /* milliseconds: much more than the system takes to end the program */
};

/* The words are taken as they were typed: a * in one stands for itself, as in a file's name on Linux. */
int _dowildcard = 0;

/* The program's words, each with a 0 behind it. */
static char texts[MOST_TEXT];
static size_t word_count;

/* The program itself, compiled from its module. */
int32_t host_main(void);

/* ---- Words ---- */

/* Writes a word as UTF-8, and a 0. One that is no text becomes a byte that no text has. Returns its bytes, or 0 where there is no room. */
static int put_word(const wchar_t *word, char *to, int room)
{
    int length = WideCharToMultiByte(CP_UTF8, WC_ERR_INVALID_CHARS, word, -1, to, room, NULL, NULL);
    if (length == 0 && GetLastError() == ERROR_NO_UNICODE_TRANSLATION && room >= 2) {
        memcpy(to, "\xFF", 2);
        length = 2;
    }
    return length;
}

static void keep_words(int count, wchar_t **words)
{
    size_t used = 0;
    for (int k = 0; k < count; k++) {
        int length = put_word(words[k], texts + used, (int)(sizeof texts - used));
        if (length == 0)
            return;
        used += (size_t)length;
        word_count++;
    }
}

/* Copies a word. Returns its length; -1 if there is none of that number, -2 if it is longer than the room, which is then full. */
intptr_t rattle_arg(size_t number, uint8_t *buffer, size_t room)
{
    const char *word = texts;
    if (number >= word_count)
        return -1;
    for (size_t k = 0; k < number; k++)
        word += strlen(word) + 1;
    size_t length = strlen(word);
    memcpy(buffer, word, length < room ? length : room);
    return length <= room ? (intptr_t)length : -2;
}

/* ---- Files and streams ---- */

int32_t host_open(const char *name, int32_t flags, ...)
{
    static wchar_t letters[MOST_NAME];
    if ((flags & ACCESS) != READING) {
        errno = EACCES;
        return -1;
    }
    if (MultiByteToWideChar(CP_UTF8, MB_ERR_INVALID_CHARS, name, -1, letters, MOST_NAME) == 0) {
        errno = ENOENT;
        return -1;
    }
    return _wopen(letters, _O_RDONLY | _O_BINARY | _O_NOINHERIT);
}

int32_t host_close(int32_t file)
{
    return _close(file);
}

static int is_console(int file)
{
    DWORD mode;
    return GetConsoleMode((HANDLE)_get_osfhandle(file), &mode) != 0;
}

/* What a console gives of a line. Ctrl-Z at the beginning of one is its end, and no line comes behind it. */
static int read_console(int file, char *buffer, unsigned room)
{
    static int is_within_line, has_ended;
    SetLastError(ERROR_SUCCESS);
    int count = has_ended ? 0 : _read(file, buffer, room);
    /* (Ctrl-C ends a line without letters, before the system ends the program: that isn't the end of the input) */
    if (count <= 0 && GetLastError() == ERROR_OPERATION_ABORTED)
        Sleep(END_OF_CTRL_C);
    has_ended = has_ended || count == 0 || (count > 0 && !is_within_line && buffer[0] == CTRL_Z);
    is_within_line = count > 0 && buffer[count - 1] != '\n';
    return has_ended ? 0 : count;
}

int64_t host_read(int32_t file, void *buffer, size_t room)
{
    unsigned most = room < INT_MAX ? (unsigned)room : INT_MAX;
    return is_console(file) ? read_console(file, buffer, most) : _read(file, buffer, most);
}

int64_t host_write(int32_t file, const void *bytes, size_t length)
{
    size_t most = is_console(file) ? AT_ONCE_TO_CONSOLE : INT_MAX;
    return _write(file, bytes, (unsigned)(length < most ? length : most));
}

/* ---- Faults ---- */

int32_t rattle_errno(void)
{
    return errno;
}

void rattle_set_errno(int32_t number)
{
    errno = number;
}

/* A write to a pipe that nobody reads fails here, and ends nothing: there is no signal to be ignored. */
int64_t host_sysv_signal(int32_t number, int64_t does)
{
    (void)number;
    (void)does;
    return 0;
}

int wmain(int count, wchar_t **words)
{
    keep_words(count, words);
    _setmode(STANDARD_INPUT, _O_BINARY);
    _setmode(STANDARD_OUTPUT, _O_BINARY);
    _setmode(STANDARD_ERROR, _O_BINARY);
    return host_main();
}

#include "systems/writer.h"

#include <errno.h>
#include <io.h>

#include "systems/windows/net.h"

enum { SECOND = 1000 /* milliseconds */, MOST = 4096 /* bytes that are written at once */ };

static struct {
    HANDLE file;
    CRITICAL_SECTION lock;
    CONDITION_VARIABLE woken;
    void (*write_on)(writer which);
    writer which;
} writers[WRITERS];

static DWORD WINAPI run(void *given)
{
    writer which = *(writer *)given;
    writers[which].write_on(which);
    return 0;
}

/* (where there is no console, the C library knows no file of the first two) */
static HANDLE handle_of(writer which, FILE *file)
{
    if (which == CAPTURE)
        return (HANDLE)_get_osfhandle(_fileno(file));
    return GetStdHandle(which == OUTPUT ? STD_OUTPUT_HANDLE : STD_ERROR_HANDLE);
}

bool writer_begin(writer which, FILE *file, void (*write_on)(writer which))
{
    writers[which].file = handle_of(which, file);
    writers[which].which = which;
    writers[which].write_on = write_on;
    InitializeCriticalSection(&writers[which].lock);
    InitializeConditionVariable(&writers[which].woken);
    HANDLE thread = CreateThread(NULL, 0, run, &writers[which].which, 0, NULL);
    if (thread == NULL) {
        errno = EAGAIN;
        return false;
    }
    CloseHandle(thread);
    return true;
}

/* (file_is_fifo says that there is none) */
bool writer_begin_fifo(writer which, const char *name, void (*write_on)(writer which))
{
    (void)which;
    (void)name;
    (void)write_on;
    errno = ENOSYS;
    return false;
}

void writer_lock(writer which)
{
    EnterCriticalSection(&writers[which].lock);
}

void writer_unlock(writer which)
{
    LeaveCriticalSection(&writers[which].lock);
}

void writer_wait(writer which)
{
    (void)SleepConditionVariableCS(&writers[which].woken, &writers[which].lock, INFINITE);
}

void writer_wake(writer which)
{
    WakeAllConditionVariable(&writers[which].woken);
}

void writer_rest(int milliseconds)
{
    Sleep((DWORD)milliseconds);
}

/* The bytes of a writer, lines with Windows' ends. Returns how many these are. */
static DWORD with_ends(writer which, const char *bytes, size_t count, char *words)
{
    DWORD length = 0;
    for (size_t k = 0; k < count; k++) {
        if (which != CAPTURE && bytes[k] == '\n')
            words[length++] = '\r';
        words[length++] = bytes[k];
    }
    return length;
}

/* (without the C library's stream, whose lock would be held while the program ends) */
ssize_t writer_write(writer which, const char *bytes, size_t count)
{
    char words[2 * MOST];
    size_t piece = count < MOST ? count : MOST;
    DWORD length = with_ends(which, bytes, piece, words), taken = 0, written = 0;
    while (taken < length && WriteFile(writers[which].file, words + taken, length - taken, &written, NULL))
        taken += written;
    if (taken == length)
        return (ssize_t)piece;
    DWORD why = GetLastError();
    bool is_read = why != ERROR_BROKEN_PIPE && why != ERROR_NO_DATA && why != ERROR_INVALID_HANDLE;
    errno = is_read ? ENOSPC : EPIPE;
    if (!is_read || which == CAPTURE)
        return -1;
    Sleep(SECOND);
    return taken > 0 ? (ssize_t)piece : 0;
}

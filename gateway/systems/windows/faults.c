/* What Winsock complains of, by the numbers of errno and in the words that Linux has for them; and other faults. */
#include "systems/windows/faults.h"

#include <errno.h>
#include <stdio.h>
#include <string.h>

#include "systems/system.h"
#include "systems/windows/net.h"

static const struct {
    int of_winsock, number;
    const char *words;
} FAULTS[] = {
    {WSAEWOULDBLOCK, EAGAIN, "Resource temporarily unavailable"},
    {WSAEINTR, EINTR, "Interrupted system call"},
    {WSAEACCES, EACCES, "Permission denied"},
    {WSAEMFILE, EMFILE, "Too many open files"},
    {WSAENOBUFS, ENOBUFS, "No buffer space available"},
    {WSAEADDRINUSE, EADDRINUSE, "Address already in use"},
    {WSAEADDRNOTAVAIL, EADDRNOTAVAIL, "Cannot assign requested address"},
    {WSAEAFNOSUPPORT, EAFNOSUPPORT, "Address family not supported by protocol"},
    {WSAENETDOWN, ENETDOWN, "Network is down"},
    {WSAENETUNREACH, ENETUNREACH, "Network is unreachable"},
    {WSAEHOSTUNREACH, EHOSTUNREACH, "No route to host"},
    {WSAECONNRESET, ECONNRESET, "Connection reset by peer"},
    {WSAECONNREFUSED, ECONNREFUSED, "Connection refused"},
    {WSAETIMEDOUT, ETIMEDOUT, "Connection timed out"},
    {WSAEPROTOTYPE, EPROTOTYPE, "Protocol wrong type for socket"},
};
enum { FAULT_COUNT = sizeof FAULTS / sizeof *FAULTS };

/* (one that isn't here keeps Winsock's number, which is none of errno's) */
void keep_fault(void)
{
    int fault = WSAGetLastError();
    size_t k = 0;
    while (k < FAULT_COUNT && FAULTS[k].of_winsock != fault)
        k++;
    errno = k < FAULT_COUNT ? FAULTS[k].number : fault;
}

/* ---- Faults that are told in words ---- */

enum { FIRST_TOLD = 20000, MOST_TOLD = 16, TOLD_ROOM = 160 };

/* (cards are heard by threads of their own, which tell faults too) */
static struct {
    char words[MOST_TOLD][TOLD_ROOM];
    unsigned next;
    SRWLOCK lock;
} told = {.lock = SRWLOCK_INIT};

/* How long words are without the blanks, and the ends of lines, behind them. */
static size_t length_of(const char *words)
{
    size_t length = strlen(words);
    while (length > 0 && (unsigned char)words[length - 1] <= ' ')
        length--;
    return length < TOLD_ROOM ? length : TOLD_ROOM - 1;
}

/* Copies words, as far as there is room. */
static void put_visible(char to[TOLD_ROOM], const char *words)
{
    size_t length = length_of(words);
    for (size_t k = 0; k < length; k++)
        to[k] = words[k] > ' ' && words[k] < 127 ? words[k] : ' ';
    to[length] = '\0';
}

int fault_of_words(const char *words)
{
    char visible[TOLD_ROOM];
    unsigned k = 0;
    put_visible(visible, words);
    AcquireSRWLockExclusive(&told.lock);
    while (k < MOST_TOLD && strcmp(told.words[k], visible) != 0)
        k++;
    if (k == MOST_TOLD) {
        k = told.next++ % MOST_TOLD;
        strcpy(told.words[k], visible);
    }
    ReleaseSRWLockExclusive(&told.lock);
    return FIRST_TOLD + (int)k;
}

int fault_of_windows(unsigned long number)
{
    char words[40];
    switch (number) {
    case ERROR_FILE_NOT_FOUND:
    case ERROR_PATH_NOT_FOUND:
        return ENOENT;
    case ERROR_ACCESS_DENIED:
        return EACCES;
    case ERROR_NOT_ENOUGH_MEMORY:
        return ENOMEM;
    case ERROR_INVALID_NAME:
        return EINVAL;
    }
    snprintf(words, sizeof words, "Windows error %lu", number);
    return fault_of_words(words);
}

/* ---- In words ---- */

/* A copy of words that were told: a thread may tell others at their place. */
static const char *words_told(int number)
{
    static char copy[TOLD_ROOM];
    AcquireSRWLockExclusive(&told.lock);
    strcpy(copy, told.words[number - FIRST_TOLD]);
    ReleaseSRWLockExclusive(&told.lock);
    return copy;
}

const char *fault_words(void)
{
    static char unknown[40];
    if (errno >= FIRST_TOLD && errno < FIRST_TOLD + MOST_TOLD)
        return words_told(errno);
    for (size_t k = 0; k < FAULT_COUNT; k++)
        if (FAULTS[k].number == errno)
            return FAULTS[k].words;
    if (errno < WSABASEERR)
        return strerror(errno);
    snprintf(unknown, sizeof unknown, "Windows Sockets error %d", errno);
    return unknown;
}

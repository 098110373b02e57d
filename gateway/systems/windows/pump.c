#include "systems/windows/pump.h"

#include <stdlib.h>

enum {
    PIECE = 4096,
    MOMENTS = 10,         /* milliseconds from one look to the next whether all have ended */
    TIME_TO_TAKE = 60000, /* milliseconds in which the other end of a pipe takes something of what is for it */
};

/* Two threads, one for each way. */
typedef struct pump {
    HANDLE pipe, places;
    SOCKET socket;
    HANDLE is_over;       /* an event: nothing more comes on the socket, or goes by the pipe */
    HANDLE came, went;    /* events: what was to be read is, what was to be written is */
    volatile LONG threads;
} pump;

/* Threads that pump. */
static volatile LONG pumping;

void pumps_end(int milliseconds)
{
    for (int waited = 0; pumping > 0 && waited < milliseconds; waited += MOMENTS)
        Sleep(MOMENTS);
}

static void close_handle(HANDLE it)
{
    if (it != NULL)
        CloseHandle(it);
}

/* The last thread lets go of all. */
static void leave(pump *it)
{
    if (InterlockedDecrement(&it->threads) > 0)
        return;
    CloseHandle(it->pipe);
    closesocket(it->socket);
    close_handle(it->is_over);
    close_handle(it->came);
    close_handle(it->went);
    if (it->places != NULL)
        ReleaseSemaphore(it->places, 1, NULL);
    free(it);
}

/* ---- Each way ---- */

/* How many bytes a call on the pipe has moved, which was begun; it is waited for, so many milliseconds, unless the pump is over. Returns 0
 * where none could be. */
static DWORD moved(pump *it, OVERLAPPED *call, BOOL is_done, HANDLE stops, DWORD milliseconds)
{
    HANDLE either[] = {call->hEvent, stops};
    DWORD count = 0;
    if (!is_done && GetLastError() != ERROR_IO_PENDING)
        return 0;
    if (WaitForMultipleObjects(stops != NULL ? 2 : 1, either, FALSE, milliseconds) != WAIT_OBJECT_0)
        CancelIoEx(it->pipe, call);
    return GetOverlappedResult(it->pipe, call, &count, TRUE) ? count : 0;
}

static DWORD read_some(pump *it, char *bytes)
{
    OVERLAPPED call = {.hEvent = it->came};
    BOOL is_done = ReadFile(it->pipe, bytes, PIECE, NULL, &call);
    return moved(it, &call, is_done, it->is_over, INFINITE);
}

static DWORD write_some(pump *it, const char *bytes, DWORD count)
{
    OVERLAPPED call = {.hEvent = it->went};
    BOOL is_done = WriteFile(it->pipe, bytes, count, NULL, &call);
    return moved(it, &call, is_done, NULL, TIME_TO_TAKE);
}

static bool is_sent(SOCKET to, const char *bytes, int count)
{
    int sent = 0, more = 1;
    while (sent < count && more > 0) {
        more = send(to, bytes + sent, count - sent, 0);
        sent += more;
    }
    return more > 0;
}

static bool is_written(pump *it, const char *bytes, DWORD count)
{
    DWORD written = 0, more = 1;
    while (written < count && more > 0) {
        more = write_some(it, bytes + written, count - written);
        written += more;
    }
    return more > 0;
}

static DWORD WINAPI run_in(void *given)
{
    pump *it = given;
    char bytes[PIECE];
    DWORD count;
    do
        count = read_some(it, bytes);
    while (count > 0 && is_sent(it->socket, bytes, (int)count));
    shutdown(it->socket, SD_SEND);
    leave(it);
    InterlockedDecrement(&pumping);
    return 0;
}

static DWORD WINAPI run_out(void *given)
{
    pump *it = given;
    char bytes[PIECE];
    int count;
    do
        count = recv(it->socket, bytes, sizeof bytes, 0);
    while (count > 0 && is_written(it, bytes, (DWORD)count));
    SetEvent(it->is_over);
    leave(it);
    InterlockedDecrement(&pumping);
    return 0;
}

/* ---- Beginning ---- */

static int port_at(SOCKET fd, int (WSAAPI *which)(SOCKET, struct sockaddr *, int *))
{
    struct sockaddr_in at = {.sin_family = AF_INET};
    int size = sizeof at;
    return which(fd, (struct sockaddr *)&at, &size) == 0 ? at.sin_port : -1;
}

/* Whoever connects there first may be another program of this machine. */
static SOCKET taken(SOCKET listener, SOCKET outer)
{
    int port = port_at(outer, getsockname);
    SOCKET came = accept(listener, NULL, NULL);
    while (came != INVALID_SOCKET && port_at(came, getpeername) != port) {
        closesocket(came);
        came = accept(listener, NULL, NULL);
    }
    return came;
}

/* Connects two sockets with each other. Returns the one, and tells the other. */
static SOCKET paired(SOCKET listener, SOCKET *other)
{
    struct sockaddr_in at = {.sin_family = AF_INET, .sin_addr.s_addr = htonl(INADDR_LOOPBACK)};
    int size = sizeof at;
    SOCKET one = socket(AF_INET, SOCK_STREAM, 0);
    bool is_made = one != INVALID_SOCKET && bind(listener, (struct sockaddr *)&at, size) == 0 && listen(listener, 1) == 0 &&
                   getsockname(listener, (struct sockaddr *)&at, &size) == 0 && connect(one, (struct sockaddr *)&at, size) == 0;
    *other = is_made ? taken(listener, one) : INVALID_SOCKET;
    if (*other != INVALID_SOCKET)
        return one;
    if (one != INVALID_SOCKET)
        closesocket(one);
    return INVALID_SOCKET;
}

static SOCKET socket_pair(SOCKET *other)
{
    SOCKET listener = socket(AF_INET, SOCK_STREAM, 0);
    if (listener == INVALID_SOCKET)
        return INVALID_SOCKET;
    SOCKET one = paired(listener, other);
    closesocket(listener);
    return one;
}

static HANDLE event_made(void)
{
    return CreateEventW(NULL, TRUE, FALSE, NULL);
}

/* A thread, which leaves where it ends. */
static bool begins(pump *it, DWORD(WINAPI *run)(void *))
{
    InterlockedIncrement(&pumping);
    HANDLE thread = CreateThread(NULL, 0, run, it, 0, NULL);
    if (thread == NULL)
        InterlockedDecrement(&pumping);
    close_handle(thread);
    return thread != NULL;
}

/* Begins both threads. (where the second can't be had the first ends, since nothing more comes) */
static bool is_begun(pump *it)
{
    it->threads = 2;
    if (!begins(it, run_out)) {
        it->threads = 0;
        return false;
    }
    if (!begins(it, run_in))
        leave(it);
    return true;
}

SOCKET pump_begin(HANDLE pipe, HANDLE places)
{
    SOCKET outer = INVALID_SOCKET, inner = socket_pair(&outer);
    pump *it = inner != INVALID_SOCKET ? calloc(1, sizeof *it) : NULL;
    if (it != NULL) {
        *it = (pump){.pipe = pipe, .places = places, .socket = inner, .is_over = event_made(), .came = event_made(), .went = event_made()};
        if (it->is_over != NULL && it->came != NULL && it->went != NULL && is_begun(it))
            return outer;
        close_handle(it->is_over);
        close_handle(it->came);
        close_handle(it->went);
        free(it);
    }
    if (inner != INVALID_SOCKET) {
        closesocket(inner);
        closesocket(outer);
    }
    return INVALID_SOCKET;
}

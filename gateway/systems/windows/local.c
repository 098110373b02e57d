/* Windows has pipes with names in place of sockets with paths: they are in no folder, and are guarded by who may open them. A thread takes
 * those who come; from then on each is a socket, by a pump. */
#include "systems/local.h"

#include <errno.h>
#include <stdlib.h>
#include <string.h>

#include "systems/sockets.h"
#include "systems/windows/bell.h"
#include "systems/windows/faults.h"
#include "systems/windows/pump.h"
#include "systems/windows/text.h"
#include <sddl.h>

enum {
    MOST_PLACES = 16,       /* who are connected at once: whoever is the next waits */
    KEPT = 1 << 16,         /* bytes that a pipe keeps of an answer */
    KEPT_OF_QUESTION = 4096,
    REST = 1000,            /* milliseconds until it is tried again to have one more pipe, */
    LONGEST_WAIT = 20000,   /* for which one waits for a place, */
    LAST_WORDS = 500,       /* and in which those who are answered still take it, once the gateway ends */
};

static const char BEGINS[] = "\\\\.\\pipe\\";

/* (there is one gateway in a program) */
static struct {
    wchar_t *path;
    HANDLE next;    /* the pipe to which the next one connects */
    HANDLE places;  /* a semaphore: those that are free */
    HANDLE is_over; /* an event */
    SOCKET told;    /* a socket that hears itself: by it the thread tells the sockets of those who came */
    SECURITY_ATTRIBUTES rights;
} the = {.told = INVALID_SOCKET};

bool has_local(void)
{
    return true;
}

const char *local_usual(void)
{
    return "\\\\.\\pipe\\ipxr-gateway";
}

/* The path in Windows' letters; NULL where it can't be a pipe's, and then errno has the reason. */
static wchar_t *path_of(const char *path)
{
    if (_strnicmp(path, BEGINS, sizeof BEGINS - 1) != 0) {
        errno = fault_of_words("on Windows the path is that of a pipe, and begins with \\\\.\\pipe\\");
        return NULL;
    }
    wchar_t *wide = text_of_utf8(path);
    if (wide == NULL)
        errno = ENOMEM;
    return wide;
}

/* ---- Who may ask ---- */

/* The user who runs this program, as Windows writes its number in rights; the caller frees it. */
static wchar_t *own_number(void)
{
    union {
        TOKEN_USER user;
        char room[sizeof(TOKEN_USER) + SECURITY_MAX_SID_SIZE];
    } about;
    HANDLE token;
    DWORD size;
    wchar_t *words = NULL;
    if (!OpenProcessToken(GetCurrentProcess(), TOKEN_QUERY, &token))
        return NULL;
    if (GetTokenInformation(token, TokenUser, &about, sizeof about, &size))
        (void)ConvertSidToStringSidW(about.user.User.Sid, &words);
    CloseHandle(token);
    return words;
}

/* That user may do all with the pipe, and nobody else anything. */
static bool take_rights(void)
{
    wchar_t rights[256];
    wchar_t *number = own_number();
    if (number == NULL || wcslen(number) > 200)
        return false;
    wcscat(wcscat(wcscpy(rights, L"D:P(A;;GA;;;"), number), L")");
    LocalFree(number);
    the.rights = (SECURITY_ATTRIBUTES){.nLength = sizeof the.rights};
    return ConvertStringSecurityDescriptorToSecurityDescriptorW(rights, SDDL_REVISION_1, &the.rights.lpSecurityDescriptor, NULL) != 0;
}

/* ---- Those who come ---- */

/* One more pipe of the path; the first one only where there is none of anybody. (from other machines nobody comes) */
static HANDLE pipe_made(DWORD first)
{
    return CreateNamedPipeW(the.path, PIPE_ACCESS_DUPLEX | FILE_FLAG_OVERLAPPED | first,
        PIPE_TYPE_BYTE | PIPE_READMODE_BYTE | PIPE_WAIT | PIPE_REJECT_REMOTE_CLIENTS, PIPE_UNLIMITED_INSTANCES, KEPT, KEPT_OF_QUESTION, 0,
        &the.rights);
}

static bool is_over(DWORD milliseconds)
{
    return WaitForSingleObject(the.is_over, milliseconds) == WAIT_OBJECT_0;
}

/* Waits for a place, and for one who connects. Returns whether one has. */
static bool has_come(HANDLE connects)
{
    HANDLE place[] = {the.is_over, the.places}, comes[] = {the.is_over, connects};
    OVERLAPPED call = {.hEvent = connects};
    DWORD ignored;
    if (WaitForMultipleObjects(2, place, FALSE, INFINITE) != WAIT_OBJECT_0 + 1)
        return false;
    if (ConnectNamedPipe(the.next, &call) || GetLastError() != ERROR_IO_PENDING)
        return true; /* (whoever has gone already is heard to have) */
    if (WaitForMultipleObjects(2, comes, FALSE, INFINITE) == WAIT_OBJECT_0 + 1)
        return true;
    CancelIoEx(the.next, &call);
    (void)GetOverlappedResult(the.next, &call, &ignored, TRUE);
    return false;
}

/* The one who has come gets a socket, which the gateway is told. */
static void hand_over(HANDLE came)
{
    SOCKET made = pump_begin(came, the.places);
    int fd = (int)made;
    if (made == INVALID_SOCKET) {
        CloseHandle(came);
        ReleaseSemaphore(the.places, 1, NULL);
    } else if (send(the.told, (const char *)&fd, sizeof fd, 0) != sizeof fd) {
        closesocket(made);
    }
}

/* One more pipe, which is tried until there is one, or the gateway ends. */
static HANDLE next_pipe(void)
{
    HANDLE made = pipe_made(0);
    while (made == INVALID_HANDLE_VALUE && !is_over(REST))
        made = pipe_made(0);
    return made;
}

/* (the next pipe is there before the one who came may leave: whoever comes always finds one, and never none) */
static DWORD WINAPI take_all(void *connects)
{
    while (has_come(connects)) {
        HANDLE came = the.next;
        the.next = next_pipe();
        hand_over(came);
        ResetEvent(connects);
    }
    return 0;
}

static bool begins_to_take(void)
{
    HANDLE connects = CreateEventW(NULL, TRUE, FALSE, NULL);
    the.is_over = CreateEventW(NULL, TRUE, FALSE, NULL);
    the.places = CreateSemaphoreW(NULL, MOST_PLACES, MOST_PLACES, NULL);
    if (connects == NULL || the.is_over == NULL || the.places == NULL)
        return false;
    HANDLE thread = CreateThread(NULL, 0, take_all, connects, 0, NULL);
    if (thread != NULL)
        CloseHandle(thread);
    return thread != NULL;
}

/* Whether somebody has a pipe of the path. (Wine makes one more of it, also where the first is wanted) */
static bool is_taken(void)
{
    return WaitNamedPipeW(the.path, 1) || GetLastError() == ERROR_SEM_TIMEOUT;
}

/* The first pipe; else errno has the reason. */
static bool has_first_pipe(void)
{
    if (is_taken()) {
        errno = EADDRINUSE;
        return false;
    }
    the.next = take_rights() ? pipe_made(FILE_FLAG_FIRST_PIPE_INSTANCE) : INVALID_HANDLE_VALUE;
    /* (that is what Windows says of one that came in between) */
    if (the.next == INVALID_HANDLE_VALUE)
        errno = GetLastError() == ERROR_ACCESS_DENIED ? EADDRINUSE : fault_of_windows(GetLastError());
    return the.next != INVALID_HANDLE_VALUE;
}

/* (where it fails the program ends, and with it what was made) */
int local_open(const char *path)
{
    the.path = path_of(path);
    if (the.path == NULL || !has_first_pipe())
        return -1;
    the.told = socket_to_itself();
    if (the.told == INVALID_SOCKET) {
        keep_fault();
        return -1;
    }
    if (begins_to_take())
        return (int)the.told;
    errno = fault_of_windows(GetLastError());
    return -1;
}

/* (those who were answered last have a moment to take it) */
void local_close(int *fd, const char *path)
{
    (void)path;
    if (*fd < 0)
        return;
    *fd = -1;
    SetEvent(the.is_over);
    pumps_end(LAST_WORDS);
}

int local_take(int listener)
{
    int fd = -1;
    u_long yes = 1;
    if (recv((SOCKET)listener, (char *)&fd, sizeof fd, 0) != sizeof fd) {
        keep_fault();
        return -1;
    }
    (void)ioctlsocket((SOCKET)fd, FIONBIO, &yes);
    return fd;
}

ssize_t local_receive(int fd, uint8_t *bytes, size_t room)
{
    return connection_receive(fd, bytes, room);
}

void local_end(int *fd)
{
    close_any(fd);
}

/* ---- Asking ---- */

/* (who listens there learns nothing of who asks) */
static HANDLE pipe_opened(const wchar_t *path)
{
    DWORD how = FILE_FLAG_OVERLAPPED | SECURITY_SQOS_PRESENT | SECURITY_ANONYMOUS;
    return CreateFileW(path, GENERIC_READ | GENERIC_WRITE, 0, NULL, OPEN_EXISTING, how, NULL);
}

/* Connects to a pipe; where all places are taken, waits for one. */
static HANDLE connected(const wchar_t *path)
{
    ULONGLONG begun = GetTickCount64();
    HANDLE pipe = pipe_opened(path);
    while (pipe == INVALID_HANDLE_VALUE && GetLastError() == ERROR_PIPE_BUSY && GetTickCount64() - begun < LONGEST_WAIT) {
        (void)WaitNamedPipeW(path, REST);
        pipe = pipe_opened(path);
    }
    if (pipe == INVALID_HANDLE_VALUE)
        errno = GetLastError() == ERROR_PIPE_BUSY ? fault_of_words("too many ask at once") : fault_of_windows(GetLastError());
    return pipe;
}

int local_connect(const char *path)
{
    wchar_t *wide = path_of(path);
    HANDLE pipe = wide != NULL ? connected(wide) : INVALID_HANDLE_VALUE;
    free(wide);
    if (pipe == INVALID_HANDLE_VALUE)
        return -1;
    SOCKET made = pump_begin(pipe, NULL);
    if (made != INVALID_SOCKET)
        return (int)made;
    keep_fault();
    CloseHandle(pipe);
    return -1;
}

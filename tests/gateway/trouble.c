/* For the tests: the gateway with calls of the system that fail, and a clock that the test sets. It is linked in front of the system's
 * own by --wrap, so it goes along with the sanitizers.
 *
 *     TROUBLE_CALL=NAME TROUBLE_AT=N TROUBLE_ERRNO=E   the Nth call of that name fails, once, with that errno
 *     TROUBLE_RELOADS=FILE                             in a reload that somebody asks for, memory is refused when it is wanted for the Nth
 *                                                      time, once, as the file says; then the file says how often it was wanted
 *     TROUBLE_NOW=FILE                                 each call fails that the file names, with the errno behind the name
 *     TROUBLE_CLOCK=FILE                               the monotonic clock stands at the second that the file says
 *     TROUBLE_HASTE=N                                  a connection is known to be dead N times as soon */
#define _GNU_SOURCE
#include <errno.h>
#include <fcntl.h>
#include <ifaddrs.h>
#include <netinet/in.h>
#include <netinet/tcp.h>
#include <poll.h>
#include <stdarg.h>
#include <stdbool.h>
#include <stdio.h>
#include <stdlib.h>
#include <string.h>
#include <sys/random.h>
#include <sys/socket.h>
#include <time.h>
#include <unistd.h>

static unsigned long number_of(const char *name)
{
    const char *text = getenv(name);
    return text != NULL ? strtoul(text, NULL, 10) : 0;
}

/* The first bytes of a file, with a 0 behind. Returns whether there are any. */
static bool read_start(const char *name, char *bytes, size_t room);

/* Whether the file that says so lets this call fail. */
static bool fails_now(const char *name)
{
    char words[64];
    size_t length = strlen(name);
    int before = errno;
    const char *file = getenv("TROUBLE_NOW");
    bool is_it = file != NULL && read_start(file, words, sizeof words) && strncmp(words, name, length) == 0 && words[length] == ' ';
    errno = is_it ? atoi(words + length) : before;
    return is_it;
}

/* Whether this call is the one that fails, or one of those that do now. */
static bool fails(const char *name)
{
    static unsigned long count;
    const char *which = getenv("TROUBLE_CALL");
    if (which == NULL || strcmp(which, name) != 0 || ++count != number_of("TROUBLE_AT"))
        return fails_now(name);
    errno = (int)number_of("TROUBLE_ERRNO");
    return true;
}

/* How often memory was wanted in this reload, and which time it is refused. */
static struct {
    bool is_now;
    unsigned long wanted, refused;
} reloading;

/* Whether a call that wants memory is refused it. */
static bool is_refused(void)
{
    if (!reloading.is_now || ++reloading.wanted != reloading.refused)
        return false;
    errno = ENOMEM;
    return true;
}

#define TROUBLED_IF(is_bad, type, name, bad, params, args) \
    type __real_##name params;                             \
    type __wrap_##name params;                             \
    type __wrap_##name params                              \
    {                                                      \
        return (is_bad) ? bad : __real_##name args;        \
    }
#define TROUBLED(type, name, bad, params, args) TROUBLED_IF(fails(#name), type, name, bad, params, args)
#define WANTS_MEMORY(type, name, bad, params, args) TROUBLED_IF(fails(#name) || is_refused(), type, name, bad, params, args)

TROUBLED(int, socket, -1, (int a, int b, int c), (a, b, c))
TROUBLED(int, bind, -1, (int a, const struct sockaddr *b, socklen_t c), (a, b, c))
TROUBLED(int, getsockname, -1, (int a, struct sockaddr *b, socklen_t *c), (a, b, c))
TROUBLED(int, connect, -1, (int a, const struct sockaddr *b, socklen_t c), (a, b, c))
TROUBLED(int, listen, -1, (int a, int b), (a, b))
TROUBLED(int, accept, -1, (int a, struct sockaddr *b, socklen_t *c), (a, b, c))
TROUBLED(ssize_t, recv, -1, (int a, void *b, size_t c, int d), (a, b, c, d))
TROUBLED(ssize_t, send, -1, (int a, const void *b, size_t c, int d), (a, b, c, d))
TROUBLED(ssize_t, sendto, -1, (int a, const void *b, size_t c, int d, const struct sockaddr *e, socklen_t f), (a, b, c, d, e, f))
TROUBLED(int, poll, -1, (struct pollfd *a, nfds_t b, int c), (a, b, c))
TROUBLED(ssize_t, read, -1, (int a, void *b, size_t c), (a, b, c))
TROUBLED(ssize_t, write, -1, (int a, const void *b, size_t c), (a, b, c))
TROUBLED(int, getifaddrs, -1, (struct ifaddrs **a), (a))
TROUBLED(ssize_t, getrandom, -1, (void *a, size_t b, unsigned c), (a, b, c))
WANTS_MEMORY(FILE *, fopen, NULL, (const char *a, const char *b), (a, b))
WANTS_MEMORY(FILE *, fdopen, NULL, (int a, const char *b), (a, b))
WANTS_MEMORY(FILE *, open_memstream, NULL, (char **a, size_t *b), (a, b))
WANTS_MEMORY(void *, malloc, NULL, (size_t a), (a))
WANTS_MEMORY(void *, calloc, NULL, (size_t a, size_t b), (a, b))
WANTS_MEMORY(void *, realloc, NULL, (void *a, size_t b), (a, b))

TROUBLED(ssize_t, recvmsg, -1, (int a, struct msghdr *b, int c), (a, b, c))
TROUBLED(int, recvmmsg, -1, (int a, struct mmsghdr *b, unsigned c, int d, struct timespec *e), (a, b, c, d, e))

/* Of datagrams that are sent together the Nth fails, and when those behind the ones before it are tried again, again. */
int __real_sendmmsg(int a, struct mmsghdr *b, unsigned c, int d);
int __wrap_sendmmsg(int a, struct mmsghdr *b, unsigned c, int d);
int __wrap_sendmmsg(int a, struct mmsghdr *b, unsigned c, int d)
{
    static bool is_refused;
    unsigned before = 0;
    while (!is_refused && before < c && !fails("sendmmsg"))
        before++;
    bool fails_now = before == 0;
    is_refused = before > 0 && before < c;
    return fails_now ? -1 : __real_sendmmsg(a, b, before, d);
}

static int haste(void)
{
    int times = (int)number_of("TROUBLE_HASTE");
    return times > 0 ? times : 1;
}

int __real_setsockopt(int fd, int level, int option, const void *value, socklen_t size);
int __wrap_setsockopt(int fd, int level, int option, const void *value, socklen_t size);
int __wrap_setsockopt(int fd, int level, int option, const void *value, socklen_t size)
{
    bool is_time = level == IPPROTO_TCP && (option == TCP_KEEPIDLE || option == TCP_KEEPINTVL);
    int sooner = is_time ? *(const int *)value / haste() : 0;
    return fails("setsockopt") ? -1 : __real_setsockopt(fd, level, option, is_time ? &sooner : value, size);
}

int __real_getsockopt(int fd, int level, int option, void *value, socklen_t *size);
int __wrap_getsockopt(int fd, int level, int option, void *value, socklen_t *size);
int __wrap_getsockopt(int fd, int level, int option, void *value, socklen_t *size)
{
    int answer = fails("getsockopt") ? -1 : __real_getsockopt(fd, level, option, value, size);
    if (answer == 0 && level == IPPROTO_TCP && option == TCP_INFO)
        ((struct tcp_info *)value)->tcpi_last_ack_recv *= (unsigned)haste();
    return answer;
}

int __real_fcntl(int fd, int what, ...);
int __wrap_fcntl(int fd, int what, ...);
int __wrap_fcntl(int fd, int what, ...)
{
    va_list rest;
    va_start(rest, what);
    long value = va_arg(rest, long);
    va_end(rest);
    return fails("fcntl") ? -1 : __real_fcntl(fd, what, value);
}

/* (a close that fails has closed all the same) */
int __real_close(int fd);
int __wrap_close(int fd);
int __wrap_close(int fd)
{
    bool is_bad = fails("close");
    int why = errno, answer = __real_close(fd);
    errno = is_bad ? why : errno;
    return is_bad ? -1 : answer;
}

int __real_open(const char *name, int how, ...);
int __wrap_open(const char *name, int how, ...);
int __wrap_open(const char *name, int how, ...)
{
    va_list rest;
    va_start(rest, how);
    int mode = how & O_CREAT ? va_arg(rest, int) : 0;
    va_end(rest);
    return fails("open") ? -1 : __real_open(name, how, mode);
}

int __real_ioctl(int fd, unsigned long what, ...);
int __wrap_ioctl(int fd, unsigned long what, ...);
int __wrap_ioctl(int fd, unsigned long what, ...)
{
    va_list rest;
    va_start(rest, what);
    void *value = va_arg(rest, void *);
    va_end(rest);
    return fails("ioctl") ? -1 : __real_ioctl(fd, what, value);
}

static bool read_start(const char *name, char *bytes, size_t room)
{
    int fd = __real_open(name, O_RDONLY);
    ssize_t length = fd >= 0 ? __real_read(fd, bytes, room - 1) : -1;
    if (fd >= 0)
        __real_close(fd);
    bytes[length > 0 ? length : 0] = '\0';
    return length > 0;
}

/* The second that a file says, in digits, with or without a part of the next. */
static int read_clock(const char *name, struct timespec *now)
{
    char digits[32];
    bool is_read = read_start(name, digits, sizeof digits);
    double second = strtod(digits, NULL);
    now->tv_sec = (time_t)second;
    now->tv_nsec = (long)((second - (double)now->tv_sec) * 1e9);
    return is_read ? 0 : -1;
}

int __real_clock_gettime(clockid_t which, struct timespec *now);
int __wrap_clock_gettime(clockid_t which, struct timespec *now);
int __wrap_clock_gettime(clockid_t which, struct timespec *now)
{
    const char *name = getenv("TROUBLE_CLOCK");
    if (fails("clock_gettime"))
        return -1;
    return name != NULL && which == CLOCK_MONOTONIC ? read_clock(name, now) : __real_clock_gettime(which, now);
}

/* The number that a file says. */
static unsigned long read_number(const char *name)
{
    char digits[32] = {0};
    int fd = __real_open(name, O_RDONLY);
    ssize_t length = fd >= 0 ? __real_read(fd, digits, sizeof digits - 1) : 0;
    if (fd >= 0)
        __real_close(fd);
    return length > 0 ? strtoul(digits, NULL, 10) : 0;
}

static void write_number(const char *name, unsigned long number)
{
    char digits[32];
    int length = snprintf(digits, sizeof digits, "%lu", number), fd = __real_open(name, O_WRONLY | O_TRUNC);
    if (fd < 0)
        return;
    (void)!__real_write(fd, digits, (size_t)length);
    __real_close(fd);
}

struct gateway;
struct viewer;
void __real_reload_for(struct gateway *it, struct viewer *v);
void __wrap_reload_for(struct gateway *it, struct viewer *v);
void __wrap_reload_for(struct gateway *it, struct viewer *v)
{
    const char *name = getenv("TROUBLE_RELOADS");
    reloading.refused = name != NULL ? read_number(name) : 0;
    reloading.wanted = 0;
    reloading.is_now = true;
    __real_reload_for(it, v);
    reloading.is_now = false;
    if (name != NULL)
        write_number(name, reloading.wanted);
}

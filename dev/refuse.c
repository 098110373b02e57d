/* Preloaded into a program, it stands between the program and the C library: one request for memory is refused, one read or
 * one write fails, or every read and write moves one byte; or each request for more memory than so many bytes is refused. The variable
 * REFUSE says which, such as "memory 3", "large 1048576", "read 3", "interrupted 3", "write 3", "nothing-taken 3" or "bytes 0"; REFUSE_TELL
 * names a file that is made where a refusal came. */
#define _GNU_SOURCE
#include <dlfcn.h>
#include <errno.h>
#include <fcntl.h>
#include <stdio.h>
#include <stdlib.h>
#include <string.h>
#include <sys/syscall.h>
#include <unistd.h>

static char what[16];
/* How many calls of that kind go before the one that is refused; none is where it is below zero. */
static long before = -1;
/* The most bytes that one request may be for, where large ones are refused. */
static size_t most;
static const char *tell;

static void *(*real_malloc)(size_t);
static void *(*real_realloc)(void *, size_t);

__attribute__((constructor)) static void begin(void)
{
    *(void **)&real_malloc = dlsym(RTLD_NEXT, "malloc");
    *(void **)&real_realloc = dlsym(RTLD_NEXT, "realloc");
    const char *said = getenv("REFUSE");
    long number;
    tell = getenv("REFUSE_TELL");
    if (!tell || !said || sscanf(said, "%15s %ld", what, &number) != 2)
        return;
    before = number - 1;
    most = (size_t)number;
}

static void tell_it(void)
{
    syscall(SYS_close, syscall(SYS_openat, AT_FDCWD, tell, O_WRONLY | O_CREAT, 0600));
}

/* Whether this call of that kind is the one that is refused. */
static int refused(const char *kind)
{
    if (before < 0 || strcmp(what, kind) != 0)
        return 0;
    if (before-- > 0)
        return 0;
    tell_it();
    return 1;
}

/* Whether this request for memory is refused. */
static int refused_memory(size_t size)
{
    if (strcmp(what, "large") != 0)
        return refused("memory");
    if (size <= most)
        return 0;
    tell_it();
    return 1;
}

void *malloc(size_t size)
{
    if (!real_malloc)
        *(void **)&real_malloc = dlsym(RTLD_NEXT, "malloc");
    if (refused_memory(size)) {
        errno = ENOMEM;
        return NULL;
    }
    return real_malloc(size);
}

void *realloc(void *block, size_t size)
{
    if (!real_realloc)
        *(void **)&real_realloc = dlsym(RTLD_NEXT, "realloc");
    if (refused_memory(size)) {
        errno = ENOMEM;
        return NULL;
    }
    return real_realloc(block, size);
}

static ssize_t failed(int fault)
{
    errno = fault;
    return -1;
}

ssize_t read(int from, void *buffer, size_t size)
{
    if (refused("read"))
        return failed(EIO);
    if (refused("interrupted"))
        return failed(EINTR);
    if (strcmp(what, "bytes") == 0 && size > 1)
        size = 1;
    return syscall(SYS_read, from, buffer, size);
}

/* What goes to standard output; what goes elsewhere passes. */
ssize_t write(int to, const void *buffer, size_t size)
{
    if (to == STDOUT_FILENO) {
        if (refused("write"))
            return failed(ENOSPC);
        if (refused("nothing-taken"))
            return 0;
        if (strcmp(what, "bytes") == 0 && size > 1)
            size = 1;
    }
    return syscall(SYS_write, to, buffer, size);
}

ssize_t __write(int to, const void *buffer, size_t size)
{
    return write(to, buffer, size);
}

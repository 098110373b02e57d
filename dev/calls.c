/* Preloaded into a program, it counts what the program asks for, in a file of so many numbers, which CALLS names: reads, the most bytes
 * that one read asked for, writes, requests for memory, and the most bytes that one of these asked for. */
#define _GNU_SOURCE
#include <dlfcn.h>
#include <fcntl.h>
#include <stdint.h>
#include <stdlib.h>
#include <sys/mman.h>
#include <sys/syscall.h>
#include <unistd.h>

static struct {
    uint64_t reads, most_read, writes, requests, most_requested;
} *seen;

static void *(*real_malloc)(size_t);
static void *(*real_realloc)(void *, size_t);

__attribute__((constructor)) static void begin(void)
{
    const char *name = getenv("CALLS");
    int file = name ? open(name, O_RDWR) : -1;
    void *at = file < 0 ? MAP_FAILED : mmap(NULL, sizeof *seen, PROT_READ | PROT_WRITE, MAP_SHARED, file, 0);
    if (at == MAP_FAILED)
        _exit(127);
    close(file);
    seen = at;
}

static void requested(size_t size)
{
    if (!seen)
        return;
    seen->requests++;
    if (seen->most_requested < size)
        seen->most_requested = size;
}

void *malloc(size_t size)
{
    if (!real_malloc)
        *(void **)&real_malloc = dlsym(RTLD_NEXT, "malloc");
    requested(size);
    return real_malloc(size);
}

void *realloc(void *block, size_t size)
{
    if (!real_realloc)
        *(void **)&real_realloc = dlsym(RTLD_NEXT, "realloc");
    requested(size);
    return real_realloc(block, size);
}

ssize_t read(int from, void *buffer, size_t size)
{
    if (seen) {
        seen->reads++;
        if (seen->most_read < size)
            seen->most_read = size;
    }
    return syscall(SYS_read, from, buffer, size);
}

ssize_t write(int to, const void *buffer, size_t size)
{
    if (seen)
        seen->writes++;
    return syscall(SYS_write, to, buffer, size);
}

ssize_t __write(int to, const void *buffer, size_t size)
{
    return write(to, buffer, size);
}

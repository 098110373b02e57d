/* Linked into a program in the place of include/heap.c, and between it and its reads and writes, it does what dev/refuse.c does where a
 * library can't be preloaded: one request for memory is refused, one read or one write fails, or every read and write moves one byte. The
 * variable REFUSE says which; REFUSE_TELL names a file that is made where a refusal came. The system's own calls are real_read and
 * real_write. */
#include <errno.h>
#include <stdbool.h>
#include <stdint.h>
#include <stdio.h>
#include <stdlib.h>
#include <string.h>

enum { STANDARD_OUTPUT = 1 };

struct block {
    bool there;
    unsigned char *at;
};

intptr_t real_read(int32_t from, void *buffer, size_t room);
intptr_t real_write(int32_t to, const void *bytes, size_t length);

/* Whether this call of that kind is the one that is refused: the first of its kind is number 1. */
static bool refused(const char *kind)
{
    static char what[16];
    static long before = -1;
    static bool has_begun;
    const char *said = getenv("REFUSE");
    if (!has_begun && said != NULL && sscanf(said, "%15s %ld", what, &before) != 2)
        before = 0;
    has_begun = true;
    if (strcmp(what, kind) != 0 || before <= 0 || --before > 0)
        return false;
    FILE *tell = fopen(getenv("REFUSE_TELL"), "wb");
    if (tell != NULL)
        fclose(tell);
    return true;
}

static size_t at_once(size_t size)
{
    const char *said = getenv("REFUSE");
    return said != NULL && strncmp(said, "bytes", 5) == 0 && size > 1 ? 1 : size;
}

static struct block block_at(void *at)
{
    static unsigned char nowhere[1];
    struct block block = {at != NULL, at != NULL ? at : nowhere};
    return block;
}

struct block rattle_alloc(size_t size, size_t alignment)
{
    return block_at(refused("memory") ? NULL : malloc(size == 0 ? alignment : size));
}

struct block rattle_realloc(unsigned char *block, size_t kept, size_t size, size_t alignment)
{
    (void)kept;
    return block_at(refused("memory") ? NULL : realloc(block, size == 0 ? alignment : size));
}

void rattle_dealloc(unsigned char *block)
{
    free(block);
}

static intptr_t failed(int fault)
{
    errno = fault;
    return -1;
}

intptr_t host_read(int32_t from, void *buffer, size_t room)
{
    if (refused("read"))
        return failed(EIO);
    if (refused("interrupted"))
        return failed(EINTR);
    return real_read(from, buffer, at_once(room));
}

/* What goes to standard output; what goes elsewhere passes. */
intptr_t host_write(int32_t to, const void *bytes, size_t length)
{
    if (to == STANDARD_OUTPUT && refused("write"))
        return failed(ENOSPC);
    if (to == STANDARD_OUTPUT && refused("nothing-taken"))
        return 0;
    return real_write(to, bytes, to == STANDARD_OUTPUT ? at_once(length) : length);
}

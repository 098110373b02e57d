/* An allocator in the place of include/heap.c that counts: the blocks in use, the requests, and those that it refused.
 *
 * Its three functions are named as the library asks for them; include/heap.c says what each does. Exactly one file of a
 * program includes this one. */
#ifndef COUNTED_H
#define COUNTED_H

#include <stdbool.h>
#include <stdlib.h>

#include "ipxr.h"

struct block {
    bool there;
    unsigned char *at;
};

static unsigned char nowhere[1];
static long in_use;        /* blocks that weren't freed */
static long requests;      /* for a block, or for a longer one */
static long refused;       /* of these, how many were refused */
static long until_refused; /* requests until the one that is refused; at 0 none is any more */

static bool is_refused(void)
{
    requests++;
    if (until_refused == 0 || --until_refused > 0)
        return false;
    refused++;
    return true;
}

IPXR_CALL struct block rattle_alloc(size_t size, size_t alignment)
{
    struct block block = {false, nowhere};
    if (!is_refused()) {
        block.there = true;
        block.at = malloc(size == 0 ? alignment : size);
        in_use++;
    }
    return block;
}

IPXR_CALL struct block rattle_realloc(unsigned char *old, size_t kept, size_t size, size_t alignment)
{
    struct block block = {false, nowhere};
    (void)kept;
    if (!is_refused()) {
        block.there = true;
        block.at = realloc(old, size == 0 ? alignment : size);
    }
    return block;
}

IPXR_CALL void rattle_dealloc(unsigned char *at)
{
    in_use--;
    free(at);
}

#endif

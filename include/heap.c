/* Where libipxr gets its memory. An embedder with an allocator of its own puts it in the place of malloc, realloc and free:
 * the three belong together, and a block of n bytes is aligned to each power of two up to 16 that divides n. A refused
 * request is told by `there`; the router then answers IPXR_OUT_OF_MEMORY and is as it was. A file in C++ declares the three
 * extern "C": otherwise the linker takes these here, without a word. */
#include <stdbool.h>
#include <stddef.h>
#include <stdlib.h>

#include "ipxr.h"

struct block {
    bool there;
    unsigned char *at;
};

/* What a refused block points to: some address that is not NULL. */
static unsigned char nowhere[1];

static struct block block_at(void *at)
{
    struct block block = {at != NULL, at != NULL ? at : nowhere};
    return block;
}

/* A block of `size` bytes; of no bytes, one that can be freed. */
IPXR_CALL struct block rattle_alloc(size_t size, size_t alignment)
{
    return block_at(malloc(size == 0 ? alignment : size));
}

/* The block with its first `kept` bytes, moved where that is needed; where it is refused, the old block stays. */
IPXR_CALL struct block rattle_realloc(unsigned char *block, size_t kept, size_t size, size_t alignment)
{
    (void)kept;
    return block_at(realloc(block, size == 0 ? alignment : size));
}

IPXR_CALL void rattle_dealloc(unsigned char *block)
{
    free(block);
}

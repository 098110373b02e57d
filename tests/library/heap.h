/* The allocator of a program's own, as the library for C asks for it elsewhere (include/heap.c), in the macros of the one file. */
#include <stdbool.h>
#include <stddef.h>

struct block {
    bool there;
    unsigned char *at;
};

#ifdef __cplusplus
extern "C" {
#endif

struct block rattle_alloc(size_t size, size_t alignment);
struct block rattle_realloc(unsigned char *block, size_t kept, size_t size, size_t alignment);
void rattle_dealloc(unsigned char *block);

#ifdef __cplusplus
}
#endif

static void *taken(struct block block)
{
    return block.there ? block.at : NULL;
}

#define IPXR_MALLOC(size) taken(rattle_alloc(size, 1))
#define IPXR_REALLOC(block, size) taken(rattle_realloc(block, 0, size, 1))
#define IPXR_FREE(block) rattle_dealloc(block)

#include "weather.h"

#include <errno.h>
#include <stdint.h>
#include <stdlib.h>

#include "chance.h"
#include "play.h"

enum { PLENTY = 300 /* descriptors */, BUCKETS = 4096, IN_BUCKET = 64 };

weather the_weather = {.most_open = PLENTY};

void weather_clears(void)
{
    the_weather = (weather){.most_open = PLENTY};
}

bool fails(const int *faults)
{
    unsigned count = 0;
    if (the_weather.calls == 0 || !one_in(the_weather.calls))
        return false;
    while (faults[count] != 0)
        count++;
    errno = faults[below(count)];
    return true;
}

/* ---- Memory ---- */

void *__real_malloc(size_t size);
void *__real_calloc(size_t count, size_t size);
void *__real_realloc(void *block, size_t size);
void __real_free(void *block);
void *__wrap_malloc(size_t size);
void *__wrap_calloc(size_t count, size_t size);
void *__wrap_realloc(void *block, size_t size);
void __wrap_free(void *block);

/* The blocks that are in use, each in a bucket of its address. */
static void *blocks[BUCKETS][IN_BUCKET];
static size_t in_use;
static unsigned long refused;

size_t blocks_in_use(void)
{
    return in_use;
}

unsigned long blocks_refused(void)
{
    return refused;
}

void *own_memory(size_t size)
{
    void *block = __real_calloc(1, size);
    if (block == NULL)
        wrong("the test itself has no memory");
    return block;
}

void give_back(void *block)
{
    __real_free(block);
}

/* The place of a block, or of NULL, in the bucket of an address; NULL where it has none. */
static void **place_of_block(const void *address, const void *block)
{
    void **bucket = blocks[((uintptr_t)address >> 4) % BUCKETS];
    for (size_t k = 0; k < IN_BUCKET; k++)
        if (bucket[k] == block)
            return &bucket[k];
    return NULL;
}

static void *noted(void *block)
{
    void **place = block != NULL ? place_of_block(block, NULL) : NULL;
    if (block == NULL || place == NULL)
        wrong("no room to note a block");
    else
        *place = block;
    in_use++;
    return block;
}

/* (what the C library itself has handed out isn't noted) */
static void forget(void *block)
{
    void **place = block != NULL ? place_of_block(block, block) : NULL;
    if (place == NULL)
        return;
    *place = NULL;
    in_use--;
}

static bool is_refused(void)
{
    bool is_nth = the_weather.nth > 0 && --the_weather.nth == 0;
    bool is_it = is_nth || (the_weather.memory > 0 && one_in(the_weather.memory));
    if (is_it) {
        told("memory is refused");
        errno = ENOMEM;
        refused++;
    }
    return is_it;
}

void *__wrap_malloc(size_t size)
{
    return is_refused() ? NULL : noted(__real_malloc(size));
}

void *__wrap_calloc(size_t count, size_t size)
{
    return is_refused() ? NULL : noted(__real_calloc(count, size));
}

void *__wrap_realloc(void *block, size_t size)
{
    if (is_refused())
        return NULL;
    forget(block);
    return noted(__real_realloc(block, size));
}

void __wrap_free(void *block)
{
    forget(block);
    __real_free(block);
}

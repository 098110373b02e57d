/* Where the program gets its memory in WebAssembly, which has pages that are added at its end and nothing else. A block has a length that
 * is a power of two, with what stands before it; one that is given back waits for the next request of its length. */
typedef __SIZE_TYPE__ size_t;

enum { HEAD = 16, LEAST = 5, POWERS = 64, PAGE = 65536, SPARE = 8 };

/* (the program asks for a number that is 0 or not, as wide as an address) */
struct block {
    size_t there;
    unsigned char *at;
};

/* What stands before a block: its length as a power of two; and the next one of its length while nobody has it. */
struct head {
    size_t power;
    struct head *next;
};

/* (the linker says where its own data ends) */
extern unsigned char __heap_base;

static struct head *unused[POWERS];
static unsigned char *end = &__heap_base;
static unsigned char nowhere[1];

static size_t pages(size_t size)
{
    return (size + PAGE - 1) / PAGE;
}

/* Whether the memory reaches so many bytes behind the end of the blocks, or was made to. A page costs as much as many at once, so some are
 * added that nobody asked for, where that isn't refused. */
static _Bool reaches(size_t size)
{
    size_t there = __builtin_wasm_memory_size(0), needed = pages((size_t)end + size);
    return needed <= there || __builtin_wasm_memory_grow(0, needed - there + there / SPARE) != (size_t)-1 ||
           __builtin_wasm_memory_grow(0, needed - there) != (size_t)-1;
}

/* The power of two that such a block has, or more than there are. */
static size_t power_of(size_t size)
{
    size_t power = LEAST;
    while (power < POWERS && ((size_t)1 << power) - HEAD < size)
        power++;
    return power;
}

/* A block of `size` bytes; of no bytes, one that can be freed. */
struct block rattle_alloc(size_t size, size_t alignment)
{
    size_t power = power_of(size), length = (size_t)1 << power % POWERS;
    struct head *head = unused[power % POWERS];
    (void)alignment;
    if (power == POWERS || (head == 0 && !reaches(length)))
        return (struct block){0, nowhere};
    if (head != 0) {
        unused[power] = head->next;
    } else {
        head = (struct head *)end;
        head->power = power;
        end += length;
    }
    return (struct block){1, (unsigned char *)head + HEAD};
}

void rattle_dealloc(unsigned char *block)
{
    struct head *head = (struct head *)(block - HEAD);
    head->next = unused[head->power];
    unused[head->power] = head;
}

/* The block with its first `kept` bytes, moved where that is needed; where it is refused, the old block stays. */
struct block rattle_realloc(unsigned char *block, size_t kept, size_t size, size_t alignment)
{
    struct head *head = (struct head *)(block - HEAD);
    if (size <= ((size_t)1 << head->power) - HEAD)
        return (struct block){1, block};
    struct block moved = rattle_alloc(size, alignment);
    if (moved.there) {
        __builtin_memcpy(moved.at, block, kept);
        rattle_dealloc(block);
    }
    return moved;
}

/* The chunks of this file, which blank lines separate, are put before the translated functions where these need them (tools/library). What
 * works with memory takes addresses of 64 bits, on whatever system. */

/* What a proved program never comes to. */
static void ipxri_trap(void)
{
    abort();
}

static inline uint8_t *ipxri_at(uint64_t address)
{
    return (uint8_t *)(uintptr_t)address;
}

static inline uint64_t ipxri_address(const void *at)
{
    return (uint64_t)(uintptr_t)at;
}

/* The first address in a room that 16 divides; the room has 15 bytes more than are needed. */
static inline uint64_t ipxri_rounded(uint8_t *room)
{
    return (ipxri_address(room) + 15u) & ~(uint64_t)15u;
}

/* Whether numbers lie in memory with their lowest byte first. Where nobody says so, all goes byte by byte. */
#if defined(IPXR_COPIES)
#define IPXRI_IS_LITTLE 0
#elif defined(__BYTE_ORDER__) && defined(__ORDER_LITTLE_ENDIAN__)
#define IPXRI_IS_LITTLE (__BYTE_ORDER__ == __ORDER_LITTLE_ENDIAN__)
#elif defined(_MSC_VER)
#define IPXRI_IS_LITTLE 1
#else
#define IPXRI_IS_LITTLE 0
#endif

/* What is aligned as the data is in WebAssembly. */
#if defined(__GNUC__) || defined(__TINYC__)
#define IPXRI_ALIGNED __attribute__((aligned(16)))
#else
#define IPXRI_ALIGNED
#endif

static inline uint32_t ipxri_load1(uint64_t address)
{
    return *ipxri_at(address);
}

static inline uint32_t ipxri_load2(uint64_t address)
{
    const uint8_t *at = ipxri_at(address);
    if (IPXRI_IS_LITTLE) {
        uint16_t number;
        memcpy(&number, at, sizeof number);
        return number;
    }
    return (uint32_t)at[0] | (uint32_t)at[1] << 8;
}

static inline uint32_t ipxri_load4(uint64_t address)
{
    if (IPXRI_IS_LITTLE) {
        uint32_t number;
        memcpy(&number, ipxri_at(address), sizeof number);
        return number;
    }
    return ipxri_load2(address) | ipxri_load2(address + 2u) << 16;
}

static inline uint64_t ipxri_load8(uint64_t address)
{
    if (IPXRI_IS_LITTLE) {
        uint64_t number;
        memcpy(&number, ipxri_at(address), sizeof number);
        return number;
    }
    return (uint64_t)ipxri_load4(address) | (uint64_t)ipxri_load4(address + 4u) << 32;
}

static inline void ipxri_store1(uint64_t address, uint32_t number)
{
    *ipxri_at(address) = (uint8_t)number;
}

static inline void ipxri_store2(uint64_t address, uint32_t number)
{
    uint8_t *at = ipxri_at(address);
    if (IPXRI_IS_LITTLE) {
        uint16_t half = (uint16_t)number;
        memcpy(at, &half, sizeof half);
    } else {
        at[0] = (uint8_t)number;
        at[1] = (uint8_t)(number >> 8);
    }
}

static inline void ipxri_store4(uint64_t address, uint32_t number)
{
    if (IPXRI_IS_LITTLE) {
        memcpy(ipxri_at(address), &number, sizeof number);
    } else {
        ipxri_store2(address, number);
        ipxri_store2(address + 2u, number >> 16);
    }
}

static inline void ipxri_store8(uint64_t address, uint64_t number)
{
    if (IPXRI_IS_LITTLE) {
        memcpy(ipxri_at(address), &number, sizeof number);
    } else {
        ipxri_store4(address, (uint32_t)number);
        ipxri_store4(address + 4u, (uint32_t)(number >> 32));
    }
}

static inline void ipxri_move(uint64_t to, uint64_t from, uint64_t count)
{
    memmove(ipxri_at(to), ipxri_at(from), (size_t)count);
}

static inline void ipxri_fill(uint64_t to, uint32_t byte, uint64_t count)
{
    memset(ipxri_at(to), (int)(byte & 0xFFu), (size_t)count);
}

/* ---- What the functions ask of C ---- */

static inline uint64_t ipxri_memcpy(uint64_t to, uint64_t from, uint64_t count)
{
    memcpy(ipxri_at(to), ipxri_at(from), (size_t)count);
    return to;
}

static inline uint64_t ipxri_memmove(uint64_t to, uint64_t from, uint64_t count)
{
    memmove(ipxri_at(to), ipxri_at(from), (size_t)count);
    return to;
}

static inline uint64_t ipxri_memset(uint64_t to, uint32_t byte, uint64_t count)
{
    memset(ipxri_at(to), (int)(byte & 0xFFu), (size_t)count);
    return to;
}

static inline uint32_t ipxri_memcmp(uint64_t one, uint64_t other, uint64_t count)
{
    return (uint32_t)memcmp(ipxri_at(one), ipxri_at(other), (size_t)count);
}

static inline uint32_t ipxri_bcmp(uint64_t one, uint64_t other, uint64_t count)
{
    return memcmp(ipxri_at(one), ipxri_at(other), (size_t)count) != 0;
}

/* A block that was asked for: whether it is there, and its address; one that isn't has some address that isn't 0. */
static inline void ipxri_give(uint64_t to, void *block)
{
    ipxri_store8(to, block != NULL);
    ipxri_store8(to + 8u, block != NULL ? ipxri_address(block) : 1u);
}

/* A size as C has it; no block has more than half of all sizes. */
static inline size_t ipxri_size(uint64_t size, uint64_t alignment)
{
    return (size_t)(size == 0 ? alignment : size);
}

static inline bool ipxri_is_huge(uint64_t size)
{
    return size > (size_t)-1 / 2;
}

static void ipxri_rattle_alloc(uint64_t to, uint64_t size, uint64_t alignment)
{
    ipxri_give(to, ipxri_is_huge(size) ? NULL : IPXR_MALLOC(ipxri_size(size, alignment)));
}

static void ipxri_rattle_realloc(uint64_t to, uint64_t block, uint64_t kept, uint64_t size, uint64_t alignment)
{
    (void)kept;
    ipxri_give(to, ipxri_is_huge(size) ? NULL : IPXR_REALLOC(ipxri_at(block), ipxri_size(size, alignment)));
}

static void ipxri_rattle_dealloc(uint64_t block)
{
    IPXR_FREE(ipxri_at(block));
}

/* ---- Numbers ---- */

/* The order of numbers with a sign is that of numbers without one whose highest bit is flipped. */
static inline uint32_t ipxri_flip4(uint32_t number)
{
    return number ^ 0x80000000u;
}

static inline uint64_t ipxri_flip8(uint64_t number)
{
    return number ^ (uint64_t)1u << 63;
}

static inline uint32_t ipxri_extend1_4(uint32_t number)
{
    return ((number & 0xFFu) ^ 0x80u) - 0x80u;
}

static inline uint32_t ipxri_extend2_4(uint32_t number)
{
    return ((number & 0xFFFFu) ^ 0x8000u) - 0x8000u;
}

static inline uint64_t ipxri_extend1_8(uint64_t number)
{
    return ((number & 0xFFu) ^ 0x80u) - 0x80u;
}

static inline uint64_t ipxri_extend2_8(uint64_t number)
{
    return ((number & 0xFFFFu) ^ 0x8000u) - 0x8000u;
}

static inline uint64_t ipxri_extend4_8(uint64_t number)
{
    return ((number & 0xFFFFFFFFu) ^ 0x80000000u) - 0x80000000u;
}

static inline uint32_t ipxri_shr_s4(uint32_t number, uint32_t by)
{
    by &= 31u;
    return number >> 31 ? ~(~number >> by) : number >> by;
}

static inline uint64_t ipxri_shr_s8(uint64_t number, uint64_t by)
{
    by &= 63u;
    return number >> 63 ? ~(~number >> by) : number >> by;
}

static inline uint32_t ipxri_rotl4(uint32_t number, uint32_t by)
{
    return number << (by & 31u) | number >> ((0u - by) & 31u);
}

static inline uint64_t ipxri_rotl8(uint64_t number, uint64_t by)
{
    return number << (by & 63u) | number >> ((0u - by) & 63u);
}

static inline uint32_t ipxri_rotr4(uint32_t number, uint32_t by)
{
    return number >> (by & 31u) | number << ((0u - by) & 31u);
}

static inline uint64_t ipxri_rotr8(uint64_t number, uint64_t by)
{
    return number >> (by & 63u) | number << ((0u - by) & 63u);
}

static inline uint64_t ipxri_popcnt8(uint64_t number)
{
    uint64_t count = 0;
    for (; number != 0; number &= number - 1u)
        count++;
    return count;
}

static inline uint32_t ipxri_popcnt4(uint32_t number)
{
    return (uint32_t)ipxri_popcnt8(number);
}

static inline uint64_t ipxri_clz8(uint64_t number)
{
    uint64_t count = 64;
    for (; number != 0; number >>= 1)
        count--;
    return count;
}

static inline uint32_t ipxri_clz4(uint32_t number)
{
    return (uint32_t)ipxri_clz8(number) - 32u;
}

/* (the lowest bit alone, less 1, has as many bits as zeros stand below it) */
static inline uint64_t ipxri_ctz8(uint64_t number)
{
    return ipxri_popcnt8((number & (~number + 1u)) - 1u);
}

static inline uint32_t ipxri_ctz4(uint32_t number)
{
    return ipxri_popcnt4((number & (~number + 1u)) - 1u);
}

static inline uint32_t ipxri_div_u4(uint32_t one, uint32_t other)
{
    if (other == 0)
        ipxri_trap();
    return one / other;
}

static inline uint64_t ipxri_div_u8(uint64_t one, uint64_t other)
{
    if (other == 0)
        ipxri_trap();
    return one / other;
}

static inline uint32_t ipxri_rem_u4(uint32_t one, uint32_t other)
{
    if (other == 0)
        ipxri_trap();
    return one % other;
}

static inline uint64_t ipxri_rem_u8(uint64_t one, uint64_t other)
{
    if (other == 0)
        ipxri_trap();
    return one % other;
}

/* A number without its sign. */
static inline uint64_t ipxri_plain8(uint64_t number)
{
    return number >> 63 ? 0u - number : number;
}

static inline uint64_t ipxri_div_s8(uint64_t one, uint64_t other)
{
    uint64_t plain;
    if (other == 0 || (other == ~(uint64_t)0u && one == (uint64_t)1u << 63))
        ipxri_trap();
    plain = ipxri_plain8(one) / ipxri_plain8(other);
    return (one ^ other) >> 63 ? 0u - plain : plain;
}

static inline uint32_t ipxri_div_s4(uint32_t one, uint32_t other)
{
    if (other == ~0u && one == 0x80000000u)
        ipxri_trap();
    return (uint32_t)ipxri_div_s8(ipxri_extend4_8(one), ipxri_extend4_8(other));
}

static inline uint64_t ipxri_rem_s8(uint64_t one, uint64_t other)
{
    uint64_t plain;
    if (other == 0)
        ipxri_trap();
    plain = ipxri_plain8(one) % ipxri_plain8(other);
    return one >> 63 ? 0u - plain : plain;
}

static inline uint32_t ipxri_rem_s4(uint32_t one, uint32_t other)
{
    return (uint32_t)ipxri_rem_s8(ipxri_extend4_8(one), ipxri_extend4_8(other));
}

/* ---- Floats of 64 bits, which are had as their bits: a sign, 11 bits of exponent, 52 of fraction ---- */

#define IPXRI_SIGN ((uint64_t)1u << 63)

#define IPXRI_INFINITY ((uint64_t)0x7FFu << 52)

/* (what is no number has many bits in WebAssembly, any of which will do) */
#define IPXRI_NO_NUMBER ((uint64_t)0xFFFu << 51)

static inline uint64_t ipxri_f64_size(uint64_t it)
{
    return it & ~IPXRI_SIGN;
}

/* A finite float that isn't 0, as a number whose highest bit is 1 times 2 to the power of an exponent. */
static uint64_t ipxri_f64_digits(uint64_t it, int *exponent)
{
    const uint64_t first = (uint64_t)1u << 52;
    uint64_t digits = it & (first - 1u);
    int by, biased = (int)(ipxri_f64_size(it) >> 52);
    if (biased != 0)
        digits |= first;
    else
        biased = 1;
    by = (int)ipxri_clz8(digits);
    *exponent = biased - 1075 - by;
    return digits << by;
}

/* Digits without their last ones; where these are lost, the last that is left says so. (where none is left, what is lost is too little) */
static uint64_t ipxri_f64_fewer(uint64_t digits, int by)
{
    if (by > 63)
        return 0;
    return digits >> by | ((digits & (((uint64_t)1u << by) - 1u)) != 0);
}

/* The float that is closest to digits, which aren't 0, times 2 to the power of an exponent; of two that are as close the even one. */
static uint64_t ipxri_f64_made(uint64_t sign, uint64_t digits, int exponent)
{
    int by = (int)ipxri_clz8(digits), biased = exponent - by + 63 + 1023;
    uint64_t kept;
    if (biased >= 2047)
        return sign | IPXRI_INFINITY;
    digits <<= by;
    if (biased < 1) {
        digits = ipxri_f64_fewer(digits, 1 - biased);
        biased = 1;
    }
    kept = digits >> 11;
    if ((digits & 0x7FFu) + (kept & 1u) > 0x400u)
        kept++;
    return sign | (((uint64_t)(biased - 1) << 52) + kept);
}

static uint64_t ipxri_f64_of(uint64_t number)
{
    return number == 0 ? 0 : ipxri_f64_made(0, number, 0);
}

/* The sum of two finite floats that aren't 0, of which the first is no smaller in size. */
static uint64_t ipxri_f64_sum(uint64_t one, uint64_t other)
{
    int exponent, lower;
    uint64_t digits = ipxri_f64_digits(one, &exponent) >> 1, more = ipxri_f64_digits(other, &lower) >> 1;
    more = ipxri_f64_fewer(more, exponent - lower);
    if ((one ^ other) >> 63)
        more = 0u - more;
    digits += more;
    return digits == 0 ? 0 : ipxri_f64_made(one & IPXRI_SIGN, digits, exponent + 1);
}

static uint64_t ipxri_f64_add(uint64_t one, uint64_t other)
{
    if (ipxri_f64_size(one) < ipxri_f64_size(other))
        return ipxri_f64_add(other, one);
    if (ipxri_f64_size(one) > IPXRI_INFINITY)
        return IPXRI_NO_NUMBER;
    if (ipxri_f64_size(one) == IPXRI_INFINITY)
        return ipxri_f64_size(other) == IPXRI_INFINITY && one != other ? IPXRI_NO_NUMBER : one;
    if (ipxri_f64_size(other) == 0)
        return ipxri_f64_size(one) == 0 ? one & other : one;
    return ipxri_f64_sum(one, other);
}

/* The upper half of a product; where the lower one isn't 0, the last digit says so. */
static uint64_t ipxri_f64_product(uint64_t one, uint64_t other)
{
    const uint64_t half = 0xFFFFFFFFu;
    uint64_t lowest = (one & half) * (other & half), first = (one >> 32) * (other & half), second = (one & half) * (other >> 32);
    uint64_t middle = (lowest >> 32) + (first & half) + (second & half);
    uint64_t upper = (one >> 32) * (other >> 32) + (first >> 32) + (second >> 32) + (middle >> 32);
    return upper | (((lowest | middle) & half) != 0);
}

static uint64_t ipxri_f64_mul(uint64_t one, uint64_t other)
{
    uint64_t sign = (one ^ other) & IPXRI_SIGN, size = ipxri_f64_size(one), by = ipxri_f64_size(other);
    int exponent, more;
    if (size > IPXRI_INFINITY || by > IPXRI_INFINITY)
        return IPXRI_NO_NUMBER;
    if (size == IPXRI_INFINITY || by == IPXRI_INFINITY)
        return size == 0 || by == 0 ? IPXRI_NO_NUMBER : sign | IPXRI_INFINITY;
    if (size == 0 || by == 0)
        return sign;
    size = ipxri_f64_product(ipxri_f64_digits(one, &exponent), ipxri_f64_digits(other, &more));
    return ipxri_f64_made(sign, size, exponent + more + 64);
}

/* A quotient of 64 digits, the first before the point; where something is left, the last digit says so. */
static uint64_t ipxri_f64_quotient(uint64_t one, uint64_t other)
{
    uint64_t quotient = 0;
    int k;
    for (k = 0; k < 64; k++) {
        quotient <<= 1;
        if (one >= other) {
            one -= other;
            quotient |= 1u;
        }
        one <<= 1;
    }
    return quotient | (one != 0);
}

static uint64_t ipxri_f64_div(uint64_t one, uint64_t other)
{
    uint64_t sign = (one ^ other) & IPXRI_SIGN, size = ipxri_f64_size(one), by = ipxri_f64_size(other);
    int exponent, less;
    if (size > IPXRI_INFINITY || by > IPXRI_INFINITY)
        return IPXRI_NO_NUMBER;
    if (size == by && (size == 0 || size == IPXRI_INFINITY))
        return IPXRI_NO_NUMBER;
    if (size == IPXRI_INFINITY || by == 0)
        return sign | IPXRI_INFINITY;
    if (size == 0 || by == IPXRI_INFINITY)
        return sign;
    size = ipxri_f64_quotient(ipxri_f64_digits(one, &exponent) >> 1, ipxri_f64_digits(other, &less) >> 1);
    return ipxri_f64_made(sign, size, exponent - less - 63);
}

/* A number by which floats are in their order, where both are numbers. */
static inline uint64_t ipxri_f64_rank(uint64_t it)
{
    return ipxri_f64_size(it) == 0 ? IPXRI_SIGN : it >> 63 ? ~it : it | IPXRI_SIGN;
}

static inline bool ipxri_f64_are_numbers(uint64_t one, uint64_t other)
{
    return ipxri_f64_size(one) <= IPXRI_INFINITY && ipxri_f64_size(other) <= IPXRI_INFINITY;
}

static inline uint32_t ipxri_f64_lt(uint64_t one, uint64_t other)
{
    return ipxri_f64_are_numbers(one, other) && ipxri_f64_rank(one) < ipxri_f64_rank(other);
}

static inline uint32_t ipxri_f64_le(uint64_t one, uint64_t other)
{
    return ipxri_f64_are_numbers(one, other) && ipxri_f64_rank(one) <= ipxri_f64_rank(other);
}

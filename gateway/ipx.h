/* The header of an IPX packet: where its fields lie, highest byte first, and how they are read and written. */
#ifndef IPX_H
#define IPX_H

#include <stdbool.h>
#include <stdint.h>
#include <string.h>

enum {
    HEADER = 30,          /* bytes of a header */
    NODE = 6,             /* bytes of a node */
    AT_LENGTH = 2,        /* of the packet, with its header */
    AT_CONTROL = 4,       /* routers, or networks, that it has crossed */
    AT_TYPE = 5,
    AT_TO_NETWORK = 6,
    AT_TO_NODE = 10,
    AT_TO_SOCKET = 16,
    AT_FROM_NETWORK = 18,
    AT_FROM_NODE = 22,
    AT_FROM_SOCKET = 28,
};

/* The type of packets that routers themselves carry to all networks. */
#define PROPAGATED 20

/* The network that stands for all of them. */
#define EVERY_NETWORK 0xFFFFFFFFu

/* The first byte of a node that is nobody's card: locally administered, and not a group's. And that of a cookie, which is one of these too, so
 * that no cookie is a node. */
#define LOCAL_NODE 0x02
#define COOKIE_NODE 0x06

/* The socket of the gateway's own packets that look for loops. It is no program's: whoever hears such a packet lets go of it. */
#define LOOP_SOCKET 0x8A5E

/* Bytes of the longest packet that any link here carries. */
#define LONGEST 1500

static inline uint16_t get16(const uint8_t *field)
{
    return (uint16_t)(field[0] << 8 | field[1]);
}

static inline uint32_t get32(const uint8_t *field)
{
    return (uint32_t)get16(field) << 16 | get16(field + 2);
}

static inline void put16(uint8_t *field, uint16_t value)
{
    field[0] = (uint8_t)(value >> 8);
    field[1] = (uint8_t)value;
}

static inline void put32(uint8_t *field, uint32_t value)
{
    put16(field, (uint16_t)(value >> 16));
    put16(field + 2, (uint16_t)value);
}

static inline bool same_node(const uint8_t *a, const uint8_t *b)
{
    return memcmp(a, b, NODE) == 0;
}

static inline bool is_broadcast(const uint8_t *node)
{
    static const uint8_t everyone[NODE] = {0xFF, 0xFF, 0xFF, 0xFF, 0xFF, 0xFF};
    return same_node(node, everyone);
}

static inline bool is_no_node(const uint8_t *node)
{
    static const uint8_t nobody[NODE] = {0};
    return same_node(node, nobody);
}

/* Whether a header's length is one that a packet of these bytes can have; behind it lies padding. */
static inline bool has_length(const uint8_t *bytes, size_t length)
{
    return length >= HEADER && get16(bytes + AT_LENGTH) >= HEADER && get16(bytes + AT_LENGTH) <= length;
}

#endif

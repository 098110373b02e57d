/* Packets for the programs beside it, byte by byte as docs/PACKETS.md has them: highest byte first. */
#ifndef PACKETS_H
#define PACKETS_H

#include <stddef.h>
#include <stdint.h>
#include <string.h>

enum { HEADER = 30, ENTRY = 8, SERVICE = 64, ENTRIES = 50, SERVICES = 7 };
enum { RIP = 1, SAP = 4, RIP_SOCKET = 0x0453, SAP_SOCKET = 0x0452, RESPONSE = 2 };

static const uint8_t EVERYONE[6] = {0xFF, 0xFF, 0xFF, 0xFF, 0xFF, 0xFF};

struct address {
    uint32_t network;
    const uint8_t *node;
    uint16_t socket;
};

static inline uint8_t *put_number(uint8_t *at, size_t bytes, uint32_t number)
{
    for (size_t k = bytes; k > 0; number >>= 8)
        at[--k] = (uint8_t)number;
    return at + bytes;
}

static inline uint32_t number_at(const uint8_t *at, size_t bytes)
{
    uint32_t number = 0;
    for (size_t k = 0; k < bytes; k++)
        number = number << 8 | at[k];
    return number;
}

static inline uint8_t *put_address(uint8_t *at, struct address address)
{
    at = put_number(at, 4, address.network);
    memcpy(at, address.node, 6);
    return put_number(at + 6, 2, address.socket);
}

/* Returns where the data begins. */
static inline uint8_t *put_header(uint8_t *at, size_t length, uint8_t type, struct address to, struct address from)
{
    at = put_number(at, 2, 0xFFFF);
    at = put_number(at, 2, (uint32_t)length);
    at = put_number(at, 1, 0);
    at = put_number(at, 1, type);
    return put_address(put_address(at, to), from);
}

static inline uint8_t *put_entry(uint8_t *at, uint32_t network, uint16_t hops, uint16_t ticks)
{
    return put_number(put_number(put_number(at, 4, network), 2, hops), 2, ticks);
}

static inline uint8_t *put_service(uint8_t *at, uint16_t type, const char *name, struct address offered, uint16_t hops)
{
    at = put_number(at, 2, type);
    memset(at, 0, 48);
    memcpy(at, name, strlen(name));
    return put_number(put_address(at + 48, offered), 2, hops);
}

/* A response of so many entries, which are put behind it, from a neighbour to all nodes of its network. Returns where they begin. */
static inline uint8_t *put_response(uint8_t *at, uint8_t type, size_t entries, uint32_t network, const uint8_t *neighbour)
{
    uint16_t socket = type == RIP ? RIP_SOCKET : SAP_SOCKET;
    size_t length = HEADER + 2 + entries * (type == RIP ? ENTRY : SERVICE);
    struct address to = {network, EVERYONE, socket};
    struct address from = {network, neighbour, socket};
    return put_number(put_header(at, length, type, to, from), 2, RESPONSE);
}

#endif

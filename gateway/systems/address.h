/* An address with its port, where datagrams and connections come from and go to; and names of machines. */
#ifndef ADDRESS_H
#define ADDRESS_H

#include <stdbool.h>
#include <stdint.h>
#include <string.h>

enum { HOST_ROOM = 254 /* bytes of a machine's name, with the 0 behind: as long as names of the Internet may be */ };

typedef struct address {
    uint8_t host[4]; /* of IPv4: its four numbers, as they are written; */
    bool is_six;     /* or it is one of IPv6, */
    uint8_t six[16]; /* with these bytes, which are 0 else */
    uint16_t port;   /* 0 where the system is to take a free one */
} address;

static inline bool same_address(const address *a, const address *b)
{
    return memcmp(a->host, b->host, sizeof a->host) == 0 && a->is_six == b->is_six && memcmp(a->six, b->six, sizeof a->six) == 0 &&
           a->port == b->port;
}

#endif

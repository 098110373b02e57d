/* The narrow line by which the networks are reached whose `line` says how wide it is: they share it. Who finds room there is the library's
 * to say (ipxr_limits.h). */
#ifndef LINE_H
#define LINE_H

#include <stdbool.h>
#include <stddef.h>
#include <stdint.h>

#include "configuration/settings.h"
#include "ipxr_limits.h"
#include "limits/strangers.h"
#include "siphash.h"

/* What an address uses of the line, or a link with frames, or the router. */
typedef struct line_use {
    ipxr_line_address at;
    uint64_t said;     /* the moment until which its part of what it says to all is used, */
    uint64_t answered; /* and until which that of what the gateway answers its clients is */
} line_use;

/* The line that a configuration names, if it names one. */
void line_set(const settings *set);

/* Whether it is narrower than the one before, or there was none. */
bool line_is_narrower(void);

/* An address has one more client there, or one fewer. */
void line_join(line_use *it);
void line_leave(line_use *it);

/* A second passes for an address, a link or the router: who was silent for long has no part any more. And one of them is gone. */
void line_second(line_use *it);
void line_end(line_use *it);
void line_router_second(void);
void line_router_end(void);

/* Copies of a packet of so many bytes are to go out: an address says it, which has clients there or on another network, or a link with frames;
 * or the router itself, to all or to one, each of which has parts of its own. If it belongs to pings, it goes out beyond all parts. */
void line_begin(line_use *from, size_t length);
void line_begin_router(bool is_to_all, size_t length);
void line_begin_ping(size_t length);

/* Whether there is room for a copy to an address; and it is sent. */
bool line_has_room(line_use *to);
void line_send(line_use *to);

/* Whether an answer of the gateway's own goes out to a client of an address; and it does. */
bool line_lets_answer(line_use *to);
void line_send_answer(line_use *to, size_t length);

/* A ping goes out, for which there is always room: by it clients stay. */
void line_send_ping(size_t length);

/* Whether the line is nearly idle, so that a client that hasn't answered may be pinged again; and it is. */
bool line_lets_again(void);
void line_send_again(size_t length);

/* Whether there is room for what the gateway says to a stranger, of whatever network; and a datagram of so many bytes goes out to him. The key
 * is of the hash by which addresses are told apart. Where more follows later, so many datagrams are counted at once, also of his address; what
 * follows is then asked of the line alone, where it leaves room for another's answer. */
bool line_lets_newcomer(strangers_part what, const uint8_t key[SIPHASH_KEY], const uint8_t place[6], uint32_t count);
bool line_lets_more(size_t length);
void line_send_more(size_t length);
void line_send_to_stranger(const uint8_t key[SIPHASH_KEY], const uint8_t place[6], size_t length);

/* Nanoseconds from a ping of so many bytes to the next, so that those of many clients keep to the gateway's part of the line. */
uint64_t line_between_pings(size_t length);

#endif

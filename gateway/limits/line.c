#include "limits/line.h"

#include <string.h>

#include "limits/meter.h"

/* Addresses of strangers that are told apart, and bytes of a place that are its address. */
enum { MOST_ADDRESSES = 4096, HOST = 4 };

/* What goes to strangers, or may follow, for registrations and for words: of all networks, and to each address. */
static struct {
    ipxr_strangers_limits limits;
    meter sent, hosts[MOST_ADDRESSES];
} newcomers[STRANGERS_PARTS];

static ipxr_line line;

/* Whether it was wider before it was set last, or there was none. */
static bool is_narrower;

/* What the router uses of it: by what it says to all, which others make it say, and by what it says to one, so its answers. */
static line_use router_to_all, router_to_one;

/* The packet whose copies are sent: the number of who says it, what he uses, and its bytes; and the rank of the copy that found room. */
static struct {
    uint8_t number;
    uint64_t *said;
    size_t length;
    uint8_t rank;
    bool is_of_pings;
} copies;

/* What is used of nobody's part. */
static uint64_t nobody;

/* So many pings go at once to those who speak. (more would use up for a moment what a registration finds of the line) */
enum { PINGS_AT_ONCE = 2 };

static void limit_pings(ipxr_limit *limit)
{
    limit->burst = PINGS_AT_ONCE * limit->each;
}

/* Each of both has the limits of a line that is as much narrower. */
static void set_limits(strangers_part what)
{
    ipxr_line part = line;
    part.kilobits = strangers_share(what, line.kilobits);
    ipxr_line_strangers(&part, &newcomers[what].limits);
    if (what == FOR_WORDS) {
        limit_pings(&newcomers[what].limits.all);
        limit_pings(&newcomers[what].limits.one);
    }
}

/* (by a line of another width other limits hold, from now on) */
void line_set(const settings *set)
{
    uint32_t before = line.kilobits;
    line.kilobits = 0;
    for (size_t k = 0; k < set->count; k++)
        if (set->networks[k].kilobits > 0)
            line.kilobits = set->networks[k].kilobits;
    is_narrower = line.kilobits > 0 && (before == 0 || line.kilobits < before);
    if (line.kilobits != before)
        memset(newcomers, 0, sizeof newcomers);
    set_limits(FOR_REGISTRATIONS);
    set_limits(FOR_WORDS);
}

bool line_is_narrower(void)
{
    return is_narrower;
}

void line_join(line_use *it)
{
    ipxr_line_join(&line, &it->at);
}

void line_leave(line_use *it)
{
    ipxr_line_leave(&line, &it->at);
}

void line_second(line_use *it)
{
    ipxr_line_second(&line, &it->at);
}

void line_end(line_use *it)
{
    ipxr_line_silence(&line, &it->at);
}

void line_router_second(void)
{
    line_second(&router_to_all);
    line_second(&router_to_one);
}

void line_router_end(void)
{
    line_end(&router_to_all);
    line_end(&router_to_one);
}

void line_begin(line_use *from, size_t length)
{
    copies.number = ipxr_line_speak(&line, &from->at);
    copies.said = &from->said;
    copies.length = length;
    copies.is_of_pings = false;
}

void line_begin_router(bool is_to_all, size_t length)
{
    line_begin(is_to_all ? &router_to_all : &router_to_one, length);
}

void line_begin_ping(size_t length)
{
    copies.number = 0;
    copies.said = &nobody;
    copies.length = length;
    copies.is_of_pings = true;
}

bool line_has_room(line_use *to)
{
    if (copies.is_of_pings) {
        copies.rank = IPXR_LINE_BEYOND;
        return ipxr_line_lets_beyond(&line, limit_clock());
    }
    copies.rank = ipxr_line_room(&line, limit_clock(), copies.number, copies.length, copies.said, &to->at);
    return copies.rank != IPXR_LINE_FULL;
}

void line_send(line_use *to)
{
    ipxr_line_send(&line, limit_clock(), copies.number, copies.length, copies.rank, copies.said, &to->at);
}

bool line_lets_answer(line_use *to)
{
    return ipxr_line_lets_answer(&line, limit_clock(), &to->answered);
}

void line_send_answer(line_use *to, size_t length)
{
    ipxr_line_send_answer(&line, limit_clock(), length, &to->answered);
}

void line_send_ping(size_t length)
{
    ipxr_line_send_ping(&line, limit_clock(), length);
}

bool line_lets_again(void)
{
    return ipxr_line_lets_beyond(&line, limit_clock());
}

/* (beyond all parts, so it is counted of none, and of no address) */
void line_send_again(size_t length)
{
    static ipxr_line_address none;
    ipxr_line_send(&line, limit_clock(), 0, length, IPXR_LINE_BEYOND, &nobody, &none);
}

static size_t place_among(const uint8_t key[SIPHASH_KEY], const uint8_t place[6])
{
    return siphash(key, place, HOST) % MOST_ADDRESSES;
}

/* What an address of strangers uses of their part. */
static uint64_t *stranger(const uint8_t key[SIPHASH_KEY], const uint8_t place[6])
{
    static uint64_t used[MOST_ADDRESSES];
    return &used[place_among(key, place)];
}

/* Whether a datagram may go to strangers on a line, whatever their address uses. */
static bool lets_stranger(ipxr_line *on)
{
    uint64_t none = 0;
    return ipxr_line_lets_stranger(on, limit_clock(), &none);
}

/* (it leaves room for the answer to somebody who registers meanwhile; where there is none for two, nothing else may have gone lately) */
bool line_lets_more(size_t length)
{
    uint64_t none = 0;
    ipxr_line then = line;
    bool is_idle = line.to_strangers <= limit_clock();
    if (!lets_stranger(&line))
        return false;
    ipxr_line_send_to_stranger(&then, limit_clock(), length, &none);
    return is_idle || lets_stranger(&then);
}

void line_send_more(size_t length)
{
    uint64_t none = 0;
    ipxr_line_send_to_stranger(&line, limit_clock(), length, &none);
}

bool line_lets_newcomer(strangers_part what, const uint8_t key[SIPHASH_KEY], const uint8_t place[6], uint32_t count)
{
    ipxr_meter *host = meter_now(&newcomers[what].hosts[place_among(key, place)]);
    return ipxr_line_lets_stranger(&line, limit_clock(), stranger(key, place)) &&
           ipxr_strangers_send(&newcomers[what].limits, count, host, meter_now(&newcomers[what].sent)) == IPXR_PASSES;
}

void line_send_to_stranger(const uint8_t key[SIPHASH_KEY], const uint8_t place[6], size_t length)
{
    ipxr_line_send_to_stranger(&line, limit_clock(), length, stranger(key, place));
}

uint64_t line_between_pings(size_t length)
{
    uint64_t between;
    ipxr_line_between_pings(&line, length, &between);
    return between;
}

/* For the tests: what a receiver hears (receiver.c, and the library's limits behind it), by a clock that this program sets.
 *
 *     queues SEED COUNT   so many random calls, beside each of which stands what a simple model says; and the clock is set back by an hour
 *
 * The model is docs/FAIR.md, done slowly. It prints what it saw, and ends with 1 where that isn't what is due. */
#include "limits/receiver.h"

#include "own_clock.h"

/* Packets a second that a client receives; frames of one; pieces of a short one, and of the longest; and bytes of a short one. */
enum { RECEIVED = 900, MOST_FRAMES = 4, SHORTEST = 22, LONGEST = 89, SHORT = 100 };

/* How long the queues of all senders are, and what is left of the time. */
typedef struct queues {
    uint64_t senders, length[IPXR_SPEAKERS], left;
} queues;

typedef struct model {
    uint64_t looked;
    queues packets, pieces;
} model;

static uint64_t waiting_of(const queues *it, uint64_t *shortest)
{
    uint64_t count = 0;
    *shortest = UINT64_MAX;
    for (size_t k = 0; k < it->senders; k++) {
        count += it->length[k] > 0;
        if (it->length[k] > 0 && it->length[k] < *shortest)
            *shortest = it->length[k];
    }
    return count;
}

static uint64_t all_of(const queues *it)
{
    uint64_t sum = 0;
    for (size_t k = 0; k < it->senders; k++)
        sum += it->length[k];
    return sum;
}

static void take_of_each(queues *it, uint64_t part)
{
    for (size_t k = 0; k < it->senders; k++)
        it->length[k] -= it->length[k] > 0 ? part : 0;
}

/* All that wait are served alike, one after the other to the end. */
static void model_serve(queues *it, uint64_t passed)
{
    uint64_t time = it->left + passed, shortest, count;
    while ((count = waiting_of(it, &shortest)) > 0 && time / count >= shortest) {
        take_of_each(it, shortest);
        time -= shortest * count;
    }
    if (count > 0)
        take_of_each(it, time / count);
    it->left = count > 0 ? time % count : 0;
}

/* The three cases in which there is room. */
static bool model_has_room(const ipxr_fair_setting *of, const queues *it, size_t number, uint64_t weight)
{
    uint64_t own = it->length[number] + weight, all = all_of(it) + weight;
    return own <= of->one || (own <= of->own && all <= of->room + of->reserve) || it->length[number] + all <= of->room;
}

/* A packet of so many bytes takes so many pieces. */
static uint64_t pieces_of(size_t length)
{
    return length > 600 ? 89 : length > 110 ? 37 : 22;
}

static bool model_hears(const ipxr_reading *as, model *it, size_t number, size_t length, uint32_t frames)
{
    uint64_t packets = frames * as->packet, bytes = frames * pieces_of(length) * as->piece;
    model_serve(&it->packets, now - it->looked);
    model_serve(&it->pieces, now - it->looked);
    it->looked = now;
    if (!model_has_room(&as->packets, &it->packets, number, packets) || !model_has_room(&as->pieces, &it->pieces, number, bytes))
        return false;
    it->packets.length[number] += packets;
    it->pieces.length[number] += bytes;
    return true;
}

static void compare(const ipxr_fair *it, const queues *like, const ipxr_fair_setting *of)
{
    uint64_t shortest, waiting = waiting_of(like, &shortest);
    for (size_t k = 0; k < like->senders; k++)
        expect((it->ends[k] > it->served ? it->ends[k] - it->served : 0) == like->length[k], "a queue is as long as in the model");
    expect(it->waits == waiting && it->total == all_of(like) && it->left == like->left, "what is counted of queues is so");
    expect(it->total <= of->room + of->reserve + of->one * like->senders, "no more waits than there is room for");
}

/* How many may wait, and a reserve, of packets or pieces of so many nanoseconds; in so many frames at most. */
static ipxr_fair_setting setting_of(uint64_t each, uint64_t room, uint64_t reserve, uint64_t frames)
{
    enum { OWN_PARTS = 8 };
    uint64_t one = each * frames, own = each * reserve / OWN_PARTS;
    return (ipxr_fair_setting){.one = one, .own = own > one ? own : one, .reserve = each * reserve, .room = each * room};
}

/* So many packets a second, each of so many pieces if it is one of those that are read as fast as by packets. */
static ipxr_reading reading_of(uint64_t count, uint64_t room, uint64_t reserve, uint64_t pieces, uint64_t frames)
{
    uint64_t packet = UINT64_C(1000000000) / count;
    return (ipxr_reading){.packet = packet, .piece = packet / pieces, .packets = setting_of(packet, room, reserve, frames),
        .pieces = setting_of(packet, pieces == LONGEST ? 64 : room, pieces == LONGEST ? 0 : reserve, frames)};
}

static ipxr_limits any_limits(void)
{
    static const uint64_t COUNTS[] = {3, 160, RECEIVED, 12800, 3000000}, PIECES[] = {SHORTEST, LONGEST};
    uint64_t room = 150 + draw(2) * draw(3000), reserve = 50 + draw(2) * draw(2000);
    return (ipxr_limits){.received = reading_of(COUNTS[draw(5)], room, reserve, PIECES[draw(2)], 1 + draw(MOST_FRAMES))};
}

/* Nanoseconds from one call to the next: none, as one turn has many; about as long as a packet takes; or much longer. */
static uint64_t any_time(const ipxr_reading *as)
{
    switch (draw(8)) {
    case 0:
    case 1:
    case 2:
        return 0;
    case 3:
        return draw(300);
    case 7:
        return draw(100) == 0 ? draw(2 * as->packets.room) : draw(8 * as->packet);
    default:
        return draw(2 * as->packet);
    }
}

/* Whether a packet of so many bytes goes out to it, in so many frames, that somebody says who has a number. */
static bool hears(const ipxr_limits *as, receiver *it, size_t number, size_t length, uint32_t frames)
{
    return ipxr_limits_carries(as, receiver_now(it), (uint8_t)number, length, frames) == IPXR_PASSES;
}

static void any_call(const ipxr_limits *as, receiver *it, model *like)
{
    static const size_t LENGTHS[] = {30, 110, 111, 600, 601, 1500};
    size_t length = LENGTHS[draw(6)], number = draw(like->packets.senders);
    uint32_t frames = 1 + (uint32_t)draw(MOST_FRAMES);
    bool is_heard = hears(as, it, number, length, frames);
    expect(is_heard == model_hears(&as->received, like, number, length, frames), "a packet is heard if the model hears it");
}

/* All is empty, and everybody has room. */
static void expect_peace(const ipxr_limits *as, receiver *it)
{
    for (size_t k = 0; k < IPXR_SPEAKERS; k++)
        expect(hears(as, it, k, SHORT, 1), "after peace everybody is heard");
}

/* Some calls with one setting, then peace. */
static void round_of_calls(uint64_t count)
{
    static receiver it;
    static model like;
    ipxr_limits as = any_limits();
    memset(&it, 0, sizeof it);
    it.clock = now;
    uint64_t senders = 1 + draw(draw(4) > 0 ? 8 : IPXR_SPEAKERS);
    like = (model){.looked = now, .packets.senders = senders, .pieces.senders = senders};
    receiver_set(&it, &as.received);
    for (uint64_t k = 0; k < count; k++) {
        pass(any_time(&as.received));
        any_call(&as, &it, &like);
        compare(&it.of.packets, &like.packets, &as.received.packets);
        compare(&it.of.pieces, &like.pieces, &as.received.pieces);
    }
    pass(it.of.packets.total > it.of.pieces.total ? it.of.packets.total : it.of.pieces.total);
    expect_peace(&as, &it);
}

static void calls(uint64_t count)
{
    enum { ROUND = 2000 };
    for (uint64_t k = 0; k < count; k += ROUND)
        round_of_calls(ROUND);
    printf("%" PRIu64 " calls\n", count);
}

/* Where the clock is set back no time passes; it goes on from there. And a setting that is the same leaves what waits. */
static void back(void)
{
    static receiver it;
    ipxr_limits as = {.received = reading_of(RECEIVED, 200, 50, LONGEST, 1)};
    pass(2 * 60 * MINUTE * MILLISECOND);
    receiver_set(&it, &as.received);
    for (size_t k = 0; k < 300; k++)
        (void)hears(&as, &it, k % 9, SHORT, 1);
    uint64_t waits = it.of.packets.total;
    now -= 60 * MINUTE * MILLISECOND;
    pass(0);
    receiver_set(&it, &as.received);
    expect(it.of.packets.waits == 9 && !hears(&as, &it, 0, SHORT, 1) && it.of.packets.total == waits, "all wait");
    pass(waits);
    expect_peace(&as, &it);
}

int main(int count, char **words)
{
    if (count < 3)
        return 1;
    seed ^= strtoull(words[1], NULL, 10);
    calls(strtoull(words[2], NULL, 10));
    back();
    return faults == 0 ? 0 : 1;
}

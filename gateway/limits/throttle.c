#include "limits/throttle.h"

#include <string.h>

/* Pings to all of a network, a second, and how many seconds' worth come at once. Each client answers each; of a link with frames it isn't known
 * how many are there, and of an address no more count. */
enum { PINGS = 4, SECONDS_AT_ONCE = 2, MOST_WHO_ANSWER = 16 };

/* What the library's decisions are called here, by their numbers. Of what a client said, or asked for, most count for it, too. */
typedef struct decision {
    reason why;
    drop counts; /* or DROPS */
} decision;

static const decision DECISIONS[] = {
    [IPXR_PASSES] = {REASONS, DROPS},
    [IPXR_TOO_MANY_PINGS] = {TOO_MANY_PINGS, DROPPED_PINGS},
    [IPXR_TOO_MANY_QUESTIONS] = {TOO_MANY_QUESTIONS, DROPPED_QUESTIONS},
    [IPXR_TOO_MANY_ADVERTISEMENTS] = {TOO_MANY_ADVERTISEMENTS, DROPPED_ADVERTISEMENTS},
    [IPXR_TOO_MUCH_FOR_ROUTER] = {TOO_MUCH_FOR_ROUTER, DROPPED_FOR_ROUTER},
    [IPXR_TOO_MUCH_FOR_CLIENT] = {TOO_MUCH_FOR_CLIENT, DROPS},
    [IPXR_TOO_MUCH_FOR_ADDRESS] = {TOO_MUCH_FOR_ADDRESS, DROPS},
    [IPXR_TOO_MUCH_FOR_LINK] = {TOO_MUCH_FOR_LINK, DROPS},
    [IPXR_TOO_MANY_ANSWERS] = {TOO_MANY_ANSWERS, DROPPED_ANSWERS},
    [IPXR_TOO_MUCH_FOR_STRANGERS] = {TOO_MANY_STRANGERS, DROPS},
};

static reason reason_of(uint8_t decided)
{
    return DECISIONS[decided].why;
}

/* The same of what a client said, or asked for; it is counted. */
static reason counted(member *client, uint8_t decided)
{
    if (DECISIONS[decided].counts != DROPS)
        client->dropped[DECISIONS[decided].counts]++;
    return reason_of(decided);
}

void throttle_set(throttle *it, const network_setting *set)
{
    uint8_t link = has_tunnel(set) ? IPXR_LIMITS_TUNNEL : IPXR_LIMITS_FRAMES;
    memset(it, 0, sizeof *it);
    it->is_off = !ipxr_limits_make(&it->limits, link, set->rate, set->share, set->routes, set->services);
    it->has_household = ipxr_household_make(&it->household, set->household);
}

/* ---- What is used now ---- */

static ipxr_client_use *used_by(member *client)
{
    ipxr_client_look(&client->used, &client->used_clock, limit_clock());
    return &client->used;
}

static ipxr_address_use *used_at(speaker *address)
{
    ipxr_address_look(&address->used, &address->used_clock, limit_clock());
    return &address->used;
}

/* What all links with frames tell the router together. */
static fair told;

static ipxr_fair *told_by_links(void)
{
    if (told.of.setting.one == 0)
        ipxr_told_make(&told.of);
    return fair_now(&told);
}

/* ---- What is said ---- */

reason throttle_lets_say(throttle *it, const origin *by)
{
    member *from = by->client;
    return it->is_off ? REASONS : counted(from, ipxr_limits_says(&it->limits, by->kind, used_by(from), meter_now(&it->pinged)));
}

void throttle_note(origin *by)
{
    size_t clients = by->speaks->clients, answer = clients > 0 && clients < MOST_WHO_ANSWER ? clients : MOST_WHO_ANSWER;
    bool is_answer = by->kind == IPXR_KIND_ANSWER;
    uint64_t each = SECOND_NS / (PINGS * answer), at_once = (uint64_t)SECONDS_AT_ONCE * SECOND_NS;
    by->is_beyond_pings = is_answer && ipxr_meter_lets(meter_now(&by->speaks->answers), at_once, each) == 0;
}

reason throttle_lets_in(throttle *it, uint8_t kind)
{
    return it->is_off ? REASONS : reason_of(ipxr_limits_frames_say(&it->limits, kind, meter_now(&it->pinged)));
}

bool throttle_lets_answer(const throttle *it, member *to)
{
    uint32_t clients = (uint32_t)to->speaks->clients;
    return it->is_off || counted(to, ipxr_limits_answers(&it->limits, clients, used_by(to), used_at(to->speaks))) == REASONS;
}

bool throttle_lets_router_answer(const throttle *it, member *to)
{
    uint32_t clients = (uint32_t)to->speaks->clients;
    return it->is_off || counted(to, ipxr_limits_router_answers(&it->limits, clients, used_by(to), used_at(to->speaks))) == REASONS;
}

reason throttle_hands(const throttle *it, const origin *by)
{
    speaker *of = by->speaks;
    if (it->is_off)
        return REASONS;
    ipxr_client_use *used = used_by(by->client);
    ipxr_meter *handed = account_of(&of->handed, &it->limits.handed);
    ipxr_meter *advertised = account_of(&of->advertised, &it->limits.advertisements);
    uint8_t decided = ipxr_limits_hands(&it->limits, (uint32_t)of->clients, by->kind, used, used_at(of), handed, advertised);
    return counted(by->client, decided);
}

reason throttle_hears(const throttle *it, const origin *by)
{
    speaker *of = by->speaks;
    if (it->is_off)
        return REASONS;
    ipxr_meter *asked = &used_at(of)->asked, *advertised = account_of(&of->advertised, &it->limits.advertisements);
    return reason_of(ipxr_limits_frames_hand(&it->limits, of->queue, by->kind, asked, advertised, told_by_links()));
}

/* ---- What is received ---- */

/* (others make clients answer pings, so answers don't count as said) */
uint8_t throttle_queue(const origin *by)
{
    if (by == NULL)
        return OF_ROUTER;
    bool is_of_pings = by->kind == IPXR_KIND_PING || (by->kind == IPXR_KIND_ANSWER && !by->is_beyond_pings);
    return is_of_pings ? OF_PINGS : speaker_speaks(by->speaks);
}

/* What a client receives of an address that has a limit. */
static uint8_t of_household(const throttle *it, member *to, ipxr_reader *client, uint8_t queue, size_t length)
{
    household *all = speaker_household(to->speaks, it->household.packet);
    if (queue >= OF_ADDRESSES && queue == to->speaks->queue)
        return ipxr_household_receives_of_own(&it->household, &it->limits, client, meter_now(&all->among), queue, length);
    fair_begin(&all->received, &it->household.received);
    ipxr_fair *received = fair_now(&all->received);
    if (queue == OF_ROUTER)
        return ipxr_household_receives_of_router(&it->household, &it->limits, client, received, queue, length);
    return ipxr_household_receives(&it->household, &it->limits, client, received, queue, length);
}

reason throttle_receives(const throttle *it, member *to, uint8_t queue, size_t length)
{
    if (it->is_off)
        return REASONS;
    receiver_set(to->queues, &it->limits.received);
    ipxr_reader *client = receiver_now(to->queues);
    if (it->has_household && !to->is_trusted)
        return reason_of(of_household(it, to, client, queue, length));
    if (queue != OF_ROUTER)
        return reason_of(ipxr_limits_receives(&it->limits, client, queue, length));
    ipxr_limits_hears_router(&it->limits, client, queue, length);
    return REASONS;
}

/* (networks of another kind have no clients. Of several networks on a link the first says how that reads) */
reason throttle_carries(const throttle *it, receiver *queues, const origin *by, size_t length, uint32_t frames)
{
    if (it->is_off || by == NULL || by->speaks->clients == 0)
        return REASONS;
    receiver_begin(queues, &it->limits.received);
    reason why = reason_of(ipxr_limits_carries(&it->limits, receiver_now(queues), throttle_queue(by), length, frames));
    if (why != REASONS && by->client != NULL)
        by->client->dropped[DROPPED_OF_IT]++;
    return why;
}

/* Uses what the header of limits has, in the C of 1989, which is also the C++ of 1998: it is read by each standard of both without a
 * warning. Run, it ends with 0 where limits are made, a client hears what it has room for and no more, and each limit names itself. */
#include "ipxr_limits.h"

static ipxr_reader client;
static ipxr_fair address, links;
static ipxr_queues queues;
static ipxr_line line;
static ipxr_line_address from, to;

static int are_made(ipxr_limits *limits, ipxr_household_limits *household, ipxr_strangers_limits *strangers)
{
    ipxr_told_make(&links);
    return !ipxr_limits_make(limits, IPXR_LIMITS_TUNNEL, 0, 50, 300, 100) &&
           ipxr_limits_make(limits, IPXR_LIMITS_TUNNEL, 800, 50, 300, 100) &&
           ipxr_household_make(household, 12800) && ipxr_strangers_make(strangers, 100) && links.setting.room > strangers->all.burst;
}

static int is_received(const ipxr_limits *limits, const ipxr_household_limits *household)
{
    uint64_t clock = 0;
    ipxr_meter among = {0};
    int is_right = ipxr_limits_receives(limits, &client, 9, 100) == IPXR_TOO_MUCH_FOR_CLIENT &&
                   ipxr_fair_make(&client.packets, &limits->received.packets) && ipxr_fair_make(&client.pieces, &limits->received.pieces) &&
                   ipxr_household_receives(household, limits, &client, &address, 9, 100) == IPXR_TOO_MUCH_FOR_ADDRESS &&
                   ipxr_household_receives_of_router(household, limits, &client, &address, 0, 100) == IPXR_TOO_MUCH_FOR_ADDRESS &&
                   ipxr_household_receives_of_own(household, limits, &client, &among, 9, 100) == IPXR_PASSES &&
                   ipxr_limits_carries(limits, &client, 9, 100, 9999) == IPXR_TOO_MUCH_FOR_LINK;
    ipxr_limits_hears_router(limits, &client, 0, 100);
    is_right = is_right && client.packets.total == 2 * limits->received.packet;
    ipxr_reader_look(&client, &clock, IPXR_MOST_TIME);
    return is_right && clock == IPXR_MOST_TIME && client.pieces.total == 0 && among.used == household->packet;
}

static int is_said(const ipxr_limits *limits)
{
    ipxr_client_use use = {{0}, {0}, {0}, {0}};
    ipxr_address_use all = {{0}, {0}, {0}};
    ipxr_meter pinged = {0}, handed = {0}, told = {0};
    uint64_t clock = 0;
    int is_right = ipxr_limits_says(limits, IPXR_KIND_PING, &use, &pinged) == IPXR_PASSES &&
                   ipxr_limits_frames_say(limits, IPXR_KIND_PING, &pinged) == IPXR_PASSES &&
                   ipxr_limits_answers(limits, 2, &use, &all) == IPXR_PASSES &&
                   ipxr_limits_router_answers(limits, 2, &use, &all) == IPXR_PASSES &&
                   ipxr_limits_hands(limits, 2, IPXR_KIND_QUESTION, &use, &all, &handed, &told) == IPXR_PASSES &&
                   ipxr_limits_frames_hand(limits, 9, IPXR_KIND_TOLD, &handed, &told, &links) == IPXR_PASSES && links.waits == 1;
    is_right = is_right && ipxr_queues_take(&queues, 16, IPXR_SPEAKERS - 1) == 16 && queues.users[16] == 1 && queues.last == 16;
    ipxr_queues_give_back(&queues, 16);
    is_right = is_right && queues.users[16] == 0;
    ipxr_client_look(&use, &clock, IPXR_MOST_TIME);
    ipxr_address_look(&all, &clock, 0);
    return is_right && use.pinged.used == 0 && all.asked.used == limits->questions.each / 2 && clock == 0;
}

static int is_sent(void)
{
    uint64_t said = 0, between = 0, stranger = 0, answered = 0;
    ipxr_strangers_limits newcomers;
    int is_right;
    ipxr_line_join(&line, &from);
    ipxr_line_join(&line, &to);
    is_right = ipxr_line_speak(&line, &from) == 1 && ipxr_line_room(&line, 0, 1, 100, &said, &to) == IPXR_LINE_WITHIN;
    ipxr_line_send(&line, 0, 1, 100, IPXR_LINE_WITHIN, &said, &to);
    is_right = is_right && line.used == 1297777777 && ipxr_line_room(&line, 0, 1, 100, &said, &to) == IPXR_LINE_FULL &&
               ipxr_line_lets_answer(&line, 0, &answered);
    ipxr_line_send_answer(&line, 0, 30, &answered);
    ipxr_line_send_ping(&line, 0, 30);
    is_right = is_right && ipxr_line_lets_stranger(&line, line.own, &stranger);
    ipxr_line_send_to_stranger(&line, line.own, 30, &stranger);
    ipxr_line_between_pings(&line, 30, &between);
    ipxr_line_strangers(&line, &newcomers);
    ipxr_line_second(&line, &from);
    ipxr_line_silence(&line, &from);
    ipxr_line_leave(&line, &from);
    return is_right && between == 21617777760 && newcomers.all.each == 27022222200 && line.speakers == 0 && line.addresses == 1 && from.quiet == 1;
}

int main(void)
{
    static const uint8_t bytes[30] = {0xFF, 0xFF, 0, 29};
    ipxr_limits limits;
    ipxr_household_limits household;
    ipxr_strangers_limits strangers;
    ipxr_meter one = {0}, all = {0};
    int is_right = are_made(&limits, &household, &strangers) && is_received(&limits, &household) && is_said(&limits) && is_sent() &&
                   ipxr_kind_of(bytes, sizeof bytes) == IPXR_KIND_OTHER && ipxr_strangers_send(&strangers, 2, &one, &all) == IPXR_PASSES &&
                   ipxr_strangers_send(&strangers, 1000, &one, &all) == IPXR_TOO_MUCH_FOR_STRANGERS;
    return is_right ? 0 : 1;
}

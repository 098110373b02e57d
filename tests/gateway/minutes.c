/* For the tests: what is limited, by a clock that this program sets.
 *
 *     minutes link FRAMES RATE   on a link five say 35 packets a second and a sixth RATE, each in FRAMES frames: for ten minutes all six,
 *                                for ten more the five, and then the sixth again
 *     minutes parts COUNT        so many addresses say 1,000 packets a second to one client, and one more says nine tenths of its part
 *     minutes once               what a client receives at once, of one address and of many
 *     minutes two                an address has clients on two networks, and somebody floods those of the slower one
 *     minutes address            a client has no room for what its address has room for, and the other way round
 *     minutes line KILOBITS      four play by a line of so many kilobits, beside one who says 1,000 of the longest packets a second: for
 *                                ten minutes all five, and for one more the four
 *     minutes narrow             one says the longest packets by a line of 8 kbit/s: in ten minutes no more than nine tenths of it are used
 *     minutes silent             60 silent clients of one address, which came first, and four players by a line of 1 Mbit/s, with pings
 *     minutes crowds             three addresses with 20 silent clients each flood five players by a line of 1 Mbit/s
 *     minutes itself             two addresses with a client each flood a third, and themselves, by a line of 1 Mbit/s
 *     minutes pings              somebody floods four players with answers to pings by a line of 1 Mbit/s, beside a PC of QEMU
 *     minutes networks           two of four addresses flood the others by a line of 1 Mbit/s, beside a PC of QEMU
 *     minutes numbers            126 addresses speak to four players by a line once, and then those who got the players' numbers flood
 *     minutes router             clients and a link say to the router what it limits: for ten minutes it hears as much as it is to
 *     minutes links              eleven links tell the router as much as each may, for a minute: it hears no more than of one, and a twelfth
 *                                whole that tells its tables twice, at once
 *     minutes accounts           an address says more than the router hears by a network's limits: by another's it is heard
 *     minutes none               what one limit refuses isn't counted by the others that it would have to pass
 *     minutes gateway            the same of what the gateway answers to clients and strangers, and of pings for all
 *
 * It prints what it saw, and ends with 1 where that isn't what is due. */
#include "limits/throttle.h"

#include "ipx.h"
#include "limits/strangers.h"
#include "own_clock.h"

/* As a network has them where no line says them. */
enum { RATE = 800, SHARE = 50, RECEIVED = RATE + 2 * SHARE, USUAL = 16 * RATE };

/* ---- Those who speak ---- */

enum { MOST_SPEAKERS = 250, PLAYERS = 5, SHORT = 100 };

/* Sockets. */
enum { RIP = 0x453, SAP = 0x452, PING = 2, GAMES = 0x4003 };

static speaker *speakers[MOST_SPEAKERS];

/* Some addresses that have a client each. */
static void join(size_t count)
{
    for (size_t k = 0; k < count; k++)
        speakers[k] = speaker_join((uint8_t[4]){10, 0, (uint8_t)(k >> 8), (uint8_t)k});
}

static network_setting usual(link_type type)
{
    return (network_setting){.type = type, .rate = RATE, .share = SHARE, .household = USUAL};
}

/* A client at an address of its own, which receives. */
static member client_at(uint8_t last)
{
    return (member){.speaks = speaker_join((uint8_t[4]){10, 1, 0, last}), .queues = calloc(1, sizeof(receiver))};
}

/* What a packet from a socket to another one is, for all or for a node, with a word behind the header. */
static uint8_t kind_of(uint16_t to, uint16_t from, bool is_for_all, uint16_t word)
{
    uint8_t bytes[HEADER + 4] = {0};
    put16(bytes + AT_LENGTH, sizeof bytes);
    memset(bytes + AT_TO_NODE, is_for_all ? 0xFF : 0, NODE);
    put16(bytes + AT_TO_SOCKET, to);
    put16(bytes + AT_FROM_SOCKET, from);
    put16(bytes + HEADER, word);
    return ipxr_kind_of(bytes, sizeof bytes);
}

/* Somebody who says a packet of a game to all. */
static origin game_of(speaker *from)
{
    return (origin){.speaks = from, .kind = kind_of(GAMES, GAMES, true, 0)};
}

/* How many packets one has said who says so many a second, so many milliseconds after he began. */
static uint64_t said_by(uint64_t rate, uint64_t milliseconds)
{
    return (rate * milliseconds + SECOND - 1) / SECOND;
}

static void pass_millisecond(uint64_t at)
{
    pass(MILLISECOND);
    if (at % SECOND == 0)
        speakers_second();
}

/* ---- A link with several kinds of frames ---- */

typedef struct wire {
    throttle limits;
    receiver *queues;
    uint32_t frames;
    uint64_t said[PLAYERS + 1], heard[PLAYERS + 1];
} wire;

static void say_up_to(wire *it, size_t who, uint64_t count)
{
    origin by = game_of(speakers[who]);
    for (; it->said[who] < count; it->said[who]++)
        it->heard[who] += throttle_carries(&it->limits, it->queues, &by, SHORT, it->frames) == REASONS;
}

/* For some milliseconds the players say 35 packets a second each, a little late, and a sixth as many as are named. Each player is heard
 * whole, and the sixth has what they leave. */
static void play(wire *it, uint64_t rate, uint64_t lasts)
{
    enum { GAME = 35, LATE = 10 };
    uint64_t before = it->heard[PLAYERS];
    memset(it->said, 0, sizeof it->said);
    memset(it->heard, 0, sizeof it->heard);
    for (uint64_t at = 1; at <= lasts; at++) {
        pass_millisecond(at);
        for (size_t k = 0; k < PLAYERS; k++)
            say_up_to(it, k, said_by(GAME, at + draw(LATE)));
        say_up_to(it, PLAYERS, said_by(rate, at));
    }
    for (size_t k = 0; k < PLAYERS; k++)
        expect(it->heard[k] == it->said[k], "a player is heard whole");
    uint64_t left = (uint64_t)RECEIVED / it->frames - PLAYERS * GAME, part = rate < left ? rate : left, heard = it->heard[PLAYERS];
    expect(heard * 100 >= part * (lasts / SECOND) * 99, "who says most has what the others leave");
    expect(heard <= part * (lasts / SECOND) + 250, "nobody has more than that");
    if (rate > 0 || before > 0)
        printf("in %" PRIu64 " s %" PRIu64 " of %" PRIu64 " packets of the sixth\n", lasts / SECOND, heard, it->said[PLAYERS]);
}

static void link_with(uint32_t frames, uint64_t rate)
{
    network_setting set = usual(LINK_INTERFACE);
    wire it = {.frames = frames, .queues = calloc(1, sizeof(receiver))};
    join(PLAYERS + 1);
    throttle_set(&it.limits, &set);
    for (int k = 0; k < 10; k++)
        play(&it, rate, MINUTE);
    play(&it, 0, 10 * MINUTE);
    play(&it, 1, MINUTE);
    free(it.queues);
}

/* ---- A client ---- */

static reason why_not(const throttle *it, member *to, speaker *from, size_t length)
{
    origin by = game_of(from);
    return throttle_receives(it, to, throttle_queue(&by), length);
}

static bool receives(const throttle *it, member *to, speaker *from, size_t length)
{
    return why_not(it, to, from, length) == REASONS;
}

static void parts(size_t count)
{
    enum { FLOOD = 1000 };
    network_setting set = usual(LINK_DOSBOX);
    throttle limits;
    member to = client_at(1);
    uint64_t said[MOST_SPEAKERS] = {0}, heard[MOST_SPEAKERS] = {0}, little = RECEIVED * 9 / 10 / (count + 1), sum = 0;
    join(count + 1);
    throttle_set(&limits, &set);
    for (uint64_t at = 1; at <= MINUTE; at++) {
        pass_millisecond(at);
        for (size_t k = 0; k <= count; k++)
            for (; said[k] < said_by(k < count ? FLOOD : little, at); said[k]++)
                heard[k] += receives(&limits, &to, speakers[k], SHORT);
    }
    uint64_t part = (RECEIVED - little) * (MINUTE / SECOND) / count;
    for (size_t k = 0; k < count; k++) {
        expect(heard[k] * 100 >= part * 98, "each who floods has its part of what the other leaves");
        sum += heard[k];
    }
    expect(heard[count] == said[count], "who says less than its part is heard whole");
    expect(sum + heard[count] <= RECEIVED * (MINUTE / SECOND) + 258 + count, "a client receives no more than it reads");
    printf("of %zu who flood %" PRIu64 " packets in a minute, of the other %" PRIu64 "\n", count, sum, heard[count]);
    free(to.queues);
}

/* What a client receives at once of some addresses that say as much as they can: one after the other, or by turns. */
static uint64_t at_once(size_t count, size_t length, uint32_t share, bool by_turns)
{
    enum { SAY = 300 };
    network_setting set = usual(LINK_DOSBOX);
    throttle limits;
    member to = client_at(2);
    uint64_t heard = 0;
    set.share = share;
    set.household = 0;
    throttle_set(&limits, &set);
    for (size_t k = 0; k < count * SAY; k++)
        heard += receives(&limits, &to, speakers[by_turns ? k % count : k / SAY], length);
    speaker_leave(to.speaks);
    free(to.queues);
    return heard;
}

/* The most that these take beyond so much of each address, of up to so many addresses. */
static uint64_t most_at_once(size_t addresses, size_t length, uint32_t share, uint64_t takes, uint64_t of_each)
{
    uint64_t most = 0;
    for (size_t count = 1; count <= addresses; count++)
        for (int by_turns = 0; by_turns < 2; by_turns++) {
            uint64_t taken = at_once(count, length, share, by_turns == 1) * takes;
            most = taken > most + of_each * count ? taken - of_each * count : most;
        }
    return most;
}

/* Beyond a packet of each address no more than five shares, or 250; and of bytes no more than 64 of the longest take, and one of these of
 * each address. */
static void at_once_of(uint32_t share, size_t length, uint64_t pieces)
{
    enum { ADDRESSES = 40, LONGEST_PIECES = 89, LONGEST_AT_ONCE = 64 };
    uint64_t packets = most_at_once(ADDRESSES, length, share, 1, 1), bytes = most_at_once(ADDRESSES, length, share, pieces, LONGEST_PIECES);
    expect(packets <= 5 * (share > SHARE ? share : SHARE), "what all have, beside one of each");
    expect(bytes <= LONGEST_AT_ONCE * LONGEST_PIECES, "and what all take, beside one of the longest of each");
    printf("with a share of %" PRIu32 ": %" PRIu64 " packets of %zu bytes\n", share, packets, length);
}

/* What a client receives of one who speaks alone, after the router has said much: all of that goes out, and counts. */
static uint64_t behind_the_router(void)
{
    enum { SAY = 300 };
    network_setting set = usual(LINK_DOSBOX);
    throttle limits;
    member to = client_at(2);
    uint64_t of_router = 0, heard = 0;
    throttle_set(&limits, &set);
    for (size_t k = 0; k < SAY; k++)
        of_router += throttle_receives(&limits, &to, OF_ROUTER, SHORT) == REASONS;
    for (size_t k = 0; k < SAY; k++)
        heard += receives(&limits, &to, speakers[0], SHORT);
    expect(of_router == SAY, "what the router says isn't dropped for a client");
    speaker_leave(to.speaks);
    free(to.queues);
    return heard;
}

/* By which queue what somebody says is received: his own, or that of pings; whoever asks a router, or tells it, from whatever socket. */
static void by_queues(void)
{
    origin game = game_of(speakers[0]), ping = game, answer = game, question = game, tells = game;
    ping.kind = kind_of(PING, GAMES, true, 0);
    answer.kind = kind_of(GAMES, PING, false, 0);
    question.kind = kind_of(RIP, PING, true, 1);
    tells.kind = kind_of(SAP, PING, true, 2);
    uint8_t own = throttle_queue(&game);
    expect(throttle_queue(NULL) == OF_ROUTER && own >= OF_ADDRESSES, "who speaks has a queue of its own");
    expect(throttle_queue(&ping) == OF_PINGS && throttle_queue(&answer) == OF_PINGS, "pings and their answers have another");
    expect(throttle_queue(&question) == own && throttle_queue(&tells) == own, "what is for routers is said, whatever its source");
}

/* What a link with frames carries of another such link, and of the router itself: all. */
static void from_other_links(void)
{
    enum { SAY = 3000, NUMBER = 3 };
    network_setting set = usual(LINK_INTERFACE);
    speaker network = {0};
    throttle limits;
    receiver queues = {.clock = 0};
    uint64_t carried = 0;
    throttle_set(&limits, &set);
    speaker_be_network(&network, NUMBER);
    origin by = game_of(&network);
    for (size_t k = 0; k < SAY; k++)
        carried += throttle_carries(&limits, &queues, k % 2 == 0 ? &by : NULL, SHORT, 1) == REASONS;
    expect(carried == SAY, "what other links and the router say has no limit on a link");
}

static void once(void)
{
    static const uint32_t SHARES[] = {1, SHARE, 4 * SHARE, RATE};
    join(MOST_SPEAKERS);
    pass(MILLISECOND);
    expect(at_once(1, 100, SHARE, false) == 100 && at_once(1, 1424, SHARE, false) == 32, "what one has who speaks alone");
    from_other_links();
    by_queues();
    expect(behind_the_router() < 100, "the router's packets count towards what a client receives");
    for (size_t k = 0; k < sizeof SHARES / sizeof *SHARES; k++) {
        at_once_of(SHARES[k], 100, 22);
        at_once_of(SHARES[k], 600, 37);
        at_once_of(SHARES[k], 1424, 89);
    }
}

/* An address has two clients on a network whose addresses receive little and two on another: there somebody plays, while on the first
 * somebody floods. */
static void two(void)
{
    enum { CLIENTS = 4, LITTLE = 160, GAME = 35, FLOOD = 1000 };
    network_setting slow = usual(LINK_DOSBOX), usually = usual(LINK_DOSBOX);
    throttle limits[2];
    member to[CLIENTS];
    uint64_t said = 0, heard = 0, of_flood = 0;
    slow.household = LITTLE;
    throttle_set(&limits[0], &slow);
    throttle_set(&limits[1], &usually);
    join(2);
    for (size_t k = 0; k < CLIENTS; k++)
        to[k] = client_at(3);
    for (uint64_t at = 1; at <= MINUTE; at++) {
        pass_millisecond(at);
        for (size_t k = 0; k < CLIENTS / 2; k++)
            of_flood += receives(&limits[0], &to[k], speakers[0], SHORT);
        for (; said < said_by(GAME, at); said++)
            for (size_t k = CLIENTS / 2; k < CLIENTS; k++)
                heard += receives(&limits[1], &to[k], speakers[1], SHORT);
    }
    printf("of the player %" PRIu64 " packets, of who floods %" PRIu64 "\n", heard, of_flood);
    expect(heard == CLIENTS / 2 * said, "who plays on the other network is heard whole");
    expect(of_flood <= LITTLE * (MINUTE / SECOND) + 500, "who floods has no more than the address receives there");
    speakers_forget();
    memset(to[0].queues, 0, sizeof *to[0].queues);
    bool is_heard = receives(&limits[0], &to[0], speakers[0], SHORT) && receives(&limits[1], &to[CLIENTS - 1], speakers[1], SHORT);
    expect(is_heard, "what was received before other limits counts no more");
    for (size_t k = 0; k < CLIENTS; k++) {
        speaker_leave(to[k].speaks); /* (the sanitizers see that nothing is left of the address) */
        free(to[k].queues);
    }
}

/* ---- A narrow line ---- */

enum { BY_LINE = 5 };

/* Copies of a packet go to all others by the line. Returns how many found no room. */
static uint64_t say_by_line(size_t who, size_t length)
{
    uint64_t lost = 0;
    line_begin(&speakers[who]->line, length);
    for (size_t k = 0; k < BY_LINE; k++) {
        line_use *to = &speakers[k]->line;
        bool has_room = k != who && line_has_room(to);
        if (has_room)
            line_send(to);
        lost += k != who && !has_room;
    }
    return lost;
}

/* Four say 35 short packets a second each, the fifth as many of the longest as are named. Returns how many copies of the fifth are lost. */
static uint64_t play_by_line(uint64_t rate, uint64_t lasts)
{
    enum { GAME = 35, LATE = 10, FIFTH = BY_LINE - 1 };
    uint64_t said[BY_LINE] = {0}, lost = 0, of_players = 0;
    for (uint64_t at = 1; at <= lasts; at++) {
        pass_millisecond(at);
        for (size_t k = 0; k < FIFTH; k++)
            for (; said[k] < said_by(GAME, at + draw(LATE)); said[k]++)
                of_players += say_by_line(k, SHORT);
        for (; said[FIFTH] < said_by(rate, at); said[FIFTH]++)
            lost += say_by_line(FIFTH, 1424);
    }
    expect(of_players == 0, "by a line each who plays is heard whole");
    printf("by the line %" PRIu64 " of %" PRIu64 " copies of the fifth are lost\n", lost, FIFTH * said[FIFTH]);
    return lost;
}

static void use_line_of(uint32_t kilobits)
{
    static settings set;
    set.count = 1;
    set.networks[0].kilobits = kilobits;
    line_set(&set);
}

static void by_line(uint32_t kilobits)
{
    use_line_of(kilobits);
    join(BY_LINE);
    for (size_t k = 0; k < BY_LINE; k++)
        line_join(&speakers[k]->line);
    expect(play_by_line(1000, 10 * MINUTE) > 0, "the line has no room for all");
    (void)play_by_line(0, MINUTE);
    expect(play_by_line(1, MINUTE) == 0, "the fifth is heard whole again, once it says little");
}

/* Each packet takes such a line longer than a second. */
static void narrow(void)
{
    enum { KILOBITS = 8, LONG = 1424, HEADERS = 46, BITS = 8, TENTHS = 9, LASTS = 10 * MINUTE };
    uint64_t sent = 0;
    use_line_of(KILOBITS);
    join(2);
    for (size_t k = 0; k < 2; k++)
        line_join(&speakers[k]->line);
    for (uint64_t at = 1; at <= LASTS; at++) {
        pass_millisecond(at);
        line_begin(&speakers[0]->line, LONG);
        if (line_has_room(&speakers[1]->line)) {
            line_send(&speakers[1]->line);
            sent++;
        }
    }
    uint64_t most = (uint64_t)KILOBITS * LASTS * TENTHS / 10 / ((LONG + HEADERS) * BITS);
    printf("%" PRIu64 " packets, of %" PRIu64 " that the line carries\n", sent, most);
    expect(sent > most / 2 && sent <= most + 1, "a narrow line carries no more than nine tenths of its width");
}

/* An address has silent clients, which came before the players, so that their copies are sent first; and the gateway pings all. Each player
 * says less than his part of each address. (the copies for the silent clients are more than their address' part) */
static void silent(void)
{
    enum { SILENT = 60, PLAY = 4, GAME = 20, PACKET = 90, A_PING = 76, KILOBITS = 1000, LASTS = 5 * MINUTE, BETWEEN_PINGS = 150 };
    uint64_t said[PLAY] = {0}, lost = 0;
    use_line_of(KILOBITS);
    join(PLAY + 1);
    for (size_t k = 0; k < SILENT; k++)
        line_join(&speakers[PLAY]->line);
    for (size_t k = 0; k < PLAY; k++)
        line_join(&speakers[k]->line);
    for (uint64_t at = 1; at <= LASTS; at++) {
        pass_millisecond(at);
        if (at % BETWEEN_PINGS == 0)
            line_send_ping(A_PING);
        for (size_t who = 0; who < PLAY; who++)
            for (; said[who] < said_by(GAME, at + who); said[who]++) {
                line_begin(&speakers[who]->line, PACKET);
                for (size_t k = 0; k < SILENT; k++)
                    if (line_has_room(&speakers[PLAY]->line))
                        line_send(&speakers[PLAY]->line);
                for (size_t k = 0; k < PLAY; k++) {
                    bool has_room = k != who && line_has_room(&speakers[k]->line);
                    if (has_room)
                        line_send(&speakers[k]->line);
                    lost += k != who && !has_room;
                }
            }
    }
    uint64_t all = (PLAY - 1) * (said[0] + said[1] + said[2] + said[3]);
    printf("%" PRIu64 " of %" PRIu64 " copies of the players are lost\n", lost, all);
    expect(1000 * lost < all, "beside silent clients players within their parts of a line are heard");
}

/* Whether there was room for a copy, which went out then. */
static bool goes_to(size_t whom)
{
    bool has_room = line_has_room(&speakers[whom]->line);
    if (has_room)
        line_send(&speakers[whom]->line);
    return has_room;
}

/* Addresses fill the line with long packets to each player, as many as find room, and have silent clients, which came before the players.
 * Each player says to each other what his part of that one's part is. (all have begun to speak, so parts stay what they are) */
static void crowds(void)
{
    enum { PLAY = 5, CROWDS = 3, SILENT = 20, GAME = 9, PACKET = 154, LONG = 1424, KILOBITS = 1000, LASTS = 2 * MINUTE };
    uint64_t said[PLAY] = {0}, lost = 0, all = 0;
    use_line_of(KILOBITS);
    join(PLAY + CROWDS);
    for (size_t k = 0; k < PLAY + CROWDS; k++) {
        for (size_t clients = 0; clients < (k < PLAY ? 1 : SILENT); clients++)
            line_join(&speakers[k]->line);
        line_begin(&speakers[k]->line, PACKET);
    }
    for (size_t who = 0; who < PLAY; who++)
        said[who] = said_by(GAME, 20 * who);
    for (uint64_t at = 1; at <= LASTS; at++) {
        pass_millisecond(at);
        for (size_t crowd = PLAY; crowd < PLAY + CROWDS; crowd++)
            for (size_t k = 0; k < PLAY; k++) {
                line_begin(&speakers[crowd]->line, LONG);
                (void)goes_to(k);
            }
        for (size_t who = 0; who < PLAY; who++)
            for (; said[who] < said_by(GAME, at + 20 * who); said[who]++) {
                line_begin(&speakers[who]->line, PACKET);
                for (size_t k = PLAY; k < PLAY + CROWDS; k++)
                    for (size_t clients = 0; clients < SILENT; clients++)
                        (void)goes_to(k);
                for (size_t k = 0; k < PLAY; k++)
                    lost += k != who && !goes_to(k);
                all += PLAY - 1;
            }
    }
    printf("%" PRIu64 " of %" PRIu64 " copies of the players are lost\n", lost, all);
    expect(lost == 0 && all > 0, "beside addresses that flood and have silent clients players within their parts of a line lose nothing");
}

/* Some addresses with a client each are on the line, and begin to speak. */
static void begin_on_line(size_t count, uint32_t kilobits)
{
    use_line_of(kilobits);
    join(count);
    for (size_t k = 0; k < count; k++) {
        line_join(&speakers[k]->line);
        line_begin(&speakers[k]->line, SHORT);
    }
}

/* How many copies of a packet are lost, which one says who is no player; or the router, to all and to each. */
static uint64_t lost_of_copies(size_t count)
{
    uint64_t lost = 0;
    for (size_t k = 0; k < count; k++)
        lost += !goes_to(k);
    return lost;
}

static uint64_t lost_to_all(line_use *from, size_t count)
{
    line_begin(from, SHORT);
    return lost_of_copies(count);
}

static uint64_t lost_of_router(size_t count)
{
    line_begin_router(true, SHORT);
    uint64_t lost = lost_of_copies(count);
    line_begin_router(false, SHORT);
    return lost + lost_of_copies(count);
}

/* Two addresses say as much as they can to a third and to themselves. */
static void itself(void)
{
    enum { FLOOD = 2, ALL = 3, GAME = 35, KILOBITS = 1000, LASTS = 2 * MINUTE };
    uint64_t said = 0, lost = 0;
    begin_on_line(ALL, KILOBITS);
    for (uint64_t at = 1; at <= LASTS; at++) {
        pass_millisecond(at);
        for (size_t who = 0; who < FLOOD; who++) {
            line_begin(&speakers[who]->line, 30 + draw(130));
            for (size_t k = 0; k < ALL; k++)
                (void)goes_to(k);
        }
        for (; said < said_by(GAME, at); said++) {
            line_begin(&speakers[FLOOD]->line, SHORT);
            for (size_t k = 0; k < FLOOD; k++)
                lost += !goes_to(k);
        }
    }
    printf("%" PRIu64 " of %" PRIu64 " copies of the player are lost\n", lost, FLOOD * said);
    expect(lost == 0 && said > 0, "beside addresses that flood themselves, too, a player within his parts of a line loses nothing");
}

/* A PC of QEMU says something to four players, whom somebody floods with what looks like answers to pings. */
static void pings_by_line(void)
{
    enum { ALL = 5, GAME = 10, LONG = 1400, KILOBITS = 1000, LASTS = 2 * MINUTE };
    static line_use pc;
    uint64_t said = 0, lost = 0;
    begin_on_line(ALL, KILOBITS);
    for (uint64_t at = 1; at <= LASTS; at++) {
        pass_millisecond(at);
        line_begin_ping(LONG);
        for (size_t k = 0; k < ALL; k++)
            (void)goes_to(k);
        for (; said < said_by(GAME, at); said++)
            lost += lost_to_all(&pc, ALL);
    }
    printf("%" PRIu64 " of %" PRIu64 " copies of the PC are lost\n", lost, ALL * said);
    expect(lost == 0 && said > 0, "beside a flood of answers to pings a PC of QEMU is heard by a line");
}

/* Two addresses flood two players, who say less than their parts, and each other; a PC of QEMU and the router speak to all. */
static void networks(void)
{
    enum { FLOOD = 2, ALL = 4, GAME = 10, KILOBITS = 1000, LASTS = 2 * MINUTE };
    static line_use pc;
    uint64_t said = 0, lost = 0;
    begin_on_line(ALL, KILOBITS);
    for (uint64_t at = 1; at <= LASTS; at++) {
        pass_millisecond(at);
        for (size_t who = 0; who < FLOOD; who++) {
            line_begin(&speakers[who]->line, 400);
            for (size_t k = 0; k < ALL; k++)
                (void)(k != who && goes_to(k));
        }
        for (; said < said_by(GAME, at); said++) {
            for (size_t who = FLOOD; who < ALL; who++) {
                line_begin(&speakers[who]->line, SHORT);
                for (size_t k = 0; k < ALL; k++)
                    lost += k != who && !goes_to(k);
            }
            lost += lost_to_all(&pc, ALL) + lost_of_router(ALL);
        }
    }
    printf("%" PRIu64 " copies of those within their parts are lost, who said %" PRIu64 " packets each\n", lost, said);
    expect(lost == 0 && said > 0, "beside two addresses that flood players, a PC of QEMU and the router lose nothing of a line");
}

/* Players say more than a line carries; a PC of QEMU and the router say little to all. */
static void beyond(void)
{
    enum { ALL = 7, GAME = 35, PACKET = 100, FEW = 2, KILOBITS = 1000, LASTS = 2 * MINUTE };
    static line_use pc;
    uint64_t said = 0, few = 0, lost = 0, of_players = 0;
    begin_on_line(ALL, KILOBITS);
    for (uint64_t at = 1; at <= LASTS; at++) {
        pass_millisecond(at);
        for (; said < said_by(GAME, at); said++)
            for (size_t who = 0; who < ALL; who++) {
                line_begin(&speakers[who]->line, PACKET);
                for (size_t k = 0; k < ALL; k++)
                    of_players += k != who && !goes_to(k);
            }
        for (; few < said_by(FEW, at); few++)
            lost += lost_to_all(&pc, ALL) + lost_of_router(ALL);
    }
    printf("%" PRIu64 " of %" PRIu64 " copies of a PC and the router are lost, and %" PRIu64 " of the players\n", lost, 3 * ALL * few, of_players);
    expect(lost == 0 && few > 0, "where players say more than a line carries a PC of QEMU and the router are heard");
    expect(of_players > 0, "and the players lose what is too much");
}

/* Two addresses with clients register again and again, and flood a line; a client of a third registers every two seconds. */
static void again(void)
{
    enum { FLOOD = 2, ALL = 3, AN_ANSWER = 30, LONG = 1400, KILOBITS = 300, LASTS = 2 * MINUTE, BETWEEN = 2 * SECOND };
    uint64_t answered = 0, asked = 0;
    begin_on_line(ALL, KILOBITS);
    for (uint64_t at = 1; at <= LASTS; at++) {
        pass_millisecond(at);
        for (size_t who = 0; who < FLOOD; who++) {
            line_begin(&speakers[who]->line, LONG);
            for (size_t k = 0; k < ALL; k++)
                (void)goes_to(k);
            if (line_lets_answer(&speakers[who]->line))
                line_send_answer(&speakers[who]->line, AN_ANSWER);
        }
        if (at % BETWEEN == 0) {
            bool lets = line_lets_answer(&speakers[FLOOD]->line);
            if (lets)
                line_send_answer(&speakers[FLOOD]->line, AN_ANSWER);
            asked++;
            answered += lets;
        }
    }
    printf("%" PRIu64 " of %" PRIu64 " registrations are answered\n", answered, asked);
    expect(answered == asked && asked > 0, "two addresses that register again and again leave others the answers to theirs");
}

/* More addresses than there are numbers speak once; of those who share a number with a player each speaks again, so that it keeps its own. From
 * the 40th second on they flood. Players say less than their part, and from the 60th on nothing of it is lost. */
static void numbers(void)
{
    enum { PLAY = 4, ALL = PLAY + 126, GAME = 10, LONG = 1400, KILOBITS = 3000, LASTS = 2 * MINUTE, SPEAKS = 5 * SECOND };
    uint64_t said[PLAY] = {0}, lost = 0;
    bool is_one[ALL] = {false};
    size_t count = 0;
    begin_on_line(ALL, KILOBITS);
    for (size_t k = PLAY; k < ALL; k++) {
        for (size_t who = 0; who < PLAY; who++)
            is_one[k] = is_one[k] || speakers[k]->line.at.number == speakers[who]->line.at.number;
        count += is_one[k];
        line_leave(&speakers[k]->line); /* (its client is on another network) */
    }
    expect(count > 0, "players share their numbers at first");
    for (uint64_t at = 1; at <= LASTS; at++) {
        pass_millisecond(at);
        for (size_t k = PLAY; k < ALL; k++)
            if (is_one[k] && (at > 40 * SECOND || at % SPEAKS == 0)) {
                line_begin(&speakers[k]->line, LONG);
                for (size_t to = 0; to < PLAY; to++)
                    (void)goes_to(to);
            }
        for (size_t who = 0; who < PLAY; who++)
            for (; said[who] < said_by(GAME, at + 20 * who); said[who]++) {
                line_begin(&speakers[who]->line, SHORT);
                for (size_t k = 0; k < PLAY; k++)
                    lost += k != who && !goes_to(k) && at > MINUTE;
            }
    }
    printf("%zu shared, %" PRIu64 " copies of the players are lost\n", count, lost);
    expect(lost == 0, "whoever shared a number of a line has his own again once there is one");
}

/* ---- What the router hears ---- */

enum { MOST_CLIENTS = 5 };

/* What somebody says to the router, from a socket to a socket, with a word behind the header; and how often he is heard at once, and a
 * second: one client of an address, one of several there, or a link. */
typedef struct words {
    const char *what;
    uint16_t to, from, word;
    uint64_t at_once[3], a_second[3];
} words;

static const words WORDS_TO_ROUTER[] = {
    {"a request of RIP", RIP, GAMES, 1, {4, 16, 80}, {1, 4, 20}},
    {"a query of SAP", SAP, GAMES, 1, {4, 16, 80}, {1, 4, 20}},
    {"a query of SAP for the nearest", SAP, GAMES, 3, {4, 16, 80}, {1, 4, 20}},
    {"a response of RIP", RIP, RIP, 2, {32, 32, 400}, {4, 4, 100}},
    {"a response of SAP", SAP, SAP, 2, {32, 32, 400}, {4, 4, 100}},
    {"an answer to a query for the nearest", SAP, SAP, 4, {32, 32, 400}, {4, 4, 100}},
    {"a packet of a game", GAMES, GAMES, 0, {64, 64, 0}, {400, 400, 0}},
    {"an answer to a ping", GAMES, PING, 0, {32, 32, 0}, {400, 400, 0}},
};

typedef struct teller {
    throttle limits;
    member clients[MOST_CLIENTS];
    size_t count; /* of clients of the address; 0 for a link */
    speaker *speaks;
    const words *says;
} teller;

/* Says it so many times, by one client after the other. Returns how often it was heard. */
static uint64_t say_to_router(teller *it, const words *what, uint64_t count)
{
    origin by = {.kind = kind_of(what->to, what->from, false, what->word)};
    uint64_t heard = 0;
    for (uint64_t k = 0; k < count; k++) {
        by.client = it->count > 0 ? &it->clients[k % it->count] : NULL;
        by.speaks = it->count > 0 ? by.client->speaks : it->speaks;
        heard += (it->count > 0 ? throttle_hands(&it->limits, &by) : throttle_hears(&it->limits, &by)) == REASONS;
    }
    return heard;
}

/* Looks for ten minutes how often a limit lets something pass that comes 1,000 times a second, and before how often at once. */
static void drive(const char *what, uint64_t (*passes)(void *of, uint64_t count), void *of, uint64_t at_once, uint64_t in_ten_seconds)
{
    enum { STEP = 50, LASTS = 10 * MINUTE };
    uint64_t passed = 0, most = in_ten_seconds * (LASTS / SECOND) / 10;
    pass(LASTS * MILLISECOND);
    expect(passes(of, SECOND) == at_once, "so many at once");
    for (uint64_t at = 0; at < LASTS; at += STEP) {
        pass(STEP * MILLISECOND);
        passed += passes(of, STEP);
    }
    expect(passed <= most && passed + 1 >= most, "so many a second");
    printf("%s: %" PRIu64 " at once, %" PRIu64 " in ten minutes\n", what, at_once, passed);
}

/* Says it to the router so many times. */
static uint64_t to_router(void *of, uint64_t count)
{
    teller *it = of;
    return say_to_router(it, it->says, count);
}

static void drive_all(link_type type, size_t clients, size_t way)
{
    network_setting set = usual(type);
    teller it = {.count = clients};
    set.routes = set.services = IPXR_NO_LIMIT;
    if (type == LINK_DOSBOX)
        set.routes = 64, set.services = 32;
    throttle_set(&it.limits, &set);
    it.speaks = speaker_join((uint8_t[4]){10, 2, 0, (uint8_t)way});
    for (size_t k = 0; k < clients; k++)
        it.clients[k].speaks = speaker_join(it.speaks->host);
    it.speaks->clients -= clients > 0;
    for (size_t k = 0; k < sizeof WORDS_TO_ROUTER / sizeof *WORDS_TO_ROUTER; k++) {
        it.says = &WORDS_TO_ROUTER[k];
        if (it.says->at_once[way] > 0)
            drive(it.says->what, to_router, &it, it.says->at_once[way], 10 * it.says->a_second[way]);
    }
}

static void router(void)
{
    drive_all(LINK_DOSBOX, 1, 0);
    drive_all(LINK_DOSBOX, MOST_CLIENTS, 1);
    drive_all(LINK_TAP, 0, 2);
}

static void links(void)
{
    enum { LINKS = 12, EACH = 100, TABLES = 186, AT_ONCE = 3400 };
    static speaker speaks[LINKS];
    network_setting set = usual(LINK_TAP);
    teller it = {.says = &WORDS_TO_ROUTER[3]};
    uint64_t said[LINKS] = {0}, heard[LINKS] = {0}, all = 0, least = UINT64_MAX;
    throttle limits[LINKS];
    set.routes = set.services = IPXR_NO_LIMIT;
    for (size_t k = 0; k < LINKS; k++) {
        throttle_set(&limits[k], &set);
        speaker_be_network(&speaks[k], k);
    }
    for (uint64_t at = 1; at <= MINUTE; at++) {
        pass_millisecond(at);
        for (size_t k = 0; k < LINKS; k++)
            for (; said[k] < (k == 0 ? TABLES * (at > MINUTE / 2 ? 2 : 1) : said_by(EACH, at)); said[k]++) {
                it.limits = limits[k];
                it.speaks = &speaks[k];
                heard[k] += to_router(&it, 1);
                limits[k] = it.limits;
            }
    }
    for (size_t k = 0; k < LINKS; k++)
        all += heard[k];
    for (size_t k = 1; k < LINKS; k++)
        least = heard[k] < least ? heard[k] : least;
    printf("%" PRIu64 " of %" PRIu64 " of one, of the others %" PRIu64 " at least, %" PRIu64 " of all\n", heard[0], said[0], least, all);
    expect(heard[0] == said[0], "a neighbour's tables are heard whole");
    expect(all <= EACH * (MINUTE / SECOND) + AT_ONCE, "all links are heard no more often than one may be");
    expect(least + 1 >= (EACH - 1) * (MINUTE / SECOND) / LINKS, "each has its part");
}

/* An address has a client on each of some networks: as usual, with much larger shares, and with a lower rate. */
enum { USUALLY, MUCH, SLOW, NETWORKS };

static void begin_accounts(teller list[NETWORKS])
{
    static const network_setting SETS[NETWORKS] = {
        [USUALLY] = {.type = LINK_DOSBOX, .rate = RATE, .share = SHARE, .routes = 64, .services = 32},
        [MUCH] = {.type = LINK_DOSBOX, .rate = RATE, .share = SHARE, .routes = 4000, .services = 500},
        [SLOW] = {.type = LINK_DOSBOX, .rate = RATE / 8, .share = SHARE, .routes = 64, .services = 32},
    };
    for (size_t k = 0; k < NETWORKS; k++) {
        list[k] = (teller){.count = 1};
        throttle_set(&list[k].limits, &SETS[k]);
        list[k].clients[0] = client_at(7);
    }
}

/* Says it so many times to the router, so many milliseconds apart. Returns how often it was heard. */
static uint64_t say_slowly(teller *it, const words *what, uint64_t count, uint64_t apart)
{
    uint64_t heard = 0;
    for (uint64_t k = 0; k < count; k++) {
        pass(apart * MILLISECOND);
        heard += say_to_router(it, what, 1);
    }
    return heard;
}

static void accounts(void)
{
    enum { RESPONSE = 3, GAME = 6, ANSWER = 7, AT_ONCE = 32, LARGE = 200, APART = 3 };
    const words *response = &WORDS_TO_ROUTER[RESPONSE], *game = &WORDS_TO_ROUTER[GAME], *answer = &WORDS_TO_ROUTER[ANSWER];
    teller list[NETWORKS];
    begin_accounts(list);
    expect(say_slowly(&list[MUCH], response, LARGE, APART) == LARGE, "what a network has shares for is heard at once");
    expect(say_slowly(&list[USUALLY], response, AT_ONCE, APART) == AT_ONCE, "and on another as much as by its own shares");
    pass(SECOND * MILLISECOND);
    expect(say_to_router(&list[SLOW], game, SECOND) == 2 * AT_ONCE, "an address hands the router so much at once");
    expect(say_to_router(&list[USUALLY], game, SECOND) == 2 * AT_ONCE, "and as much on a network with a higher rate");
    expect(say_to_router(&list[MUCH], game, SECOND) == 0, "networks with the same rate have one limit");
    pass(SECOND * MILLISECOND);
    expect(say_to_router(&list[USUALLY], answer, SECOND) == AT_ONCE, "answers to pings are half of it");
    expect(say_to_router(&list[USUALLY], game, SECOND) == AT_ONCE, "and packets of games the rest");
    (void)say_to_router(&list[SLOW], game, SECOND);
    (void)say_slowly(&list[USUALLY], response, LARGE, APART);
    speakers_forget();
    expect(say_to_router(&list[SLOW], game, SECOND) == 2 * AT_ONCE, "what was handed on before a reload counts no more");
    expect(say_slowly(&list[USUALLY], response, AT_ONCE, APART) == AT_ONCE, "nor does what was advertised");
    for (size_t k = 0; k < NETWORKS; k++) {
        speaker_leave(list[k].clients[0].speaks); /* (the sanitizers see that nothing is left of the address) */
        free(list[k].clients[0].queues);
    }
    printf("%d advertisements heard on one network, then %d on another\n", LARGE, AT_ONCE);
}

/* An address says as much to the router as it hears of it at once. What it asks and tells then is refused, and counts for no limit: some
 * milliseconds later, in which hardly any limit but the router's has room again, it asks and tells as much as it may at once. */
static void none(void)
{
    enum { REQUEST = 0, RESPONSE = 3, GAME = 6, LATER = 100 };
    const words *request = &WORDS_TO_ROUTER[REQUEST], *response = &WORDS_TO_ROUTER[RESPONSE], *game = &WORDS_TO_ROUTER[GAME];
    network_setting set = usual(LINK_DOSBOX);
    teller it = {.count = 1};
    throttle_set(&it.limits, &set);
    it.clients[0] = client_at(8);
    pass(MINUTE * MILLISECOND);
    expect(say_to_router(&it, game, SECOND) == game->at_once[0], "the router hears so much at once");
    expect(say_to_router(&it, request, SECOND) + say_to_router(&it, response, SECOND) == 0, "it hears no question then");
    expect(it.clients[0].dropped[DROPPED_FOR_ROUTER] == 3 * SECOND - game->at_once[0], "since the address said too much");
    pass(LATER * MILLISECOND);
    uint64_t asked = say_to_router(&it, request, SECOND), told = say_to_router(&it, response, SECOND);
    expect(asked == request->at_once[0] && told == response->at_once[0], "what was refused counted for no other limit");
    expect(it.clients[0].dropped[DROPPED_QUESTIONS] == SECOND - asked, "the rest are too many questions");
    expect(it.clients[0].dropped[DROPPED_ADVERTISEMENTS] == SECOND - told, "and too many advertisements");
    uint64_t left = game->a_second[0] * LATER / SECOND - asked - told;
    expect(say_to_router(&it, game, SECOND) == left, "what those limits refused counted for no other, either");
    printf("%" PRIu64 " questions and %" PRIu64 " advertisements heard after as much as is refused\n", asked, told);
    free(it.clients[0].queues);
}

/* ---- What the gateway answers, and carries to all ---- */

static uint64_t pings(void *of, uint64_t count)
{
    origin by = {.kind = kind_of(PING, PING, true, 0)};
    uint64_t passed = 0;
    teller *it = of;
    for (uint64_t k = 0; k < count; k++) {
        by.client = &it->clients[k % it->count];
        passed += throttle_lets_say(&it->limits, &by) == REASONS;
    }
    return passed;
}

static uint64_t answers(void *of, uint64_t count)
{
    uint64_t passed = 0;
    teller *it = of;
    for (uint64_t k = 0; k < count; k++)
        passed += throttle_lets_answer(&it->limits, &it->clients[k % it->count]);
    return passed;
}

static uint64_t router_answers(void *of, uint64_t count)
{
    uint64_t passed = 0;
    teller *it = of;
    for (uint64_t k = 0; k < count; k++)
        passed += throttle_lets_router_answer(&it->limits, &it->clients[k % it->count]);
    return passed;
}

/* Strangers who speak, at one address after the other. */
static uint64_t speak(void *of, uint64_t count)
{
    uint64_t passed = 0;
    for (uint64_t k = 0; k < count; k++)
        passed += strangers_let(of, FOR_WORDS, (uint8_t[6]){10, 5, (uint8_t)(k >> 8), (uint8_t)k}, 1);
    return passed;
}

/* Strangers who register at one address, or at one after the other. */
static uint64_t at_one(void *of, uint64_t count)
{
    uint64_t passed = 0;
    for (uint64_t k = 0; k < count; k++)
        passed += strangers_let(of, FOR_REGISTRATIONS, (uint8_t[6]){10, 3, 0, 0, (uint8_t)k}, 1);
    return passed;
}

static uint64_t at_all(void *of, uint64_t count)
{
    uint64_t passed = 0;
    for (uint64_t k = 0; k < count; k++)
        passed += strangers_let(of, FOR_REGISTRATIONS, (uint8_t[6]){10, 4, (uint8_t)(k >> 8), (uint8_t)k}, 1);
    return passed;
}

static void gateway(void)
{
    static const uint8_t key[SIPHASH_KEY] = {1};
    network_setting set = usual(LINK_DOSBOX);
    teller one = {.count = 1}, all = {.count = MOST_CLIENTS};
    strangers strangers;
    throttle_set(&one.limits, &set);
    throttle_set(&all.limits, &set);
    one.clients[0] = client_at(5);
    for (size_t k = 0; k < MOST_CLIENTS; k++)
        all.clients[k] = client_at(6);
    if (!strangers_make(&strangers, 128, key))
        abort();
    drive("pings of a client", pings, &one, 2, 10);
    drive("pings of all clients", pings, &all, 8, 40);
    drive("answers to a client", answers, &one, 8, 20);
    drive("answers to an address", answers, &all, 32, 80);
    drive("answers of the router to a client", router_answers, &one, 188, 200);
    drive("answers of the router to an address", router_answers, &all, 752, 800);
    drive("strangers who register at an address", at_one, &strangers, 96, 120);
    drive("all strangers who register", at_all, &strangers, 192, 960);
    drive("all strangers who speak", speak, &strangers, 64, 320);
    strangers_free(&strangers);
    free(one.clients[0].queues);
    for (size_t k = 0; k < MOST_CLIENTS; k++)
        free(all.clients[k].queues);
}

/* Somebody says 128 packets to each of eight clients of an address that receives 500 at once. The first has room for 100; the rest isn't
 * counted for the address, of which the others have what is left. What that refuses isn't counted for them: once it has no limit they have
 * room for what each lacks of 100. */
static void of_address(void)
{
    enum { CLIENTS = 8, SAID = 128, OF_CLIENT = 100, OF_ADDRESS = 500 };
    network_setting set = usual(LINK_DOSBOX);
    throttle limits;
    member to[CLIENTS];
    uint64_t why[REASONS + 1] = {0}, more = 0;
    set.household = 160;
    throttle_set(&limits, &set);
    join(1);
    pass(MILLISECOND);
    for (size_t k = 0; k < CLIENTS; k++)
        to[k] = client_at(4);
    for (size_t k = 0; k < SAID; k++)
        why[why_not(&limits, &to[0], speakers[0], SHORT)]++;
    expect(why[REASONS] == OF_CLIENT && why[TOO_MUCH_FOR_CLIENT] == SAID - OF_CLIENT, "a client has room for so much");
    for (size_t k = 0; k < (CLIENTS - 1) * SAID; k++)
        why[why_not(&limits, &to[1 + k % (CLIENTS - 1)], speakers[0], SHORT)]++;
    printf("%" PRIu64 " received, %" PRIu64 " dropped for clients, %" PRIu64 " for their address\n", why[REASONS], why[TOO_MUCH_FOR_CLIENT],
           why[TOO_MUCH_FOR_ADDRESS]);
    expect(why[REASONS] == OF_ADDRESS, "an address receives so much");
    expect(why[TOO_MUCH_FOR_CLIENT] == SAID - OF_CLIENT, "the others have room");
    expect(why[TOO_MUCH_FOR_ADDRESS] == (CLIENTS - 1) * SAID - (OF_ADDRESS - OF_CLIENT), "the rest is dropped for the address");
    limits.has_household = false;
    for (size_t k = 0; k < CLIENTS * SAID; k++)
        more += receives(&limits, &to[k % CLIENTS], speakers[0], SHORT);
    expect(more == CLIENTS * OF_CLIENT - OF_ADDRESS, "what an address has no room for isn't counted for its clients");
    for (size_t k = 0; k < CLIENTS; k++)
        free(to[k].queues);
}

static const struct {
    const char *word;
    void (*does)(void);
} WORDS_ALONE[] = {
    {"once", once}, {"two", two}, {"address", of_address}, {"narrow", narrow}, {"silent", silent}, {"crowds", crowds},
    {"itself", itself}, {"pings", pings_by_line}, {"networks", networks}, {"beyond", beyond},
    {"again", again}, {"numbers", numbers},
    {"router", router}, {"links", links}, {"accounts", accounts}, {"none", none}, {"gateway", gateway},
};

int main(int count, char **words)
{
    const char *word = count > 1 ? words[1] : "";
    uint64_t first = count > 2 ? strtoull(words[2], NULL, 10) : 0, second = count > 3 ? strtoull(words[3], NULL, 10) : 0;
    bool is_link = strcmp(word, "link") == 0, is_line = strcmp(word, "line") == 0;
    bool is_known = is_link || is_line || strcmp(word, "parts") == 0;
    if (is_link)
        link_with((uint32_t)first, second);
    else if (is_line)
        by_line((uint32_t)first);
    else if (is_known)
        parts((size_t)first);
    for (size_t k = 0; k < sizeof WORDS_ALONE / sizeof *WORDS_ALONE; k++)
        if (strcmp(word, WORDS_ALONE[k].word) == 0) {
            WORDS_ALONE[k].does();
            is_known = true;
        }
    expect(is_known, "a word that is known");
    return faults == 0 ? 0 : 1;
}

// The edge, cables and fates.
#include "play.hpp"

static std::vector<ipxr_rule> rules(Play &play)
{
    std::vector<ipxr_rule> made(1 + play.chance(4));
    for (ipxr_rule &it : made) {
        it.permits = play.byte(2);
        it.what = std::uint8_t(1 + play.chance(5));
        it.way = std::uint8_t(1 + play.chance(2));
        it.names = play.byte(3);
        it.type = play.small(6);
        it.socket = play.socket();
        it.from = 0x10;
        it.to = 0x10 * play.chance(20);
        it.name[0] = 'S';
        it.name[1] = std::uint8_t('0' + play.chance(4));
    }
    return made;
}

static void edge_turn(Play &play)
{
    const ipxr_port port = ipx::port(0x10, SERVER);
    const ipx::Bytes given = play.packet();
    ipx::Bytes entered = given, numbered = given, filtered = given;
    const bool enters = ipx::edge_enter(port, entered) == 1;
    ipx::edge_number(port, numbered);
    const ipx::Result<std::uint32_t> claim = ipx::edge_claim(port, given);
    const ipx::Answer is_needless = ipx::edge_is_needless(port, play.small(4), given);
    play.add(either(enters, Hex{entered}), ipx::edge_is_held(port, given).number, Hex{numbered}, either(claim.answer == 1, claim.value),
             is_needless.number);
    const ipx::Way way = play.flips() ? ipx::Way::Out : ipx::Way::In;
    const ipx::Result<std::size_t> passes = ipx::edge_filter(way, port, rules(play), filtered);
    filtered.resize(passes ? passes.value : 0);
    const ipx::Node node = {{2, 0, 0, 0, 0, 9}};
    const std::string left = passes ? either(passes.answer == 1, Hex{filtered}) : shown(passes.answer.number);
    play.add(left, Hex{ipx::edge_write_routes(port, node, play.routes()).value});
    play.add(Hex{ipx::edge_write_services(port, node, play.services()).value});
}

struct Cables {
    ipx::Kinds kinds;
    ipx::Loop here_loop, there_loop;
    ipx::Pace pace;
    ipx::Twins twins;
    ipx::Asks asks;
    ipx::Asked asked[3];

    void probe_turn(Play &play, std::uint64_t turn)
    {
        const std::uint8_t here = play.byte(3), there = std::uint8_t(3 + play.chance(3));
        const std::uint64_t sent = turn + 10 - play.chance(6);
        const ipx::Probed did = ipx::probe(here, there, sent, turn + 10, here_loop, there_loop);
        const bool opens = there_loop.second();
        play.add(unsigned(did), here_loop.seconds_left(), opens);
        ipxr_range ranges[] = {{{10, 0, 0, 0}, play.byte(33)}, {{192, 168, 0, play.byte(3)}, 32}};
        const std::uint8_t host[4] = {192, 168, 0, play.byte(3)};
        play.add(ipx::ranges_have({ranges[0], ranges[1]}, host));
        ipxr_range first = {{10, 0, play.byte(3), 0}, 0};
        first.bits = std::uint8_t(8 + play.chance(20));
        std::uint8_t before = 0;
        const bool moves = twins.hear({{2, 0, 0, 0, 0, 3}}, play.byte(2), turn, before);
        play.add(ipx::range_is_first(first), either(moves, before));
    }

    void turn(Play &play, std::uint64_t turn)
    {
        const std::uint64_t hash = play.chance(99);
        const ipx::Node of = play.node();
        const auto kind = static_cast<ipx::FrameKind>(play.byte(6));
        const std::uint32_t k = play.chance(3);
        const std::uint64_t now = 1 + turn * 40000000;
        const bool hears = kinds.hear(hash, of, kind, play.flips());
        play.add(hears, unsigned(kinds.of(hash, of)), kinds.is_used(kind), kinds.speaks(hash, of, kind));
        if (turn % 20 == 0)
            kinds.second();
        probe_turn(play, turn);
        pace.more_wait(play.chance(9), 50000000, now);
        const bool goes = pace.lets_go(play.chance(9), now), is_due = asked[k].is_due(asks, now), are_due = asks.are_due(now);
        play.add(goes, is_due, are_due, asks.patience(5000, now));
        if (play.chance(2) == 0)
            asked[k].ask(asks, now, play.chance(1000));
        else
            asked[k].answer();
        const bool is_tunnel = play.flips(), is_of_several = play.flips(), has_said = play.flips();
        play.add(ipx::choose_node({is_tunnel, is_of_several, has_said, has_said ? of : ipx::Node(), play.node()}, hash));
    }
};

static void fates_turn(Play &play, ipx::Counts &counts)
{
    static const std::uint16_t ANSWERS[] = {0, 1, 2, 3, 28, 28, 600, 1600};
    ipx::Course course = play.flips() ? ipx::Course::of_frame() : ipx::Course::of_datagram();
    while (!course.is_over()) {
        play.add(course.next());
        course.answer(ANSWERS[play.chance(8)]);
    }
    play.add(unsigned(course.fate()), course.number());
    counts.count(course);
    if (play.chance(5) == 0)
        counts.lose(play.byte(30));
}

void play_cables(Play &play)
{
    static Cables cables;
    ipx::Counts counts;
    play.part("edge", 800, [&](unsigned) { edge_turn(play); });
    play.part("cable", 800, [&](unsigned turn) { cables.turn(play, turn); });
    play.part("fates", 800, [&](unsigned) { fates_turn(play, counts); });
    play.part("counts", 1, [&](unsigned) {
        const ipxr_counts &it = counts.values();
        play.add(it.in, each(std::vector<std::uint64_t>(it.lost, it.lost + IPXR_NO_REASON)), it.dropped[IPXR_NO_ROUTE / 10],
                 it.dropped[IPXR_CROSSED_FULL / 10]);
    });
}

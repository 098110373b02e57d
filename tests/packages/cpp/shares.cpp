// Shares, limits and a narrow line.
#include "play.hpp"

// What a clock showed at the last look. The first look only begins.
struct Clock {
    bool is_begun;
    std::uint64_t last;

    std::uint64_t &at(std::uint64_t now)
    {
        last = is_begun ? last : now;
        is_begun = true;
        return last;
    }
};

struct Shares {
    ipx::Fair one, other;
    ipx::Meter meter, second;
    Clock clock;

    void turn(Play &play, std::uint64_t turn)
    {
        one.look(clock.at(turn * 900), turn * 900);
        other.pass(play.chance(2000));
        meter.pass(500);
        std::uint8_t speaker = play.byte(5);
        const bool says = one.says(speaker, play.chance(3000));
        speaker = play.byte(5);
        std::uint64_t weight = play.chance(2000);
        const bool both = one.both_hear(other, speaker, weight, play.chance(2000));
        play.add(says, both);
        const bool lets = meter.lets(5000, play.chance(1500));
        weight = play.chance(900);
        const bool both_let = meter.both_let(5000, weight, second, 9000, play.chance(100));
        play.add(lets, both_let, meter.used(), second.used());
        play.add(one.values().total, other.values().waits);
    }
};

struct Limited {
    ipx::Limits limits;
    ipx::Household household;
    ipx::ClientUse clients[3];
    ipx::AddressUse address;
    ipx::Reader readers[3];
    Clock client_clocks[3], address_clock, reader_clocks[3];
    ipx::Fair receives, links;
    ipx::Meter meters[6];
    ipx::Strangers strangers;
    ipx::Queues queues;

    bool make()
    {
        bool is_made = limits.make(ipx::LimitsOf::Tunnel, 100, 20, 300, 100) && household.make(150) && strangers.make(40) &&
                       receives.make(household.received());
        for (ipx::Reader &it : readers)
            is_made = is_made && it.make(limits);
        ipx::Limits::told(links);
        return is_made;
    }

    void turn(Play &play, std::uint64_t turn)
    {
        const std::uint32_t k = play.chance(3);
        const auto kind = static_cast<ipx::PacketKind>(play.chance(6));
        const std::uint64_t now = turn * 3000000;
        const std::size_t size = play.chance(1000);
        const std::uint8_t queue = play.byte(4);
        clients[k].look(client_clocks[k].at(now), now);
        address.look(address_clock.at(now), now);
        readers[k].look(reader_clocks[k].at(now), now);
        const std::string became = asked(play.chance(12), k, kind, size, queue);
        play.add(became, unsigned(ipx::packet_kind(play.packet())));
    }

    // What comes of one of all calls. (only one of them says nothing)
    std::string asked(std::uint32_t what, std::uint32_t k, ipx::PacketKind kind, std::size_t size, std::uint8_t queue)
    {
        if (what == 7) {
            limits.hears_router(readers[k], queue, size);
            return "-";
        }
        const ipx::Verdict became = what == 0    ? limits.says(kind, clients[k], meters[0])
                                    : what == 1  ? limits.frames_say(kind, meters[1])
                                    : what == 2  ? limits.answers(2, clients[k], address)
                                    : what == 3  ? limits.router_answers(2, clients[k], address)
                                    : what == 4  ? limits.hands(2, kind, clients[k], address, meters[2], meters[3])
                                    : what == 5  ? limits.frames_hand(queue, kind, meters[4], meters[5], links)
                                    : what == 6  ? limits.receives(readers[k], queue, size)
                                    : what == 8  ? limits.carries(readers[k], queue, size, 2)
                                    : what == 9  ? household.receives(limits, readers[k], receives, queue, size)
                                    : what == 10 ? household.receives_of_own(limits, readers[k], meters[5], queue, size)
                                                 : household.receives_of_router(limits, readers[k], receives, queue, size);
        return shown(unsigned(became));
    }

    void queues_turn(Play &play)
    {
        const ipx::Verdict sends = strangers.send(play.chance(9), meters[0], meters[1]);
        const std::uint8_t taken = queues.take(3, 9);
        const std::uint8_t unshared = queues.unshare(std::uint8_t(3 + play.chance(7)), 3, 9);
        play.add(unsigned(sends), taken, unshared);
        if (play.chance(3) == 0)
            queues.give_back(std::uint8_t(3 + play.chance(7)));
    }

    void numbers(Play &play)
    {
        const ipxr_limits &it = limits.values();
        play.add(it.received.packet, it.received.piece, it.received.packets.one, it.received.pieces.room, it.handed.each, it.handed.burst,
                 it.handed_answers, it.pings.each, it.all_pings.burst, it.questions.each, it.advertisements.burst, it.answers.each,
                 it.pages.burst);
    }
};

struct Narrow {
    ipx::Line line;
    ipx::LineAddress ends[4];
    std::uint64_t said, answered;

    void turn(Play &play, std::uint64_t turn, ipx::Meter *meters)
    {
        const std::uint32_t k = play.chance(4), to = (k + 1) % 4;
        const std::uint64_t now = turn * 2000000;
        const std::size_t size = play.chance(1400);
        const std::uint8_t number = line.speak(ends[k]);
        const ipx::Rank rank = line.room(now, number, size, said, ends[to]);
        if (rank != ipx::Rank::Full)
            line.send(now, number, size, rank, said, ends[to]);
        const std::string became = done(play.chance(10), k, now, size);
        play.add(number, unsigned(rank), became, said, answered, line.between_pings(30));
        play.add(unsigned(line.strangers().send(1 + play.chance(3), meters[2], meters[3])));
    }

    std::string done(std::uint32_t what, std::uint32_t k, std::uint64_t now, std::size_t size)
    {
        if (what == 4)
            return shown(line.lets_beyond(now));
        if (what == 5)
            return shown(line.lets_answer(now, answered));
        if (what == 8)
            return shown(line.lets_stranger(now, answered));
        switch (what) {
        case 0: line.join(ends[k]); break;
        case 1: line.leave(ends[k]); break;
        case 2: line.second(ends[k]); break;
        case 3: line.silence(ends[k]); break;
        case 6: line.send_answer(now, size, answered); break;
        case 7: line.send_ping(now, 30); break;
        default: line.send_to_stranger(now, 60, answered);
        }
        return "-";
    }
};

void play_shares(Play &play)
{
    static Shares shares;
    static Limited limited;
    static Narrow narrow = {ipx::Line(512), {}, 0, 0};
    const ipxr_fair_setting one = {2000, 9000, 30000, 50000}, other = {2000, 9000, 30000, 40000};
    if (!shares.one.make(one) || !shares.other.make(other) || !limited.make())
        return;
    play.part("fair", 500, [&](unsigned turn) { shares.turn(play, turn); });
    play.part("limits", 1500, [&](unsigned turn) { limited.turn(play, turn); });
    play.part("queues", 300, [&](unsigned) { limited.queues_turn(play); });
    play.part("limits' numbers", 1, [&](unsigned) { limited.numbers(play); });
    play.part("line", 1500, [&](unsigned turn) { narrow.turn(play, turn, limited.meters); });
}

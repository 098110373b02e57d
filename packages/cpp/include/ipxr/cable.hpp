// What a gateway decides about its cables: docs/CABLE.md has the rules.
#ifndef IPXR_CABLE_HPP
#define IPXR_CABLE_HPP

#include "frames.hpp"
#include "ipxr_cable.h"

namespace ipx {

/// In which kinds of frames a packet goes out, where stations may use any: what was heard. A node has the same `hash` each time, by a key
/// that strangers don't know.
///
/// ```cpp
/// ipx::Kinds kinds;
/// const ipx::Node station = {{0, 0, 0x1B, 0, 0, 7}};
/// assert(kinds.hear(0x12345678, station, ipx::FrameKind::Raw, true));
/// assert(kinds.of(0x12345678, station) == ipx::FrameKind::Raw);
/// assert(!kinds.speaks(0x12345678, station, ipx::FrameKind::Llc)); // send him a raw frame alone
/// ```
class Kinds {
public:
    Kinds() : kinds() {}

    /// A second passes.
    void second() { ipxr_kinds_second(&kinds); }

    /// A station says a packet in a kind, to a node or to all. Returns whether that counts.
    bool hear(std::uint64_t hash, const Node &station, FrameKind kind, bool is_for_all)
    {
        return ipxr_kinds_hear(&kinds, hash, station.data(), static_cast<std::uint8_t>(kind), is_for_all);
    }

    /// The kind that a station uses, or none if it isn't known.
    FrameKind of(std::uint64_t hash, const Node &station) const
    {
        return static_cast<FrameKind>(ipxr_kinds_of(&kinds, hash, station.data()));
    }

    /// Whether a kind was heard within the last hour.
    bool is_used(FrameKind kind) const { return ipxr_kinds_is_used(&kinds, static_cast<std::uint8_t>(kind)); }

    /// Whether a packet for a node, or for all, goes out in a kind.
    bool speaks(std::uint64_t hash, const Node &node, FrameKind kind) const
    {
        return ipxr_kinds_speaks(&kinds, hash, node.data(), static_cast<std::uint8_t>(kind));
    }

private:
    ipxr_kinds kinds;
};

/// What a probe does: nothing; the link where it came is shut now; the link that sent it is; nothing, since it is late.
enum class Probed : std::uint8_t { Nothing = IPXR_PROBE_NOTHING, Here = IPXR_PROBE_HERE, There = IPXR_PROBE_THERE, Late = IPXR_PROBE_LATE };

/// Whether a link is shut, since it is one cable with another link of its network.
///
/// ```cpp
/// ipx::Loop first, second;
/// assert(ipx::probe(1, 0, 100, 100, second, first) == ipx::Probed::Here); // the later of both is shut
/// assert(second.is_shut() && !first.is_shut());
/// ```
class Loop {
public:
    Loop() : loop() {}
    bool is_shut() const { return loop.left > 0; }
    std::uint8_t seconds_left() const { return loop.left; }

    /// A second passes. Returns whether it opens by that.
    bool second() { return ipxr_loop_second(&loop); }

    ipxr_loop *raw() { return &loop; }

private:
    ipxr_loop loop;
};

/// A probe comes on link `here` that link `there` sent in second `sent`; it is another second `now`. Both have their numbers in the order
/// of the network's links.
inline Probed probe(std::uint8_t here, std::uint8_t there, std::uint64_t sent, std::uint64_t now, Loop &at_here, Loop &at_there)
{
    // (C is lent two values, also where both are one link)
    Loop other;
    Loop &lent = &at_here == &at_there ? other : at_there;
    return static_cast<Probed>(ipxr_loop_probe(here, there, sent, now, at_here.raw(), lent.raw()));
}

/// Whether an address is in one of several ranges; and whether a range's own address is the first of it.
///
/// ```cpp
/// const ipxr_range home = {{192, 168, 1, 0}, 24};
/// const std::uint8_t host[4] = {192, 168, 1, 7};
/// assert(ipx::range_is_first(home) && ipx::ranges_have({home}, host));
/// ```
inline bool ranges_have(const std::vector<ipxr_range> &ranges, const std::uint8_t (&host)[4])
{
    const ipxr_range none = ipxr_range();
    return ipxr_ranges_have(ranges.empty() ? &none : ranges.data(), ranges.size(), host);
}
inline bool range_is_first(const ipxr_range &range) { return ipxr_range_is_first(&range); }

/// How fast things go out that wait for each other, such as pings by a narrow line. Its clock never shows 0.
///
/// ```cpp
/// ipx::Pace pace;
/// pace.more_wait(2, 1000, 5000);
/// assert(pace.lets_go(2, 5000) && !pace.lets_go(1, 5500) && pace.lets_go(1, 6000));
/// ```
class Pace {
public:
    Pace() : pace() {}

    /// So many wait now, where more came. They go so many nanoseconds apart, or closer together.
    void more_wait(std::uint64_t waiting, std::uint64_t between, std::uint64_t now) { ipxr_pace_more_wait(&pace, waiting, between, now); }

    /// Whether the first of so many that wait goes now.
    bool lets_go(std::uint64_t waiting, std::uint64_t now) { return ipxr_pace_lets_go(&pace, waiting, now); }

private:
    ipxr_pace pace;
};

/// The nodes of a network that are watched, since two machines may have one.
///
/// ```cpp
/// ipx::Twins twins;
/// std::uint8_t before = 0;
/// unsigned told = 0;
/// for (std::uint8_t k = 0; k < 8; k++)
///     told += twins.hear({{0, 0, 0x1B, 0, 0, 7}}, k % 2, 100u + k, before);
/// assert(told == 1); // once: it moves to and fro
/// ```
class Twins {
public:
    Twins() : twins() {}

    /// A node is heard on a link in a second. Returns whether somebody must be told that it moves to and fro, and then its link before.
    bool hear(const Node &node, std::uint8_t link, std::uint64_t second, std::uint8_t &before)
    {
        return ipxr_twins_hear(&twins, node.data(), link, second, &before);
    }

private:
    ipxr_twins twins;
};

/// When the next of many is asked again. Clocks are nanoseconds.
class Asks {
public:
    Asks() : asks() {}

    /// Whether somebody may have to be asked now: then ask of each whether he is due.
    bool are_due(std::uint64_t now) { return ipxr_asks_are_due(&asks, now); }

    /// Milliseconds until then, at most so many.
    std::uint64_t patience(std::uint64_t most, std::uint64_t now) const { return ipxr_asks_patience(&asks, most, now); }

    ipxr_asks *raw() { return &asks; }

private:
    ipxr_asks asks;
};

/// Somebody who is asked again until he answers.
///
/// ```cpp
/// ipx::Asked asked;
/// ipx::Asks all;
/// asked.ask(all, 1000000000, 77); // the number: one that nobody else can tell
/// assert(all.are_due(1750000000) && asked.is_due(all, 1750000000));
/// asked.answer();
/// assert(!asked.is_due(all, 1750000000));
/// ```
class Asked {
public:
    Asked() : asked() {}

    /// He is asked now, and again 250 to 750 ms later, as the number says.
    void ask(Asks &all, std::uint64_t now, std::uint64_t number) { ipxr_asked_ask(&asked, all.raw(), now, number); }

    /// He answers.
    void answer() { ipxr_asked_answer(&asked); }

    /// Whether he is to be asked again now.
    bool is_due(Asks &all, std::uint64_t now) const { return ipxr_asked_is_due(&asked, all.raw(), now); }

private:
    ipxr_asked asked;
};

/// What is known of the gateway's own node on a network: said, if a line says it, and the card's address, zeros where it isn't known.
struct KnownNode {
    bool is_tunnel;
    bool is_of_several;
    bool has_said;
    Node said;
    Node card;
};

/// The gateway's own node on a network. If none is known it is made of a hash.
inline Node choose_node(const KnownNode &known, std::uint64_t hash)
{
    Node node = {};
    ipxr_node_choose(known.is_tunnel, known.is_of_several, known.has_said, known.said.data(), known.card.data(), hash, node.data());
    return node;
}

} // namespace ipx

#endif

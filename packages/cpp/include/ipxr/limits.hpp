// What a gateway lets pass where many send more than somebody can read: docs/LIMITS.md has the numbers.
#ifndef IPXR_LIMITS_HPP
#define IPXR_LIMITS_HPP

#include "fair.hpp"
#include "ipxr_limits.h"
#include "text.hpp"

namespace ipx {

/// What a network's link is: a tunnel, or a link with frames.
enum class LimitsOf : std::uint8_t { Tunnel = IPXR_LIMITS_TUNNEL, Frames = IPXR_LIMITS_FRAMES };

/// What a packet is, as far as limits differ.
enum class PacketKind : std::uint8_t {
    Other = IPXR_KIND_OTHER,
    Ping = IPXR_KIND_PING,         // a ping to all: each client answers it
    Answer = IPXR_KIND_ANSWER,     // the answer to a ping, or a ping to one node
    Question = IPXR_KIND_QUESTION, // a request of RIP or a query of SAP, which routers answer at length
    Told = IPXR_KIND_TOLD,         // what else routers tell each other
};

/// What becomes of a packet: it passes, or why it is dropped.
enum class Verdict : std::uint8_t {
    Passes = IPXR_PASSES,
    TooManyPings = IPXR_TOO_MANY_PINGS,
    TooManyQuestions = IPXR_TOO_MANY_QUESTIONS,
    TooManyAdvertisements = IPXR_TOO_MANY_ADVERTISEMENTS,
    TooMuchForRouter = IPXR_TOO_MUCH_FOR_ROUTER,
    TooMuchForClient = IPXR_TOO_MUCH_FOR_CLIENT,
    TooMuchForAddress = IPXR_TOO_MUCH_FOR_ADDRESS,
    TooMuchForLink = IPXR_TOO_MUCH_FOR_LINK,
    TooManyAnswers = IPXR_TOO_MANY_ANSWERS,
    TooMuchForStrangers = IPXR_TOO_MUCH_FOR_STRANGERS,
};

/// What the packet in the bytes is.
inline PacketKind packet_kind(View packet)
{
    return static_cast<PacketKind>(ipxr_kind_of(packet.at, packet.length));
}

class Limits;

/// What somebody who reads packets has before him: a client, or a link with frames.
class Reader {
public:
    Reader() : reader() {}

    /// Makes it one who reads as those limits say, and for whom nothing waits. Returns whether there can be one.
    inline bool make(const Limits &limits);

    /// The time passes that your clock shows beyond what it showed at the last look, which `clock` has.
    void look(std::uint64_t &clock, std::uint64_t now) { ipxr_reader_look(&reader, &clock, now); }

    ipxr_reader *raw() { return &reader; }

private:
    ipxr_reader reader;
};

/// What a client uses of its limits.
class ClientUse {
public:
    ClientUse() : use() {}
    void look(std::uint64_t &clock, std::uint64_t now) { ipxr_client_look(&use, &clock, now); }
    ipxr_client_use *raw() { return &use; }

private:
    ipxr_client_use use;
};

/// What all clients of an address use.
class AddressUse {
public:
    AddressUse() : use() {}
    void look(std::uint64_t &clock, std::uint64_t now) { ipxr_address_look(&use, &clock, now); }
    ipxr_address_use *raw() { return &use; }

private:
    ipxr_address_use use;
};

/// The limits of a network.
///
/// ```cpp
/// ipx::Limits limits;
/// ipx::Reader client;
/// if (!limits.make(ipx::LimitsOf::Tunnel, 800, 50) || !client.make(limits))
///     return;
/// std::uint64_t clock = 0;
/// client.look(clock, 1000000); // once for all packets that came together
/// const std::uint8_t queue = 1; // of who speaks
/// assert(limits.receives(client, queue, 100) == ipx::Verdict::Passes); // send it
/// ```
class Limits {
public:
    Limits() : limits() {}

    /// Makes the limits of a network whose link is of that kind. A client there receives `rate` packets a second; a `share` is what
    /// somebody who says little says in a second. `routes` and `services` are the network's shares of the router's tables. Returns whether
    /// there are limits: not if the rate is 0.
    bool make(LimitsOf link, std::uint32_t rate, std::uint32_t share, std::uint16_t routes = IPXR_NO_LIMIT,
              std::uint16_t services = IPXR_NO_LIMIT)
    {
        return ipxr_limits_make(&limits, static_cast<std::uint8_t>(link), rate, share, routes, services);
    }

    /// Their numbers. A limit may be any number.
    ipxr_limits &values() { return limits; }
    const ipxr_limits &values() const { return limits; }

    /// Whether a packet that a client says goes on, of which `all` is used of what all clients may ping; and one that came in a frame.
    Verdict says(PacketKind kind, ClientUse &client, Meter &all) const
    {
        return verdict(ipxr_limits_says(&limits, number(kind), client.raw(), all.raw()));
    }
    Verdict frames_say(PacketKind kind, Meter &all) const { return verdict(ipxr_limits_frames_say(&limits, number(kind), all.raw())); }

    /// Whether the gateway answers a client that registers or pings, whose address has so many clients.
    Verdict answers(std::uint32_t clients, ClientUse &client, AddressUse &address) const
    {
        return verdict(ipxr_limits_answers(&limits, clients, client.raw(), address.raw()));
    }

    /// Whether a client gets a packet by which the router answers what it asked.
    Verdict router_answers(std::uint32_t clients, ClientUse &client, AddressUse &address) const
    {
        return verdict(ipxr_limits_router_answers(&limits, clients, client.raw(), address.raw()));
    }

    /// Whether the router hears a packet of a client. Its address uses `handed` of what the router hears of it, and `advertised` of what it
    /// may tell the router.
    Verdict hands(std::uint32_t clients, PacketKind kind, ClientUse &client, AddressUse &address, Meter &handed, Meter &advertised) const
    {
        return verdict(ipxr_limits_hands(&limits, clients, number(kind), client.raw(), address.raw(), handed.raw(), advertised.raw()));
    }

    /// Whether the router hears a packet of a link with frames, whose queue in `links` (which `told` makes) has that number.
    Verdict frames_hand(std::uint8_t link, PacketKind kind, Meter &asked, Meter &advertised, Fair &links) const
    {
        return verdict(ipxr_limits_frames_hand(&limits, link, number(kind), asked.raw(), advertised.raw(), links.raw()));
    }

    /// Whether a client whose address has no limits receives a packet of so many bytes, of somebody who has that queue there.
    Verdict receives(Reader &client, std::uint8_t queue, std::size_t bytes) const
    {
        return verdict(ipxr_limits_receives(&limits, client.raw(), queue, bytes));
    }

    /// The same client receives a packet of the router, which isn't dropped.
    void hears_router(Reader &client, std::uint8_t queue, std::size_t bytes) const
    {
        ipxr_limits_hears_router(&limits, client.raw(), queue, bytes);
    }

    /// Whether a link with frames gets a packet in so many frames: all of them or none.
    Verdict carries(Reader &link, std::uint8_t queue, std::size_t bytes, std::uint32_t frames) const
    {
        return verdict(ipxr_limits_carries(&limits, link.raw(), queue, bytes, frames));
    }

    /// Makes the receiver of what all links with frames tell the router, where none has told anything yet.
    static void told(Fair &links) { ipxr_told_make(links.raw()); }

    static Verdict verdict(std::uint8_t answer) { return static_cast<Verdict>(answer); }

private:
    ipxr_limits limits;

    static std::uint8_t number(PacketKind kind) { return static_cast<std::uint8_t>(kind); }
};

inline bool Reader::make(const Limits &limits)
{
    const ipxr_reading &received = limits.values().received;
    return ipxr_fair_make(&reader.packets, &received.packets) && ipxr_fair_make(&reader.pieces, &received.pieces);
}

/// What all clients of an address receive.
///
/// ```cpp
/// ipx::Limits limits;
/// ipx::Household household;
/// ipx::Reader client;
/// ipx::Fair address;
/// assert(limits.make(ipx::LimitsOf::Tunnel, 800, 50) && household.make(2000) && client.make(limits) &&
/// address.make(household.received())); assert(household.receives(limits, client, address, 1, 100) == ipx::Verdict::Passes);
/// ```
class Household {
public:
    Household() : household() {}

    /// Makes limits of so many packets a second. Returns whether there are any: not if the rate is 0.
    bool make(std::uint32_t rate) { return ipxr_household_make(&household, rate); }

    /// The setting of the receiver for what comes of other addresses.
    const ipxr_fair_setting &received() const { return household.received; }

    /// Whether a client receives a packet of another address, which has that queue there, and at the client's address.
    Verdict receives(const Limits &limits, Reader &client, Fair &address, std::uint8_t queue, std::size_t bytes) const
    {
        return Limits::verdict(ipxr_household_receives(&household, &limits.values(), client.raw(), address.raw(), queue, bytes));
    }

    /// The same of a packet of its own address; `among` is used of what its clients say to each other.
    Verdict receives_of_own(const Limits &limits, Reader &client, Meter &among, std::uint8_t queue, std::size_t bytes) const
    {
        return Limits::verdict(ipxr_household_receives_of_own(&household, &limits.values(), client.raw(), among.raw(), queue, bytes));
    }

    /// The same of a packet of the router: only the limit of the address drops it.
    Verdict receives_of_router(const Limits &limits, Reader &client, Fair &address, std::uint8_t queue, std::size_t bytes) const
    {
        return Limits::verdict(ipxr_household_receives_of_router(&household, &limits.values(), client.raw(), address.raw(), queue, bytes));
    }

private:
    ipxr_household_limits household;
};

/// What goes to places that have no client: somebody may have forged them.
///
/// ```cpp
/// ipx::Strangers strangers;
/// ipx::Meter address, all;
/// assert(strangers.make(100));
/// assert(strangers.send(2, address, all) == ipx::Verdict::Passes); // both datagrams go out
/// ```
class Strangers {
public:
    Strangers() : strangers() {}

    /// Makes limits of so many datagrams a second. Returns whether there are any: not if the rate is 0.
    bool make(std::uint32_t rate) { return ipxr_strangers_make(&strangers, rate); }

    /// Whether so many datagrams go to a place without a client, all of them or none.
    Verdict send(std::uint32_t count, Meter &address, Meter &all) const
    {
        return Limits::verdict(ipxr_strangers_send(&strangers, count, address.raw(), all.raw()));
    }

    ipxr_strangers_limits *raw() { return &strangers; }

private:
    ipxr_strangers_limits strangers;
};

/// Who has which queue, where more may speak than there are queues.
///
/// ```cpp
/// ipx::Queues queues;
/// assert(queues.take(1, 2) == 1 && queues.take(1, 2) == 2 && queues.take(1, 2) == 1); // the third shares one,
/// queues.give_back(2);
/// assert(queues.unshare(1, 1, 2) == 2); // and has one of its own again
/// ```
class Queues {
public:
    Queues() : queues() {}

    /// Gives somebody who begins to speak a queue, of those from the first to the last.
    std::uint8_t take(std::uint8_t first, std::uint8_t last) { return ipxr_queues_take(&queues, first, last); }

    /// Somebody who shares his queue gets one that nobody has, if there is one. Returns the number that he has then.
    std::uint8_t unshare(std::uint8_t queue, std::uint8_t first, std::uint8_t last)
    {
        return ipxr_queues_unshare(&queues, queue, first, last);
    }

    /// Somebody who has that queue speaks no more.
    void give_back(std::uint8_t queue) { ipxr_queues_give_back(&queues, queue); }

private:
    ipxr_queues queues;
};

} // namespace ipx

#endif

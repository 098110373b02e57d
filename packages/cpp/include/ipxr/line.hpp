// A narrow line, shared by all clients that it reaches: docs/LIMITS.md has its parts.
#ifndef IPXR_LINE_HPP
#define IPXR_LINE_HPP

#include "limits.hpp"

namespace ipx {

/// Which copies come first, the last of all.
enum class Rank : std::uint8_t {
    Full = IPXR_LINE_FULL,            // there is no room
    Beyond = IPXR_LINE_BEYOND,        // beyond all parts
    OfAddress = IPXR_LINE_OF_ADDRESS, // within the part of the address
    OfSpeaker = IPXR_LINE_OF_SPEAKER, // within what the speaker may say to the address at once
    Little = IPXR_LINE_LITTLE,        // the speaker says little to all together
    Within = IPXR_LINE_WITHIN,        // within the part that the speaker has of the address' part
};

/// An address that has clients on the line, or speaks to such.
class LineAddress {
public:
    LineAddress() : address() {}
    ipxr_line_address *raw() { return &address; }

private:
    ipxr_line_address address;
};

/// A line by which clients are reached, and which is narrow. Moments are nanoseconds of your clock.
///
/// ```cpp
/// ipx::Line line(128);
/// ipx::LineAddress speaker, to;
/// line.join(to);
/// std::uint64_t said = 0, now = 1000000000;
/// const std::uint8_t number = line.speak(speaker);
/// const ipx::Rank rank = line.room(now, number, 100, said, to); // then ask the client's own limits
/// assert(rank != ipx::Rank::Full);
/// line.send(now, number, 100, rank, said, to); // it goes out
/// ```
class Line {
public:
    /// A line of so many kilobits a second, with nobody on it.
    explicit Line(std::uint32_t kilobits) : line() { line.kilobits = kilobits; }

    /// It has another width from now on.
    void set_kilobits(std::uint32_t kilobits) { line.kilobits = kilobits; }

    /// An address has one more client there, or one fewer.
    void join(LineAddress &address) { ipxr_line_join(&line, address.raw()); }
    void leave(LineAddress &address) { ipxr_line_leave(&line, address.raw()); }

    /// An address speaks, and has a number from 1 to 63 then; a second passes for it; it is gone.
    std::uint8_t speak(LineAddress &address) { return ipxr_line_speak(&line, address.raw()); }
    void second(LineAddress &address) { ipxr_line_second(&line, address.raw()); }
    void silence(LineAddress &address) { ipxr_line_silence(&line, address.raw()); }

    /// Whether there is room for a copy of a packet of so many bytes to an address. The speaker has that number, or 0 if it has no part;
    /// `said` is the moment until which his part of what he says to all is used, 0 at first.
    Rank room(std::uint64_t now, std::uint8_t number, std::size_t bytes, std::uint64_t &said, LineAddress &to) const
    {
        return static_cast<Rank>(ipxr_line_room(&line, now, number, bytes, &said, to.raw()));
    }

    /// It goes out with that rank.
    void send(std::uint64_t now, std::uint8_t number, std::size_t bytes, Rank rank, std::uint64_t &said, LineAddress &to)
    {
        ipxr_line_send(&line, now, number, bytes, static_cast<std::uint8_t>(rank), &said, to.raw());
    }

    /// Whether there is room for a copy beyond all parts: for what clients answer to pings.
    bool lets_beyond(std::uint64_t now) const { return ipxr_line_lets_beyond(&line, now); }

    /// Whether an answer of your own goes out to a client, and that it does. `address` is the moment until which the part of his address is
    /// used, 0 at first.
    bool lets_answer(std::uint64_t now, std::uint64_t &address) const { return ipxr_line_lets_answer(&line, now, &address); }
    void send_answer(std::uint64_t now, std::size_t bytes, std::uint64_t &address) { ipxr_line_send_answer(&line, now, bytes, &address); }

    /// A ping goes out, for which there is always room.
    void send_ping(std::uint64_t now, std::size_t bytes) { ipxr_line_send_ping(&line, now, bytes); }

    /// Whether a datagram of your own goes out to one who is no client, and that it does.
    bool lets_stranger(std::uint64_t now, std::uint64_t &address) { return ipxr_line_lets_stranger(&line, now, &address); }
    void send_to_stranger(std::uint64_t now, std::size_t bytes, std::uint64_t &address)
    {
        ipxr_line_send_to_stranger(&line, now, bytes, &address);
    }

    /// The limits of what goes to all who are no clients by this line.
    Strangers strangers() const
    {
        Strangers made;
        ipxr_line_strangers(&line, made.raw());
        return made;
    }

    /// How many nanoseconds should pass from a ping of so many bytes to the next.
    std::uint64_t between_pings(std::size_t bytes) const
    {
        std::uint64_t between = 0;
        ipxr_line_between_pings(&line, bytes, &between);
        return between;
    }

private:
    ipxr_line line;
};

} // namespace ipx

#endif

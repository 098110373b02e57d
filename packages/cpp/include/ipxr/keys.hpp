// Cookies and nodes that nobody can guess.
#ifndef IPXR_KEYS_HPP
#define IPXR_KEYS_HPP

#include "keyed.hpp"

namespace ipx {

/// What a server of a tunnel makes of the place where a datagram comes from: keyed hashes, by SipHash-2-4, as the gateway of this project
/// makes them. Take a key of sixteen random bytes and keep it in a file: by another one clients have other nodes, and have to connect
/// again. This is plain C++, which is tested and not proved.
///
/// ```cpp
/// const ipx::Keys keys(std::array<std::uint8_t, 16>{{7}}); // yours: random, and secret
/// ipx::Place place;
/// ipx::read_place("192.168.1.7:2130", place);
/// const ipxr_keyed_sender sender = keys.keyed_sender(place, 600); // for Keyed::hear, in second 600 of your clock
/// assert(ipx::node_of(sender.node) == keys.node(place) && ipx::node_of(sender.current) == keys.cookie(place, 10));
/// ```
class Keys {
public:
    /// The keys of sixteen secret bytes.
    explicit Keys(const std::array<std::uint8_t, 16> &key) : low(word(key.data(), 8)), high(word(key.data() + 8, 8)) {}

    /// The node of a place, for Keyed.
    Node node(const Place &place) const { return six(2, hash(place.data(), place.size())); }

    /// The cookie of a place in a minute.
    Node cookie(const Place &place, std::uint64_t minute) const
    {
        std::uint8_t text[14];
        std::copy(place.begin(), place.end(), text);
        for (unsigned k = 0; k < 8; k++)
            text[6 + k] = static_cast<std::uint8_t>(minute >> (56 - 8 * k) & 0xFF);
        return six(6, hash(text, sizeof text));
    }

    /// What Tunnel::hear takes for a datagram of a place, in a second of any clock that goes on. He isn't trusted.
    ipxr_sender sender(const Place &place, std::uint64_t seconds) const
    {
        const std::uint64_t minute = seconds / 60;
        return ipx::sender(place, cookie(place, minute), cookie(place, minute > 0 ? minute - 1 : 0));
    }

    /// The same for Keyed::hear. He has no former node, and may register.
    ipxr_keyed_sender keyed_sender(const Place &place, std::uint64_t seconds) const
    {
        const std::uint64_t minute = seconds / 60;
        return ipx::keyed_sender(place, node(place), cookie(place, minute), cookie(place, minute > 0 ? minute - 1 : 0));
    }

    /// SipHash-2-4 of some bytes.
    std::uint64_t hash(const std::uint8_t *bytes, std::size_t length) const
    {
        State it = {low ^ 0x736F6D6570736575u, high ^ 0x646F72616E646F6Du, low ^ 0x6C7967656E657261u, high ^ 0x7465646279746573u};
        const std::size_t whole = length / 8 * 8;
        for (std::size_t k = 0; k < whole; k += 8)
            take(it, word(bytes + k, 8));
        // (the last word has what is left, and at its top how long the text is)
        take(it, word(bytes + whole, length - whole) | static_cast<std::uint64_t>(length) << 56);
        it.c ^= 0xFF;
        mix(it, 4);
        return it.a ^ it.b ^ it.c ^ it.d;
    }

private:
    struct State {
        std::uint64_t a, b, c, d;
    };

    std::uint64_t low, high;

    /// The word of at most eight bytes, the lowest first.
    static std::uint64_t word(const std::uint8_t *bytes, std::size_t count)
    {
        std::uint64_t word = 0;
        for (std::size_t k = count; k > 0; k--)
            word = word << 8 | bytes[k - 1];
        return word;
    }

    static std::uint64_t turned(std::uint64_t word, int bits) { return word << bits | word >> (64 - bits); }

    static void mix(State &it, int rounds)
    {
        for (int k = 0; k < rounds; k++) {
            it.a += it.b;
            it.c += it.d;
            it.b = turned(it.b, 13) ^ it.a;
            it.d = turned(it.d, 16) ^ it.c;
            it.a = turned(it.a, 32) + it.d;
            it.c += it.b;
            it.d = turned(it.d, 21) ^ it.a;
            it.b = turned(it.b, 17) ^ it.c;
            it.c = turned(it.c, 32);
        }
    }

    static void take(State &it, std::uint64_t word)
    {
        it.d ^= word;
        mix(it, 2);
        it.a ^= word;
    }

    /// Six bytes: the first one, and five of a hash.
    static Node six(std::uint8_t first, std::uint64_t hash)
    {
        Node node = {{first}};
        for (unsigned k = 1; k < 6; k++)
            node[k] = static_cast<std::uint8_t>(hash >> (8 * k) & 0xFF);
        return node;
    }
};

} // namespace ipx

#endif

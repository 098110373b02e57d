// Chance, the sum of what came, and what packets are made of. What is added shows itself by the same text in each language.
#ifndef PLAY_HPP
#define PLAY_HPP

#include <cstdio>
#include <string>
#include <vector>

#include <ipxr.hpp>

// Bytes, which aren't a list of numbers.
struct Hex {
    ipx::View bytes;
};

// Nothing.
struct None {};

inline std::string shown(const std::string &it) { return it; }
inline std::string shown(const char *it) { return it; }
inline std::string shown(bool it) { return it ? "1" : "0"; }
inline std::string shown(None) { return "-"; }
inline std::string shown(int it) { return std::to_string(it); }
inline std::string shown(unsigned it) { return std::to_string(it); }
inline std::string shown(unsigned long it) { return std::to_string(it); }
inline std::string shown(unsigned long long it) { return std::to_string(it); }
inline std::string shown(std::uint8_t it) { return std::to_string(unsigned(it)); }
inline std::string shown(std::uint16_t it) { return std::to_string(unsigned(it)); }
inline std::string shown(const ipxr_address &it) { return ipx::address_text(it); }

inline std::string shown(const Hex &it)
{
    std::string text;
    char digits[3];
    for (std::size_t k = 0; k < it.bytes.length; k++) {
        std::snprintf(digits, sizeof digits, "%02x", unsigned(it.bytes.at[k]));
        text += digits;
    }
    return text;
}
inline std::string shown(const ipx::Node &it) { return shown(Hex{{it.data(), it.size()}}); }

inline std::string joined(const std::vector<std::string> &words)
{
    std::string text;
    for (std::size_t k = 0; k < words.size(); k++)
        text += (k > 0 ? " " : "") + words[k];
    return text;
}

// A list of values of several types.
template <class... Values> std::string list(const Values &...values) { return "[" + joined({shown(values)...}) + "]"; }

// A list of values of one type, as each is shown by a function.
template <class List, class Show> std::string each(const List &values, const Show &show)
{
    std::vector<std::string> words;
    for (const auto &it : values)
        words.push_back(show(it));
    return "[" + joined(words) + "]";
}
template <class List> std::string each(const List &values)
{
    return each(values, [](const typename List::value_type &it) { return shown(it); });
}

// A value, or nothing.
template <class Value> std::string either(bool is_one, const Value &value) { return is_one ? shown(value) : "-"; }

// What a field of a struct is: six bytes as a node, and the bytes before a 0 as a text.
inline ipx::Node node_of(const std::uint8_t (&bytes)[6]) { return ipx::node_of(bytes); }
template <std::size_t count> std::string name_of(const std::uint8_t (&bytes)[count])
{
    return std::string(bytes, std::find(bytes, bytes + count, 0));
}

class Play {
public:
    std::uint32_t chance(std::uint32_t below)
    {
        state ^= state << 13;
        state ^= state >> 17;
        state ^= state << 5;
        return state % below;
    }

    bool flips() { return chance(2) == 1; }
    std::uint8_t byte(std::uint32_t below) { return std::uint8_t(chance(below)); }
    std::uint16_t small(std::uint32_t below) { return std::uint16_t(chance(below)); }

    template <class... Values> void add(const Values &...values)
    {
        const std::string line = joined({shown(values)...}) + "\n";
        for (const char letter : line)
            total = (total ^ std::uint8_t(letter)) * 16777619;
    }

    template <class Turn> void part(const char *name, unsigned turns, const Turn &turn)
    {
        state = 1;
        total = 2166136261;
        for (unsigned k = 0; k < turns; k++)
            turn(k);
        std::printf("%s: %u turns, %08x\n", name, turns, unsigned(total));
    }

    ipx::Node node()
    {
        if (chance(6) == 0)
            return ipx::ALL_NODES;
        return {{2, 0, 0, 0, 0, std::uint8_t(1 + chance(9))}};
    }

    std::uint32_t network() { return chance(9) == 0 ? 0 : 0x10 * (1 + chance(4)); }

    std::uint16_t socket()
    {
        static const std::uint16_t SOCKETS[] = {0x451, 0x452, 0x453, 0x4545, 2};
        return SOCKETS[chance(5)];
    }

    ipxr_address address()
    {
        const std::uint32_t network_of = network();
        const ipx::Node node_there = node();
        return ipx::address(network_of, node_there, socket());
    }

    ipx::Place place()
    {
        const std::uint8_t third = byte(3), fourth = byte(4);
        const unsigned port = 2000 + chance(3);
        return {{10, 0, third, fourth, std::uint8_t(port / 256), std::uint8_t(port % 256)}};
    }

    ipx::Bytes data()
    {
        ipx::Bytes made(chance(60));
        for (std::uint8_t &it : made)
            it = byte(256);
        return made;
    }

    std::vector<ipxr_route_entry> routes()
    {
        std::vector<ipxr_route_entry> made(1 + chance(5));
        for (ipxr_route_entry &it : made) {
            it.network = 0x10 * (1 + chance(30));
            it.hops = small(18);
            it.ticks = small(40);
        }
        return made;
    }

    std::vector<ipxr_service_entry> services()
    {
        std::vector<ipxr_service_entry> made(1 + chance(3));
        for (ipxr_service_entry &it : made) {
            const std::string name = "S" + std::to_string(chance(20));
            const ipxr_address at = address();
            const std::uint16_t type = std::uint16_t(1 + chance(5));
            it = ipx::service_entry(name, type, at, small(18));
        }
        return made;
    }

    ipx::Bytes packet()
    {
        const ipxr_address from = address(), to = address();
        const std::uint32_t kind = chance(5);
        if (kind == 0) {
            const std::uint16_t operation = std::uint16_t(1 + chance(2));
            return ipx::write_rip(from, to, operation, routes()).value;
        }
        const bool is_nearest = kind < 3 && flips();
        if (kind == 1)
            return ipx::write_sap(from, to, is_nearest, services()).value;
        if (kind == 2)
            return ipx::write_query(from, to, is_nearest, small(6)).value;
        const std::uint8_t control = byte(4);
        return ipx::write_packet(from, to, kind == 3 ? 4 : 20, kind == 3 ? data() : ipx::Bytes(32), control).value;
    }

private:
    std::uint32_t state = 1, total = 0;
};

const ipx::Node SERVER = {{2, 0, 0, 0, 0, 1}};

void play_tunnels(Play &play);
void play_shares(Play &play);
void play_cables(Play &play);
void play_lines(Play &play);
bool see_places();

#endif

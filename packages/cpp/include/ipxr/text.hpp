// Bytes, nodes and addresses, and their text.
#ifndef IPXR_TEXT_HPP
#define IPXR_TEXT_HPP

#include <algorithm>
#include <array>
#include <cstddef>
#include <cstdint>
#include <cstdio>
#include <string>
#include <vector>

#include "ipxr_settings.h"

namespace ipx {

using Bytes = std::vector<std::uint8_t>;

/// A node on a network, or the place of a tunnel's client: four bytes of an IPv4 address, and two of a port.
using Node = std::array<std::uint8_t, 6>;
using Place = Node;

/// The node that stands for all.
constexpr Node ALL_NODES = {{IPXR_BROADCAST_BYTE, IPXR_BROADCAST_BYTE, IPXR_BROADCAST_BYTE, IPXR_BROADCAST_BYTE, IPXR_BROADCAST_BYTE,
                             IPXR_BROADCAST_BYTE}};

/// Some bytes that a call only reads: a vector's, an array's, or those at a pointer. It doesn't own them.
///
/// ```cpp
/// const std::uint8_t bytes[] = {1, 2, 3};
/// assert(ipx::View(bytes).length == 3);
/// assert(ipx::View(ipx::Bytes()).at != nullptr); // C takes no pointer that leads nowhere
/// ```
struct View {
    const std::uint8_t *at;
    std::size_t length;

    View() : View(nullptr, 0) {}
    View(const std::uint8_t *bytes, std::size_t count) : at(count > 0 ? bytes : nothing()), length(count) {}
    View(const Bytes &bytes) : View(bytes.data(), bytes.size()) {}
    explicit View(const std::string &text) : View(reinterpret_cast<const std::uint8_t *>(text.data()), text.size()) {}
    template <std::size_t count> View(const std::uint8_t (&bytes)[count]) : View(bytes, count) {}

    /// An address that leads to no bytes of anybody's.
    static std::uint8_t *nothing()
    {
        static std::uint8_t none;
        return &none;
    }
};

/// Some bytes that a call may change.
struct Span {
    std::uint8_t *at;
    std::size_t length;

    Span(std::uint8_t *bytes, std::size_t count) : at(count > 0 ? bytes : View::nothing()), length(count) {}
    Span(Bytes &bytes) : Span(bytes.data(), bytes.size()) {}
};

/// The node in six bytes of a struct.
inline Node node_of(const std::uint8_t (&bytes)[6])
{
    Node node;
    std::copy(bytes, bytes + 6, node.begin());
    return node;
}

/// Puts a node into six bytes of a struct.
inline void put_node(std::uint8_t (&bytes)[6], const Node &node)
{
    std::copy(node.begin(), node.end(), bytes);
}

/// The address of a socket on a node of a network. Network 0 is the one at hand.
inline ipxr_address address(std::uint32_t network, const Node &node, std::uint16_t socket)
{
    ipxr_address made = {network, {0, 0, 0, 0, 0, 0}, socket};
    put_node(made.node, node);
    return made;
}

/// Reads the number of a network, up to eight hexadecimal digits. Returns whether it is one; if not, nothing changes.
inline bool read_network(const std::string &text, std::uint32_t &network)
{
    const View it(text);
    return ipxr_settings_hexadecimal(it.at, it.length, 8, &network);
}

/// The same of a socket, up to four digits.
inline bool read_socket(const std::string &text, std::uint16_t &socket)
{
    const View it(text);
    std::uint32_t number = 0;
    if (!ipxr_settings_hexadecimal(it.at, it.length, 4, &number))
        return false;
    socket = static_cast<std::uint16_t>(number);
    return true;
}

/// The same of a node: twelve hexadecimal digits, with colons between each two or without.
///
/// ```cpp
/// ipx::Node node;
/// assert(ipx::read_node("02:00:C0:A8:00:01", node) && ipx::node_text(node) == "0200C0A80001");
/// assert(!ipx::read_node("02:00", node));
/// ```
inline bool read_node(const std::string &text, Node &node)
{
    const View it(text);
    return ipxr_settings_node(it.at, it.length, node.data());
}

/// The same of an address: network, node and socket, with a point between each two.
///
/// ```cpp
/// ipxr_address server;
/// assert(ipx::read_address("10.0200C0A80001.451", server) && server.network == 0x10 && server.socket == 0x451);
/// assert(ipx::address_text(server) == "00000010.0200C0A80001.0451");
/// ```
inline bool read_address(const std::string &text, ipxr_address &address)
{
    const std::size_t first = text.find('.'), second = first == std::string::npos ? first : text.find('.', first + 1);
    std::uint32_t network = 0;
    std::uint16_t socket = 0;
    Node node;
    if (second == std::string::npos || !read_network(text.substr(0, first), network) ||
        !read_node(text.substr(first + 1, second - first - 1), node) || !read_socket(text.substr(second + 1), socket))
        return false;
    address = ipx::address(network, node, socket);
    return true;
}

/// The same of a place: an address of IPv4 and a port, such as 192.168.1.7:2130.
inline bool read_place(const std::string &text, Place &place)
{
    unsigned parts[5];
    int end = 0;
    const int found = std::sscanf(text.c_str(), "%3u.%3u.%3u.%3u:%5u%n", &parts[0], &parts[1], &parts[2], &parts[3], &parts[4], &end);
    const bool is_long = found == 5 && static_cast<std::size_t>(end) != text.size();
    if (found != 5 || is_long || *std::max_element(parts, parts + 4) > 255 || parts[4] > 65535 ||
        text.find_first_not_of("0123456789.:") != std::string::npos)
        return false;
    for (std::size_t k = 0; k < 4; k++)
        place[k] = static_cast<std::uint8_t>(parts[k]);
    place[4] = static_cast<std::uint8_t>(parts[4] >> 8);
    place[5] = static_cast<std::uint8_t>(parts[4] & 0xFF);
    return true;
}

/// The eight digits of a network's number.
inline std::string network_text(std::uint32_t network)
{
    char text[9];
    return std::string(text, static_cast<std::size_t>(std::snprintf(text, sizeof text, "%08lX", static_cast<unsigned long>(network))));
}

/// The four digits of a socket.
inline std::string socket_text(std::uint16_t socket)
{
    char text[5];
    return std::string(text, static_cast<std::size_t>(std::snprintf(text, sizeof text, "%04X", static_cast<unsigned>(socket))));
}

/// The twelve digits of a node.
inline std::string node_text(const Node &node)
{
    static const char DIGITS[] = "0123456789ABCDEF";
    std::string text;
    for (const std::uint8_t byte : node) {
        text += DIGITS[byte >> 4];
        text += DIGITS[byte & 15];
    }
    return text;
}

/// Network, node and socket, with a point between each two.
inline std::string address_text(const ipxr_address &address)
{
    return network_text(address.network) + "." + node_text(node_of(address.node)) + "." + socket_text(address.socket);
}

/// A place as an address and a port.
///
/// ```cpp
/// ipx::Place place;
/// assert(ipx::read_place("192.168.1.7:2130", place) && ipx::place_text(place) == "192.168.1.7:2130");
/// assert(!ipx::read_place("192.168.1.256:2130", place));
/// ```
inline std::string place_text(const Place &place)
{
    std::string text;
    for (std::size_t k = 0; k < 4; k++)
        text += std::to_string(static_cast<unsigned>(place[k])) + (k < 3 ? "." : ":");
    return text + std::to_string(place[4] * 256u + place[5]);
}

} // namespace ipx

#endif

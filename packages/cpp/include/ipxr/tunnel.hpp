// DOSBox's tunnel.
#ifndef IPXR_TUNNEL_HPP
#define IPXR_TUNNEL_HPP

#include "ipxr_tunnel.h"
#include "owner.hpp"
#include "text.hpp"

namespace ipx {

/// What a datagram said.
enum class Said : std::int32_t {
    Nothing = IPXR_SAID_NOTHING,   // nothing that counts
    Registers = IPXR_REGISTERS,    // that it wants to be a client
    Answers = IPXR_ANSWERS,        // that it heard its ping
    Speaks = IPXR_SPEAKS,          // something to others; of one who is no client nobody gets it
};

/// Where a datagram came from, and its cookies: six bytes that nobody can guess, a keyed hash of the place and the minute.
inline ipxr_sender sender(const Place &place, const Node &current, const Node &previous, bool is_trusted = false)
{
    ipxr_sender made = ipxr_sender();
    put_node(made.place, place);
    put_node(made.current, current);
    put_node(made.previous, previous);
    made.is_trusted = is_trusted;
    return made;
}

/// What a tunnel is made from: its network, the server's node there, how many clients it takes, and how many of one IPv4 address.
inline ipxr_tunnel_setting tunnel_setting(std::uint32_t network, const Node &node, std::uint16_t capacity, std::uint16_t share)
{
    ipxr_tunnel_setting made = {network, {0, 0, 0, 0, 0, 0}, capacity, share};
    put_node(made.node, node);
    return made;
}

/// The server of DOSBox's IPXNET, whose clients' nodes are their places. For a new server use Keyed.
///
/// ```cpp
/// ipx::Tunnel tunnel;
/// const ipx::Node node = {{0, 0, 0, 0, 0, 1}};
/// // yours: a keyed hash of the place and the minute, and of the place and the last one
/// const ipx::Node cookie = {{2, 7, 7, 7, 7, 7}}, before = {{2, 6, 6, 6, 6, 6}};
/// if (!tunnel.make(ipx::tunnel_setting(0x10, node, 64, 16)))
///     return;
/// ipx::Place place;
/// ipx::read_place("192.168.1.7:2130", place);
/// ipxr_address nobody = ipxr_address(), registers = ipx::address(0, {}, 2);
/// ipx::Bytes datagram = ipx::write_packet(nobody, registers, 0, {}).value;
/// assert(tunnel.hear(ipx::sender(place, cookie, before), datagram).value == ipx::Said::Registers);
/// assert(ipx::node_of(ipx::read_packet(tunnel.owns()[1].bytes).value.from.node) == cookie); // the ping, which he answers
/// for (const ipxr_own &own : tunnel.owns())
///     std::printf("send %u bytes to %s\n", unsigned(sizeof own.bytes), ipx::place_text(ipx::node_of(own.place)).c_str());
/// ```
class Tunnel : public Owner<ipxr_tunnel, ipxr_tunnel_free> {
public:
    /// Makes a tunnel with that setting, and without clients.
    Answer make(const ipxr_tunnel_setting &setting) { return ipxr_tunnel_make(&handle, &setting); }

    /// A datagram arrived. Clear the packet's transport control (byte 4) first, and don't hand in a packet that is longer than the router's
    /// port allows. Read what it left before the next event.
    Result<Said> hear(const ipxr_sender &sender, View bytes)
    {
        const std::int32_t said = ipxr_tunnel_hear(&handle, &sender, bytes.at, bytes.length);
        return {said, said < 0 ? Said::Nothing : static_cast<Said>(said)};
    }

    /// A second has passed: silent clients are pinged, and those whose time is over leave.
    Answer second() { return ipxr_tunnel_second(&handle); }

    /// The router sends a packet on the tunnel's network to that node, or to all.
    Answer send(const Node &node) { return ipxr_tunnel_send(&handle, node.data()); }

    /// Datagrams of the tunnel's own that the last event left: send them first.
    std::vector<ipxr_own> owns() { return listed<ipxr_own>(ipxr_tunnel_owns(&handle), ipxr_tunnel_own); }

    /// The places that get the last event's packet.
    std::vector<Place> receivers()
    {
        std::vector<Place> places(ipxr_tunnel_receivers(&handle));
        for (std::size_t k = 0; k < places.size(); k++)
            ipxr_tunnel_receiver(&handle, k, places[k].data());
        return places;
    }

    /// How many bytes of the datagram, from its first on, are the packet; and whether the router hears it.
    std::size_t carried() { return ipxr_tunnel_carried(&handle); }
    bool is_heard() { return ipxr_tunnel_is_heard(&handle) == 1; }

    /// The places of the clients that left in the second.
    std::vector<Place> leavers()
    {
        std::vector<Place> places(ipxr_tunnel_leavers(&handle));
        for (std::size_t k = 0; k < places.size(); k++)
            ipxr_tunnel_leaver(&handle, k, places[k].data());
        return places;
    }

    /// Its clients, in the order in which they came.
    std::vector<ipxr_client> clients() { return listed<ipxr_client>(ipxr_tunnel_clients(&handle), ipxr_tunnel_client); }
};

/// Turns a broadcast on a network to one of the sockets into its copy for another network. Returns whether it is one that may be copied; if
/// not, the bytes stay as they were. Ask only about what the router hears.
inline bool extend(std::uint32_t network, const std::vector<std::uint16_t> &sockets, std::uint32_t to, Span bytes)
{
    const std::uint16_t none = 0;
    const std::uint16_t *list = sockets.empty() ? &none : sockets.data();
    return ipxr_tunnel_extend(network, list, sockets.size(), to, bytes.at, bytes.length) == 1;
}

} // namespace ipx

#endif

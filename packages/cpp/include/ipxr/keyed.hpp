// DOSBox's tunnel with nodes that it hands out.
#ifndef IPXR_KEYED_HPP
#define IPXR_KEYED_HPP

#include "ipxr_keyed.h"
#include "tunnel.hpp"

namespace ipx {

/// What a keyed tunnel is made from: as tunnel_setting, and how many registrations it remembers, and of one IPv4 address.
inline ipxr_keyed_setting keyed_setting(std::uint32_t network, const Node &node, std::uint16_t capacity, std::uint16_t share,
                                        std::uint16_t remembered, std::uint16_t remembered_share)
{
    ipxr_keyed_setting made = {network, {0, 0, 0, 0, 0, 0}, capacity, share, remembered, remembered_share};
    put_node(made.node, node);
    return made;
}

/// Where a datagram came from: its place, its node, and its cookies of this minute and the last, which are yours to make, and which nobody
/// may guess. It has no former node, isn't trusted, and may register: change what is otherwise.
inline ipxr_keyed_sender keyed_sender(const Place &place, const Node &node, const Node &current, const Node &previous)
{
    ipxr_keyed_sender made = ipxr_keyed_sender();
    put_node(made.place, place);
    put_node(made.node, node);
    put_node(made.former, node);
    put_node(made.current, current);
    put_node(made.previous, previous);
    made.may_register = true;
    return made;
}

/// The server of DOSBox's IPXNET, which hands out nodes of yours.
///
/// ```cpp
/// ipx::Keyed tunnel;
/// if (!tunnel.make(ipx::keyed_setting(0x10, {{0, 0, 0, 0, 0, 1}}, 64, 16, 1024, 64)))
///     return;
/// const ipx::Node node = {{2, 1, 2, 3, 4, 5}};   // yours: 02, and a keyed hash of the place
/// const ipx::Node cookie = {{6, 1, 2, 3, 4, 5}}; // yours: of the place and the minute, in another form
/// ipx::Place place;
/// ipx::read_place("192.168.1.7:2130", place);
/// ipx::Bytes datagram = ipx::write_packet(ipxr_address(), ipx::address(0, {}, 2), 0, {}).value;
/// assert(tunnel.hear(ipx::keyed_sender(place, node, cookie, cookie), datagram).value == ipx::Said::Registers);
/// assert(tunnel.owns().size() == 1); // the answer; his first word, or a ping after seven seconds, makes him a client
/// assert(tunnel.waiters().size() == 1);
/// assert(ipx::node_of(ipx::read_packet(tunnel.owns()[0].bytes).value.to.node) == node); // which hands it out
/// ```
class Keyed : public Owner<ipxr_keyed, ipxr_keyed_free> {
public:
    /// Makes a tunnel with that setting, and without clients.
    Answer make(const ipxr_keyed_setting &setting) { return ipxr_keyed_make(&handle, &setting); }

    /// A datagram arrived. Clear the packet's transport control (byte 4) first, and don't hand in a packet that is longer than the router's
    /// port allows. Read what it left before the next event.
    Result<Said> hear(const ipxr_keyed_sender &sender, View bytes)
    {
        const std::int32_t said = ipxr_keyed_hear(&handle, &sender, bytes.at, bytes.length);
        return {said, said < 0 ? Said::Nothing : static_cast<Said>(said)};
    }

    /// A second has passed: silent clients are pinged, those whose time is over leave, and who registered is answered again.
    Answer second() { return ipxr_keyed_second(&handle); }

    /// The router sends a packet on the tunnel's network to that node, or to all.
    Answer send(const Node &node) { return ipxr_keyed_send(&handle, node.data()); }

    /// Datagrams of the tunnel's own that the last event left: send them first. The first `pings` of them are pings of clients after a
    /// second.
    std::vector<ipxr_own> owns() { return listed<ipxr_own>(ipxr_keyed_owns(&handle), ipxr_keyed_own); }
    std::size_t pings() { return ipxr_keyed_pings(&handle); }

    /// The places that get the last event's packet.
    std::vector<Place> receivers()
    {
        std::vector<Place> places(ipxr_keyed_receivers(&handle));
        for (std::size_t k = 0; k < places.size(); k++)
            ipxr_keyed_receiver(&handle, k, places[k].data());
        return places;
    }

    /// How many bytes of the datagram, from its first on, are the packet; and whether the router hears it.
    std::size_t carried() { return ipxr_keyed_carried(&handle); }
    bool is_heard() { return ipxr_keyed_is_heard(&handle) == 1; }

    /// The clients that left in the second.
    std::vector<ipxr_keyed_member> leavers() { return listed<ipxr_keyed_member>(ipxr_keyed_leavers(&handle), ipxr_keyed_leaver); }

    /// Its clients, and who registered and is remembered, in the order in which they came.
    std::vector<ipxr_keyed_member> clients() { return listed<ipxr_keyed_member>(ipxr_keyed_clients(&handle), ipxr_keyed_client); }
    std::vector<ipxr_keyed_member> waiters() { return listed<ipxr_keyed_member>(ipxr_keyed_waiters(&handle), ipxr_keyed_waiter); }
};

} // namespace ipx

#endif

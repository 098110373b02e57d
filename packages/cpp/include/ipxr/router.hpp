// The router.
#ifndef IPXR_ROUTER_HPP
#define IPXR_ROUTER_HPP

#include "owner.hpp"
#include "text.hpp"

namespace ipx {

/// A packet that is to be sent, on a port to the node of the next hop there, or to all.
struct Packet {
    std::uint8_t port;
    Node node;
    Bytes bytes;
};

/// A port on a network, of cost 1, for packets of 576 bytes, without limits: change what is otherwise.
inline ipxr_port port(std::uint32_t network, const Node &node)
{
    ipxr_port made = {network, {0, 0, 0, 0, 0, 0}, 1, 576, IPXR_NO_LIMIT, IPXR_NO_LIMIT};
    put_node(made.node, node);
    return made;
}

/// A router. Each event answers what became of it, and may leave packets to be sent: fetch them with take_sent.
///
/// ```cpp
/// ipx::Router router;
/// const ipx::Node one = {{0, 0, 0, 0, 0, 1}}, two = {{0, 0, 0, 0, 0, 2}};
/// if (!router.make({ipx::port(0x10, one), ipx::port(0x20, two)}))
///     return;
/// assert(router.start() == IPXR_STARTED);
/// for (const ipx::Packet &packet : router.take_sent())
///     std::printf("port %u, to %s: %u bytes\n", packet.port, ipx::node_text(packet.node).c_str(), unsigned(packet.bytes.size()));
/// assert(router.second() == IPXR_TICKED);
/// ```
class Router : public Owner<ipxr, ipxr_free> {
public:
    /// Makes a router of these ports, numbered from 0. It is stopped. A router that it had is freed, but only if the new one could be made.
    Answer make(const std::vector<ipxr_port> &ports)
    {
        // (an empty vector has no address to give, and no ports make no router)
        const ipxr_port none = ipxr_port();
        return ipxr_make(&handle, ports.empty() ? &none : ports.data(), ports.size());
    }

    /// Starts it: IPXR_STARTED or IPXR_ALREADY_RUNNING. All ports are up.
    Answer start() { return ipxr_start(&handle); }

    /// Stops it. What it learned is forgotten, and advertised as unreachable.
    Answer stop() { return ipxr_stop(&handle); }

    /// A second has passed. Call it once for each second of your clock, late ones too.
    Answer second() { return ipxr_second(&handle); }

    /// A packet arrived on a port: the IPX packet from its checksum on, with any padding.
    Answer packet(std::uint8_t port, View bytes) { return ipxr_packet(&handle, port, bytes.at, bytes.length); }

    /// A port lost its link, or has it again.
    Answer port_down(std::uint8_t port) { return ipxr_port_down(&handle, port); }
    Answer port_up(std::uint8_t port) { return ipxr_port_up(&handle, port); }

    /// Whether it runs, and whether a port is up.
    bool is_running() { return ipxr_is_running(&handle) == 1; }
    bool is_up(std::uint8_t port) { return ipxr_is_up(&handle, port) == 1; }

    /// The packets to be sent, which are then removed.
    std::vector<Packet> take_sent()
    {
        std::vector<Packet> packets;
        for (std::size_t k = 0; k < ipxr_sent(&handle); k++)
            packets.push_back(packet_sent(k));
        ipxr_clear(&handle);
        return packets;
    }

    /// The same for whoever wants no memory of its own: how many packets there are, one into a buffer of yours, and removing them.
    std::size_t sent() { return ipxr_sent(&handle); }
    Answer get(std::size_t index, ipxr_packet_sent &sent, Span buffer)
    {
        return ipxr_get(&handle, index, &sent, buffer.at, buffer.length);
    }
    void clear() { ipxr_clear(&handle); }

    /// The routes that it learned, by network, and the services, by type and name.
    std::vector<ipxr_route_record> routes() { return listed<ipxr_route_record>(ipxr_routes(&handle), ipxr_route); }
    std::vector<ipxr_service_record> services() { return listed<ipxr_service_record>(ipxr_services(&handle), ipxr_service); }

private:
    // The first call tells the length.
    Packet packet_sent(std::size_t index)
    {
        ipxr_packet_sent told = ipxr_packet_sent();
        ipxr_get(&handle, index, &told, View::nothing(), 0);
        Packet packet = {told.port, node_of(told.node), Bytes(told.length)};
        ipxr_get(&handle, index, &told, packet.bytes.data(), packet.bytes.size());
        return packet;
    }
};

} // namespace ipx

#endif

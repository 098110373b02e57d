// What a packet passes between a cable and the router's port on it: docs/EDGE.md explains all of it.
#ifndef IPXR_EDGE_HPP
#define IPXR_EDGE_HPP

#include "ipxr_edge.h"
#include "packets.hpp"

namespace ipx {

/// The way of a packet: from a cable to the router, or from the router to a cable.
enum class Way : std::uint8_t { In = IPXR_WAY_IN, Out = IPXR_WAY_OUT };

/// Whether a rule permits or denies what it names.
enum class Does : std::uint8_t { Deny = 0, Permit = 1 };

/// Which services a rule names: all, the one of a name, or those whose name begins so.
enum class Names : std::uint8_t { All = IPXR_NAMES_ALL, Is = IPXR_NAMES_IS, Begin = IPXR_NAMES_BEGIN };

namespace of_edges {

inline ipxr_rule rule(Does does, std::uint8_t what)
{
    ipxr_rule made = ipxr_rule();
    made.permits = static_cast<std::uint8_t>(does);
    made.what = what;
    return made;
}

} // namespace of_edges

/// A rule for packets of a type, in and out; 20 are NetBIOS broadcasts.
inline ipxr_rule rule_of_type(Does does, std::uint8_t type)
{
    ipxr_rule made = of_edges::rule(does, IPXR_RULE_TYPE);
    made.type = type;
    return made;
}

/// For packets from a socket or to it, in and out.
inline ipxr_rule rule_of_socket(Does does, std::uint16_t socket)
{
    ipxr_rule made = of_edges::rule(does, IPXR_RULE_SOCKET);
    made.socket = socket;
    return made;
}

/// For queries for the nearest service that come in.
inline ipxr_rule rule_of_nearest(Does does)
{
    return of_edges::rule(does, IPXR_RULE_NEAREST);
}

/// For routes to the networks of a range.
inline ipxr_rule rule_of_routes(Does does, Way way, std::uint32_t first, std::uint32_t last)
{
    ipxr_rule made = of_edges::rule(does, IPXR_RULE_ROUTES);
    made.way = static_cast<std::uint8_t>(way);
    made.from = first;
    made.to = last;
    return made;
}

/// For services of a type with those names, of at most 47 bytes; FFFFh is every type.
inline ipxr_rule rule_of_services(Does does, Way way, std::uint16_t type, Names names = Names::All, const std::string &name = "")
{
    ipxr_rule made = of_edges::rule(does, IPXR_RULE_SERVICES);
    made.way = static_cast<std::uint8_t>(way);
    made.names = static_cast<std::uint8_t>(names);
    made.type = type;
    std::copy(name.begin(), name.begin() + static_cast<std::ptrdiff_t>(std::min(name.size(), sizeof made.name - 1)), made.name);
    return made;
}

/// Whether a packet comes in from a cable: 1, and its numbers are filled in; or 0, where it is held, and stays as it was.
inline Answer edge_enter(const ipxr_port &port, Span bytes) { return ipxr_edge_enter(&port, bytes.at, bytes.length); }

/// Whether it is held, 1 or 0: it is for RIP or SAP on the port's network, and came through a router.
inline Answer edge_is_held(const ipxr_port &port, View bytes) { return ipxr_edge_is_held(&port, bytes.at, bytes.length); }

/// Fills in the port's network in the place of 0, held or not.
inline Answer edge_number(const ipxr_port &port, Span bytes) { return ipxr_edge_number(&port, bytes.at, bytes.length); }

/// Filters a packet by rules: the first that names something decides, and what none names is permitted. The value is how many bytes of it
/// pass; 0 if nothing does.
///
/// ```cpp
/// const ipxr_port port = ipx::port(0x10, {{0, 0, 0, 0, 0, 1}});
/// const ipxr_address from = ipx::address(0, {{0, 0, 0x1B, 0, 0, 7}}, 0x4003); // it doesn't know its network's number
/// ipx::Bytes bytes = ipx::write_packet(from, ipx::address(0x20, {{0, 0, 0x1B, 0, 0, 9}}, 0x451), 17, {}).value;
/// assert(ipx::edge_enter(port, bytes) == 1);
/// assert(ipx::edge_filter(ipx::Way::In, port, {ipx::rule_of_type(ipx::Does::Deny, 20)}, bytes).value == 30);
/// assert(ipx::read_packet(bytes).value.from.network == 0x10);
/// ```
inline Result<std::size_t> edge_filter(Way way, const ipxr_port &port, const std::vector<ipxr_rule> &rules, Span bytes)
{
    std::size_t passes = 0;
    const ipxr_rule *list = of_packets::list_of(rules);
    const std::int32_t answer =
        ipxr_edge_filter(static_cast<std::uint8_t>(way), &port, list, rules.size(), bytes.at, bytes.length, &passes);
    return {answer, passes};
}

/// Whether a neighbour claims another number for the cable by a packet that came from there: 1, and the value is that number; or 0.
inline Result<std::uint32_t> edge_claim(const ipxr_port &port, View bytes)
{
    std::uint32_t network = 0;
    const std::int32_t answer = ipxr_edge_claim(&port, bytes.at, bytes.length, &network);
    return {answer, network};
}

/// Whether a packet that goes out on the port is the router's answer to a query for the nearest service, and names none that is nearer than
/// `hops`: 1 or 0.
inline Answer edge_is_needless(const ipxr_port &port, std::uint16_t hops, View bytes)
{
    return ipxr_edge_is_needless(&port, hops, bytes.at, bytes.length);
}

/// Writes a response of routes as if the node had sent it to all routers on the port's network: hand it to the router each minute.
inline Result<Bytes> edge_write_routes(const ipxr_port &port, const Node &node, const std::vector<ipxr_route_entry> &routes)
{
    Bytes bytes(of_packets::ROOM);
    const ipxr_route_entry *list = of_packets::list_of(routes);
    const std::int32_t answer = ipxr_edge_write_routes(&port, node.data(), list, routes.size(), bytes.data(), bytes.size());
    return of_packets::written(answer, std::move(bytes));
}

/// The same of services, to all servers and routers there.
inline Result<Bytes> edge_write_services(const ipxr_port &port, const Node &node, const std::vector<ipxr_service_entry> &services)
{
    Bytes bytes(of_packets::ROOM);
    const ipxr_service_entry *list = of_packets::list_of(services);
    const std::int32_t answer = ipxr_edge_write_services(&port, node.data(), list, services.size(), bytes.data(), bytes.size());
    return of_packets::written(answer, std::move(bytes));
}

} // namespace ipx

#endif

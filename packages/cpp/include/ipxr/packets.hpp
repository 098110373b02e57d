// Packets of your own: written by the library, which is proved; read here, by plain C++ that is only tested.
#ifndef IPXR_PACKETS_HPP
#define IPXR_PACKETS_HPP

#include <algorithm>

#include "answer.hpp"
#include "text.hpp"

namespace ipx {

/// The types of packets with routing information and with service advertising.
enum : std::uint8_t { RIP = 1, SAP = 4 };

/// A packet whose header was read: its data is where it was, without padding.
struct Header {
    std::uint16_t checksum;
    std::uint8_t control; // how many routers it has crossed
    std::uint8_t type;
    ipxr_address to;
    ipxr_address from;
    View data;
};

namespace of_packets {

enum : std::size_t { HEADER = 30, ROOM = 576, ROUTE = 8, SERVICE = 64, NAME = 48 };

inline std::uint16_t number(const std::uint8_t *at)
{
    return static_cast<std::uint16_t>(at[0] * 256u + at[1]);
}

inline std::uint32_t long_number(const std::uint8_t *at)
{
    return number(at) * 65536u + number(at + 2);
}

inline ipxr_address address(const std::uint8_t *at)
{
    ipxr_address made = {long_number(at), {0, 0, 0, 0, 0, 0}, number(at + 10)};
    std::copy(at + 4, at + 10, made.node);
    return made;
}

/// What was written into a room.
inline Result<Bytes> written(std::int32_t answer, Bytes bytes)
{
    bytes.resize(answer < 0 ? 0 : static_cast<std::size_t>(answer));
    return {answer, std::move(bytes)};
}

template <class Value> const Value *list_of(const std::vector<Value> &values)
{
    static const Value none = Value();
    return values.empty() ? &none : values.data();
}

} // namespace of_packets

/// A route of a packet, and the one that asks for all.
inline ipxr_route_entry route_entry(std::uint32_t network, std::uint16_t hops, std::uint16_t ticks)
{
    return {network, hops, ticks};
}
inline ipxr_route_entry all_routes() { return {0xFFFFFFFF, 0xFFFF, 0xFFFF}; }

/// A service of a packet. Its name is no longer than 47 bytes: the rest of it is left out. A server's own service has 1 hop.
inline ipxr_service_entry service_entry(const std::string &name, std::uint16_t type, const ipxr_address &address, std::uint16_t hops)
{
    ipxr_service_entry made = ipxr_service_entry();
    std::copy(name.begin(), name.begin() + static_cast<std::ptrdiff_t>(std::min(name.size(), sizeof made.name - 1)), made.name);
    made.network = address.network;
    std::copy(address.node, address.node + 6, made.node);
    made.socket = address.socket;
    made.type = type;
    made.hops = hops;
    return made;
}

/// The name of a service, without the zeros behind.
template <class Service> std::string name_of(const Service &service)
{
    return std::string(service.name, std::find(service.name, service.name + sizeof service.name, 0));
}

/// Writes a request or a response of routing information, with 1 to 50 routes.
///
/// ```cpp
/// ipxr_address client;
/// ipx::read_address("10.0000000000CC.4003", client);
/// const ipxr_address routers = ipx::address(0x10, ipx::ALL_NODES, IPXR_RIP_SOCKET);
/// ipx::Result<ipx::Bytes> asks = ipx::write_rip(client, routers, IPXR_RIP_REQUEST, {ipx::all_routes()});
/// ipx::Result<ipx::Header> header = ipx::read_packet(asks.value);
/// assert(header && header.value.type == ipx::RIP && ipx::routes_of(header.value.data).size() == 1);
/// ```
inline Result<Bytes> write_rip(const ipxr_address &from, const ipxr_address &to, std::uint16_t operation,
                               const std::vector<ipxr_route_entry> &routes)
{
    Bytes bytes(of_packets::ROOM);
    const ipxr_route_entry *list = of_packets::list_of(routes);
    const std::int32_t answer = ipxr_write_rip(&from, &to, operation, list, routes.size(), bytes.data(), bytes.size());
    return of_packets::written(answer, std::move(bytes));
}

/// Writes a query for the services of a type, or of every type, which is FFFFh: for all of them, or for the nearest one.
inline Result<Bytes> write_query(const ipxr_address &from, const ipxr_address &to, bool is_nearest, std::uint16_t type)
{
    Bytes bytes(of_packets::ROOM);
    const std::int32_t answer = ipxr_write_query(&from, &to, is_nearest, type, bytes.data(), bytes.size());
    return of_packets::written(answer, std::move(bytes));
}

/// Writes a response of 1 to 7 services: a general one, or the answer to a query for the nearest.
///
/// ```cpp
/// ipxr_address server;
/// ipx::read_address("E0.000000000002.451", server);
/// const ipxr_address all = ipx::address(0xE0, ipx::ALL_NODES, IPXR_SAP_SOCKET);
/// ipx::Bytes offer = ipx::write_sap(server, all, false, {ipx::service_entry("FILES", 4, server, 1)}).value;
/// std::vector<ipxr_service_entry> services = ipx::services_of(ipx::read_packet(offer).value.data);
/// assert(services.size() == 1 && ipx::name_of(services[0]) == "FILES");
/// ```
inline Result<Bytes> write_sap(const ipxr_address &from, const ipxr_address &to, bool is_nearest,
                               const std::vector<ipxr_service_entry> &services)
{
    Bytes bytes(of_packets::ROOM);
    const ipxr_service_entry *list = of_packets::list_of(services);
    const std::int32_t answer = ipxr_write_sap(&from, &to, is_nearest, list, services.size(), bytes.data(), bytes.size());
    return of_packets::written(answer, std::move(bytes));
}

/// Writes a packet of any type. `control` is how many routers it came through: 0 for a new packet.
inline Result<Bytes> write_packet(const ipxr_address &from, const ipxr_address &to, std::uint8_t type, View data, std::uint8_t control = 0)
{
    Bytes bytes(of_packets::HEADER + data.length);
    const std::int32_t answer = ipxr_write_packet(&from, &to, type, control, data.at, data.length, bytes.data(), bytes.size());
    return of_packets::written(answer, std::move(bytes));
}

/// Reads a packet's header. Where the bytes are no packet, the answer is IPXR_NO_PACKET.
inline Result<Header> read_packet(View bytes)
{
    Header header = {0, 0, 0, ipxr_address(), ipxr_address(), View(bytes.at, 0)};
    if (bytes.length < of_packets::HEADER)
        return {IPXR_NO_PACKET, header};
    const std::size_t length = of_packets::number(bytes.at + 2);
    if (length < of_packets::HEADER || length > bytes.length)
        return {IPXR_NO_PACKET, header};
    header.checksum = of_packets::number(bytes.at);
    header.control = bytes.at[4];
    header.type = bytes.at[5];
    header.to = of_packets::address(bytes.at + 6);
    header.from = of_packets::address(bytes.at + 18);
    header.data = View(bytes.at + of_packets::HEADER, length - of_packets::HEADER);
    return {0, header};
}

/// The operation of the data of routing information or of service advertising; 0 if there is none.
inline std::uint16_t operation_of(View data)
{
    return data.length < 2 ? std::uint16_t(0) : of_packets::number(data.at);
}

/// The routes of the data of routing information. Bytes behind the last whole one are left out.
inline std::vector<ipxr_route_entry> routes_of(View data)
{
    std::vector<ipxr_route_entry> routes;
    for (std::size_t k = 2; k + of_packets::ROUTE <= data.length; k += of_packets::ROUTE)
        routes.push_back({of_packets::long_number(data.at + k), of_packets::number(data.at + k + 4), of_packets::number(data.at + k + 6)});
    return routes;
}

/// The services of the data of service advertising. Those without a name are left out, and bytes behind the last whole one.
inline std::vector<ipxr_service_entry> services_of(View data)
{
    std::vector<ipxr_service_entry> services;
    for (std::size_t k = 2; k + of_packets::SERVICE <= data.length; k += of_packets::SERVICE) {
        const std::uint8_t *at = data.at + k, *name = at + 2, *end = std::find(name, name + of_packets::NAME, 0);
        if (end != name && end != name + of_packets::NAME)
            services.push_back(service_entry(std::string(name, end), of_packets::number(at), of_packets::address(at + 50),
                                             of_packets::number(at + 62)));
    }
    return services;
}

} // namespace ipx

#endif

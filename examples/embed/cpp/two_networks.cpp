// Joins two networks, plays a few packets to the router, and prints what it sends; c/two_networks.c draws the networks.
#include <cstdio>
#include <iostream>

#include "ipxr.hpp"

static std::string hex(const ipx::Bytes &bytes)
{
    std::string text;
    for (unsigned byte : bytes) {
        char digits[3];
        std::snprintf(digits, sizeof digits, "%02X", byte);
        text += digits;
    }
    return text;
}

static ipx::Bytes from_hex(const std::string &text)
{
    ipx::Bytes bytes;
    for (std::size_t k = 0; k + 1 < text.size(); k += 2)
        bytes.push_back(static_cast<std::uint8_t>(std::stoul(text.substr(k, 2), nullptr, 16)));
    return bytes;
}

static void show(ipx::Router &router, const std::string &event, ipx::Answer answer)
{
    std::cout << event << ": " << ipx::check(answer).words() << "\n";
    for (const ipx::Packet &packet : router.take_sent())
        std::cout << "out " << unsigned(packet.port) << " " << ipx::node_text(packet.node) << " " << hex(packet.bytes) << "\n";
}

static void receive(ipx::Router &router, const std::string &what, std::uint8_t port, const std::string &text)
{
    show(router, what, router.packet(port, from_hex(text)));
}

static void show_routes(ipx::Router &router)
{
    for (const ipxr_route_record &route : router.routes())
        std::printf("route %08X %u %u %u %s %u\n", route.network, route.hops, route.ticks, route.port,
                    ipx::node_text(ipx::node_of(route.node)).c_str(), route.age);
}

int main()
{
    std::ios::sync_with_stdio(true);
    try {
        ipx::Router router;
        ipx::check(router.make({ipx::port(0x10, {{0, 0, 0, 0, 0, 1}}), ipx::port(0x20, {{0, 0, 0, 0, 0, 2}})}));
        show(router, "start", router.start());
        receive(router, "BB advertises network 30", 1,
                "FFFF0028000100000020FFFFFFFFFFFF0453000000200000000000BB045300020000003000010002");
        receive(router, "AA asks for all routes", 0,
                "FFFF0028000100000010FFFFFFFFFFFF0453000000100000000000AA04530001FFFFFFFFFFFFFFFF");
        receive(router, "AA writes to CC on network 20", 0,
                "FFFF001E0000000000200000000000CC4003000000100000000000AA4003");
        receive(router, "AA writes to network 99", 0, "FFFF001E0000000000990000000000CC4003000000100000000000AA4003");
        receive(router, "29 bytes come", 0, "0000000000000000000000000000000000000000000000000000000000");
        show_routes(router);
        show(router, "second", router.second());
        show(router, "port 1 goes down", router.port_down(1));
        show(router, "stop", router.stop());
    } catch (const ipx::Fault &fault) {
        std::cerr << "two_networks: " << fault.what() << "\n";
        return 1;
    }
    return 0;
}

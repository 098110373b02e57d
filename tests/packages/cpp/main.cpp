// Plays made-up events to whatever the headers have, and prints for each part a sum of all that came of them, as made_up.py does.
#include "play.hpp"

// What a neighbour on a port's network tells.
static ipx::Bytes told(Play &play, std::uint8_t port, std::uint16_t socket)
{
    const std::uint32_t network = 0x10 * (1u + port);
    const ipxr_address from = ipx::address(network, {{2, 0, 0, 0, 0, 10}}, socket), to = ipx::address(network, ipx::ALL_NODES, socket);
    return socket == IPXR_RIP_SOCKET ? ipx::write_rip(from, to, IPXR_RIP_RESPONSE, play.routes()).value
                                     : ipx::write_sap(from, to, false, play.services()).value;
}

static void router_turn(Play &play, ipx::Router &router)
{
    const std::uint32_t what = play.chance(12);
    const std::uint8_t port = play.byte(4);
    const ipx::Answer outcome = what == 0                ? router.second()
                                : what == 1              ? router.port_down(port)
                                : what == 2 || what == 5 ? router.port_up(port)
                                : what == 3              ? router.packet(port, told(play, port, IPXR_RIP_SOCKET))
                                : what == 4              ? router.packet(port, told(play, port, IPXR_SAP_SOCKET))
                                                         : router.packet(port, play.packet());
    if (!outcome)
        return play.add(outcome.number);
    play.add(outcome.number, each(router.take_sent(), [](const ipx::Packet &it) { return list(it.port, it.node, Hex{it.bytes}); }));
}

static void tables(Play &play, ipx::Router &router)
{
    for (const ipxr_route_record &it : router.routes())
        play.add(it.network, it.hops, it.ticks, node_of(it.node), it.port, it.age);
    for (const ipxr_service_record &it : router.services())
        play.add(ipx::name_of(it), ipx::address(it.network, node_of(it.node), it.socket), it.type, it.hops, node_of(it.neighbour), it.port,
                 it.age);
}

int main()
{
    Play play;
    ipx::Router router;
    if (!router.make({ipx::port(0x10, SERVER), ipx::port(0x20, SERVER), ipx::port(0x30, SERVER)}))
        return 1;
    router.start();
    router.clear();
    play.part("router", 600, [&](unsigned) { router_turn(play, router); });
    play.part("tables", 1, [&](unsigned) { tables(play, router); });
    play_tunnels(play);
    play_shares(play);
    play_cables(play);
    play_lines(play);
    return see_places() ? 0 : 1;
}

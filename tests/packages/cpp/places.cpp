// Whether values arrive where they belong, where two of one call have one type. What doesn't is told.
#include "play.hpp"

static bool is_right = true;

static void see(const char *what, bool is_so)
{
    if (!is_so)
        std::printf("wrong: %s\n", what);
    is_right = is_right && is_so;
}

static void see_limits()
{
    ipx::Limits limits;
    ipx::ClientUse client;
    ipx::AddressUse address;
    ipx::Meter handed, advertised, one, other, all;
    ipx::Strangers strangers;
    see("limits", limits.make(ipx::LimitsOf::Tunnel, 800, 50) && strangers.make(100));
    limits.hands(1, ipx::PacketKind::Other, client, address, handed, advertised);
    see("what is no advertisement isn't counted as one", advertised.used() == 0 && handed.used() > 0);
    limits.hands(1, ipx::PacketKind::Told, client, address, handed, advertised);
    see("an advertisement is", advertised.used() > 0);
    while (strangers.send(1, one, all) == ipx::Verdict::Passes)
        ;
    see("another stranger is still sent something", strangers.send(1, other, all) == ipx::Verdict::Passes);
}

static void see_household()
{
    ipx::Limits limits;
    ipx::Household household;
    ipx::Reader client;
    ipx::Fair address;
    see("a household", limits.make(ipx::LimitsOf::Tunnel, 800, 50) && household.make(2000) && client.make(limits) &&
                           address.make(household.received()));
    while (limits.receives(client, 1, 500) == ipx::Verdict::Passes)
        ;
    see("a client without room", household.receives(limits, client, address, 1, 500) == ipx::Verdict::TooMuchForClient);
    see("hears the router", household.receives_of_router(limits, client, address, 1, 500) == ipx::Verdict::Passes);
}

static const ipx::Node NEIGHBOUR = {{2, 0, 0, 0, 0, 2}};

static void see_frame()
{
    const ipx::Bytes packet = ipx::write_packet(ipxr_address(), ipxr_address(), 0, {}).value;
    const ipx::Bytes frame = ipx::write_frame(ipx::FrameKind::Ethernet2, NEIGHBOUR, SERVER, packet);
    see("a frame begins with its destination", std::equal(NEIGHBOUR.begin(), NEIGHBOUR.end(), frame.begin()) &&
                                                   std::equal(SERVER.begin(), SERVER.end(), frame.begin() + 6));
}

static ipx::Bytes left(const ipxr_rule &rule, ipx::Bytes packet)
{
    const ipx::Result<std::size_t> passes = ipx::edge_filter(ipx::Way::In, ipx::port(0x10, SERVER), {rule}, packet);
    see("a rule", bool(passes));
    packet.resize(passes.value);
    return packet;
}

static std::string routes(const ipx::Bytes &packet)
{
    return each(ipx::routes_of(ipx::read_packet(packet).value.data), [](const ipxr_route_entry &it) { return shown(it.network); });
}

static std::string names(const ipx::Bytes &packet)
{
    return each(ipx::services_of(ipx::read_packet(packet).value.data), [](const ipxr_service_entry &it) { return ipx::name_of(it); });
}

static void see_rules()
{
    using ipx::Does;
    const ipxr_address from = ipx::address(0x10, NEIGHBOUR, IPXR_RIP_SOCKET), all = ipx::address(0x10, ipx::ALL_NODES, IPXR_RIP_SOCKET);
    ipx::Bytes told = ipx::write_rip(from, all, IPXR_RIP_RESPONSE, {ipx::route_entry(0xA5, 1, 1), ipx::route_entry(0xB5, 1, 1)}).value;
    see("routes of a range", routes(left(ipx::rule_of_routes(Does::Deny, ipx::Way::In, 0xA0, 0xAF), told)) == "[181]");
    see("their way", routes(left(ipx::rule_of_routes(Does::Deny, ipx::Way::Out, 0xA0, 0xAF), told)) == "[165 181]");
    const ipxr_address server = ipx::address(0x10, NEIGHBOUR, IPXR_SAP_SOCKET), servers = ipx::address(0x10, ipx::ALL_NODES, IPXR_SAP_SOCKET);
    told = ipx::write_sap(server, servers, false, {ipx::service_entry("LAB", 4, server, 1), ipx::service_entry("LAB2", 4, server, 1)}).value;
    see("a service", names(left(ipx::rule_of_services(Does::Deny, ipx::Way::In, 4, ipx::Names::Is, "LAB"), told)) == "[LAB2]");
    see("services that begin so", left(ipx::rule_of_services(Does::Deny, ipx::Way::In, 4, ipx::Names::Begin, "LAB"), told).empty());
    see("permitted ones", left(ipx::rule_of_services(Does::Permit, ipx::Way::In, 4), told) == told);
    const ipxr_address pc = ipx::address(0x10, NEIGHBOUR, 0x4003), far = ipx::address(0x20, NEIGHBOUR, 0x451);
    const ipx::Bytes packet = ipx::write_packet(pc, far, 17, {}).value, query = ipx::write_query(pc, servers, true, 4).value;
    see("a type", left(ipx::rule_of_type(Does::Deny, 17), packet).empty() && left(ipx::rule_of_type(Does::Deny, 18), packet) == packet);
    see("a socket", left(ipx::rule_of_socket(Does::Deny, 0x451), packet).empty());
    see("a query", left(ipx::rule_of_nearest(Does::Deny), query).empty() && left(ipx::rule_of_nearest(Does::Deny), packet) == packet);
}

bool see_places()
{
    see_limits();
    see_household();
    see_frame();
    see_rules();
    return is_right;
}

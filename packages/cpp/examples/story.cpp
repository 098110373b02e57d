// A tour of the package without a socket: a tunnel with two players, one whose nodes are handed out, a network over two links, a service
// that is found, a packet, frames, and a share that holds. The package for each language has this program, and all print the same.
#include <cstdio>
#include <string>

#include <ipxr.hpp>

namespace {

const std::uint32_t NETWORK = 0x10;
const std::uint16_t TUNNEL_SOCKET = 2, GAME_SOCKET = 0x4545;
const ipx::Node NOBODY = {}, SERVER = {{2, 0, 0, 0, 0, 1}};
const ipx::Place ANNA = {{10, 0, 0, 1, 0x08, 0x52}}, BEN = {{10, 0, 0, 2, 0x08, 0x52}}, STRANGER = {{192, 0, 2, 7, 0x03, 0xE8}};

void print(const std::string &line)
{
    std::puts(line.c_str());
}

// What stands in this program is right.
ipxr_address at(const char *text)
{
    ipxr_address found = ipxr_address();
    ipx::read_address(text, found);
    return found;
}

ipx::Node node(const char *text)
{
    ipx::Node found = {};
    ipx::read_node(text, found);
    return found;
}

ipx::Bytes datagram(const ipx::Node &source, const ipx::Node &to, std::uint16_t socket, const std::string &text = "")
{
    const std::uint32_t network = source == NOBODY ? 0 : NETWORK;
    return ipx::write_packet(ipx::address(network, source, socket), ipx::address(network, to, socket), 4, ipx::View(text)).value;
}

std::string joined(const std::vector<std::string> &words)
{
    std::string text;
    for (const std::string &word : words)
        text += (text.empty() ? "" : ", ") + word;
    return text.empty() ? "nobody" : text;
}

std::string places(const std::vector<ipx::Place> &list)
{
    std::vector<std::string> words;
    for (const ipx::Place &place : list)
        words.push_back(ipx::place_text(place));
    return joined(words);
}

template <class Member> std::string clients(const std::vector<Member> &list)
{
    std::vector<ipx::Place> found;
    for (const Member &member : list)
        found.push_back(ipx::node_of(member.place));
    return places(found);
}

void hear(ipx::Tunnel &tunnel, const ipx::Keys &keys, const std::string &what, const ipx::Place &place, const ipx::Node &to,
          const std::string &text)
{
    tunnel.hear(keys.sender(place, 600), datagram(place, to, GAME_SOCKET, text));
    print(what + ": to " + places(tunnel.receivers()) + (tunnel.is_heard() ? ", and to the router" : ""));
}

void come(ipx::Tunnel &tunnel, const ipx::Keys &keys, const ipx::Place &place)
{
    tunnel.hear(keys.sender(place, 600), datagram(NOBODY, NOBODY, TUNNEL_SOCKET));
    const std::vector<ipxr_own> owns = tunnel.owns();
    print(ipx::place_text(place) + " registers: " + std::to_string(owns.size()) + " datagrams of the tunnel's own");
    ipx::Node cookie = {};
    for (const ipxr_own &own : owns) {
        const ipx::Header header = ipx::read_packet(own.bytes).value;
        if (ipx::node_of(header.to.node) == ipx::ALL_NODES)
            cookie = ipx::node_of(header.from.node);
    }
    tunnel.hear(keys.sender(place, 600), datagram(place, cookie, TUNNEL_SOCKET));
    print("it answers its ping: clients " + clients(tunnel.clients()));
}

bool play_tunnel(const ipx::Keys &keys)
{
    print("a tunnel for DOSBox");
    ipx::Tunnel tunnel;
    if (!tunnel.make(ipx::tunnel_setting(NETWORK, SERVER, 64, 16)))
        return false;
    come(tunnel, keys, ANNA);
    come(tunnel, keys, BEN);
    hear(tunnel, keys, "Anna calls all", ANNA, ipx::ALL_NODES, "who plays?");
    hear(tunnel, keys, "Ben answers Anna", BEN, ANNA, "I do");
    hear(tunnel, keys, "a stranger calls all", STRANGER, ipx::ALL_NODES, "");
    tunnel.send(ipx::ALL_NODES);
    print("the router sends to all: to " + places(tunnel.receivers()));
    std::vector<ipx::Place> left;
    for (int second = 0; second < 30; second++) {
        tunnel.second();
        const std::vector<ipx::Place> now = tunnel.leavers();
        left.insert(left.end(), now.begin(), now.end());
    }
    print("30 seconds without an answer: " + places(left) + " left");
    return true;
}

bool play_keyed(const ipx::Keys &keys)
{
    print("a tunnel that hands out nodes");
    ipx::Keyed tunnel;
    if (!tunnel.make(ipx::keyed_setting(NETWORK, SERVER, 64, 16, 1024, 64)))
        return false;
    tunnel.hear(keys.keyed_sender(ANNA, 600), datagram(NOBODY, NOBODY, TUNNEL_SOCKET));
    const std::vector<ipxr_own> owns = tunnel.owns();
    if (owns.empty())
        return false;
    const ipx::Node own = ipx::node_of(ipx::read_packet(owns[0].bytes).value.to.node);
    print(std::string("Anna registers: her node is ") + (own == keys.node(ANNA) ? "the one of her place" : "another"));
    const ipx::Said said = tunnel.hear(keys.keyed_sender(ANNA, 600), datagram(own, ipx::ALL_NODES, GAME_SOCKET, "who plays?")).value;
    const bool is_heard = said == ipx::Said::Speaks && tunnel.is_heard();
    print(std::string("she speaks from it: ") + (is_heard ? "the router hears it" : "nobody hears it"));
    print("clients: " + clients(tunnel.clients()) + "; waiters: " + std::to_string(tunnel.waiters().size()));
    return true;
}

void hear_at(ipx::Segment &segment, const std::string &what, std::uint8_t link, const char *source, const char *to)
{
    const bool is_heard = segment.hear(link, node(source), node(to)) == 1;
    std::vector<std::string> links;
    for (const std::uint8_t it : segment.receivers())
        links.push_back(std::to_string(it));
    print(what + ": to links [" + (links.empty() ? "" : joined(links)) + "]" + (is_heard ? ", and to the router" : ""));
}

bool play_segment()
{
    print("one network over two links");
    ipx::Segment segment;
    if (!segment.make(ipx::segment_setting(NETWORK, SERVER, 2, 100)))
        return false;
    segment.change(0, ipx::link_cable(50));
    segment.change(1, ipx::link_cable(50));
    hear_at(segment, "a PC at link 0 calls all", 0, "0200000000AA", "FFFFFFFFFFFF");
    hear_at(segment, "a PC at link 1 writes to it", 1, "0200000000BB", "0200000000AA");
    hear_at(segment, "the first writes to the router", 0, "0200000000AA", "020000000001");
    std::vector<std::string> stations;
    for (const ipxr_station &it : segment.stations())
        stations.push_back(ipx::node_text(ipx::node_of(it.node)) + " at link " + std::to_string(it.link));
    print("stations: " + joined(stations));
    return true;
}

void ask(ipx::Router &router)
{
    const ipx::Bytes asks = ipx::write_query(at("10.0200000000AA.4003"), at("10.FFFFFFFFFFFF.452"), true, 4).value;
    print("a client asks for the nearest: " + router.packet(0, asks).words());
    for (const ipx::Packet &sent : router.take_sent())
        for (const ipxr_service_entry &it : ipx::services_of(ipx::read_packet(sent.bytes).value.data))
            print("to " + ipx::node_text(sent.node) + " on port " + std::to_string(sent.port) + ": " + ipx::name_of(it) + " at " +
                  ipx::address_text(ipx::address(it.network, ipx::node_of(it.node), it.socket)) + ", " + std::to_string(it.hops) + " hops");
    const ipx::Bytes all =
        ipx::write_rip(at("10.0200000000AA.453"), at("10.FFFFFFFFFFFF.453"), IPXR_RIP_REQUEST, {ipx::all_routes()}).value;
    router.packet(0, all);
    std::vector<std::string> routes;
    for (const ipx::Packet &sent : router.take_sent())
        for (const ipxr_route_entry &it : ipx::routes_of(ipx::read_packet(sent.bytes).value.data))
            routes.push_back(ipx::network_text(it.network) + " " + std::to_string(it.hops) + " " + std::to_string(it.ticks));
    print("routes: " + joined(routes));
}

bool play_service(ipx::Bytes &told)
{
    print("a service that is found");
    ipxr_port wide = ipx::port(0x20, SERVER);
    wide.longest = 1500;
    ipx::Router router;
    if (!router.make({ipx::port(NETWORK, SERVER), wide}))
        return false;
    router.start();
    router.clear();
    const ipxr_service_entry files = ipx::service_entry("FILES", 4, at("20.0200000000FE.451"), 1);
    told = ipx::write_sap(at("20.0200000000FE.452"), at("20.FFFFFFFFFFFF.452"), false, {files}).value;
    print("a server advertises FILES: " + router.packet(1, told).words());
    router.clear();
    for (const ipxr_service_record &it : router.services())
        print("the router knows " + ipx::name_of(it) + ", type " + std::to_string(it.type) + ", at " +
              ipx::address_text(ipx::address(it.network, ipx::node_of(it.node), it.socket)));
    ask(router);
    return true;
}

void play_frames(const ipx::Bytes &told)
{
    print("a packet, and frames");
    const ipx::Bytes hello =
        ipx::write_packet(at("10.0200000000AA.4003"), at("20.0200000000FE.451"), 17, ipx::View(std::string("hello"))).value;
    const ipx::Header one = ipx::read_packet(hello).value;
    print(ipx::address_text(one.from) + " to " + ipx::address_text(one.to) + ", type " + std::to_string(one.type) + ": " +
          std::string(one.data.at, one.data.at + one.data.length));
    const std::pair<ipx::FrameKind, const char *> KINDS[] = {{ipx::FrameKind::Ethernet2, "ETHERNET2"}, {ipx::FrameKind::Raw, "RAW"},
                                                             {ipx::FrameKind::Llc, "LLC"}, {ipx::FrameKind::Snap, "SNAP"}};
    for (const auto &kind : KINDS) {
        const ipx::Bytes bytes = ipx::write_frame(kind.first, node("02:00:00:00:00:fe"), node("0200000000aa"), told);
        const ipx::Frame frame = ipx::read_frame(bytes);
        const bool is_same = frame.kind == kind.first && frame.packet.length >= told.size() &&
                             std::equal(told.begin(), told.end(), frame.packet.at);
        print(kind.second + (": " + std::to_string(bytes.size())) + " bytes, " + (is_same ? "read as it was written" : "read otherwise"));
    }
}

void play_edge()
{
    ipx::Bytes bytes =
        ipx::write_packet(at("0.0200000000AA.4003"), at("0.FFFFFFFFFFFF.4545"), 4, ipx::View(std::string("hello"))).value;
    ipx::edge_enter(ipx::port(NETWORK, SERVER), bytes);
    print("a station that doesn't know its network: " + ipx::address_text(ipx::read_packet(bytes).value.from));
    ipx::Bytes copy = bytes;
    ipx::extend(NETWORK, {0x4545}, 0x20, copy);
    print("its broadcast on network 20: " + ipx::address_text(ipx::read_packet(copy).value.to));
    const bool is_copied = ipx::extend(NETWORK, {0x4546}, 0x20, bytes);
    print(std::string("to a socket that isn't named: ") + (is_copied ? "a copy" : "no copy"));
}

bool play_shares()
{
    print("a share that holds");
    ipx::Fair reader;
    const ipxr_fair_setting setting = {2000000, 12000000, 100000000, 150000000};
    ipx::Limits limits;
    if (!reader.make(setting) || !limits.make(ipx::LimitsOf::Tunnel, 800, 50))
        return false;
    unsigned quiet = 0, flood = 0, passed = 0;
    std::uint64_t clock = 0;
    for (unsigned step = 0; step < 1000; step++) {
        reader.look(clock, step * std::uint64_t(1000000));
        if (step % 20 == 0)
            quiet += reader.says(0, 1000000);
        flood += reader.says(1, 1000000) + unsigned(reader.says(1, 1000000)) + reader.says(1, 1000000);
    }
    print("in a second: of the quiet one " + std::to_string(quiet) + " of 50, of the flood " + std::to_string(flood) + " of 3000");
    ipx::ClientUse client;
    ipx::Meter pings;
    for (int k = 0; k < 100; k++)
        passed += limits.says(ipx::PacketKind::Ping, client, pings) == ipx::Verdict::Passes;
    print("pings at once: " + std::to_string(passed) + " of 100");
    return true;
}

} // namespace

int main()
{
    const ipx::Keys keys(std::array<std::uint8_t, 16>{{7}}); // a server's own are random
    ipx::Bytes told;
    if (!play_tunnel(keys) || !play_keyed(keys) || !play_segment() || !play_service(told))
        return 1;
    play_frames(told);
    play_edge();
    if (!play_shares())
        return 1;
    std::printf("sockets %x and %x\n", unsigned(IPXR_RIP_SOCKET), unsigned(IPXR_SAP_SOCKET));
    return 0;
}

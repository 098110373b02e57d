// Tunnels and a segment.
#include "play.hpp"

static ipx::Node of_place(std::uint8_t first, ipx::Place place)
{
    place[0] = first;
    place[1] = 0;
    return place;
}

static ipx::Bytes datagram(Play &play, const ipx::Node &own, const ipx::Place &of)
{
    const ipxr_address to[] = {play.address(), ipx::address(0x10, of_place(6, of), 2), ipx::address(0x10, {}, 2)};
    const ipxr_address &one = to[play.chance(3)];
    const ipxr_address from = play.chance(5) == 0 ? play.address() : ipx::address(0x10, own, 2);
    const std::uint8_t control = play.byte(3);
    ipx::Bytes bytes = ipx::write_packet(from, one, 4, play.data(), control).value;
    bytes[4] = 0;
    return bytes;
}

static std::string owns(const std::vector<ipxr_own> &found)
{
    return each(found, [](const ipxr_own &it) { return list(node_of(it.place), Hex{it.bytes}); });
}

static std::string members(const std::vector<ipxr_keyed_member> &found)
{
    return each(found, [](const ipxr_keyed_member &it) { return list(node_of(it.place), node_of(it.node), it.seconds_left); });
}

static std::string places(const std::vector<ipx::Place> &found) { return each(found); }

static std::string places(const std::vector<ipxr_keyed_member> &found)
{
    return each(found, [](const ipxr_keyed_member &it) { return shown(node_of(it.place)); });
}

static std::size_t pings(ipx::Tunnel &) { return 0; }
static std::size_t pings(ipx::Keyed &tunnel) { return tunnel.pings(); }

template <class Tunnel, class Sender> static void tunnel_turn(Play &play, Tunnel &tunnel, const Sender &sender, const ipx::Bytes &bytes)
{
    const std::uint32_t what = play.chance(8);
    if (what == 0) {
        tunnel.second();
        play.add(owns(tunnel.owns()), pings(tunnel), places(tunnel.leavers()));
    } else if (what == 1) {
        tunnel.send(play.node());
        play.add(places(tunnel.receivers()));
    } else {
        const ipx::Said said = tunnel.hear(sender, bytes).value;
        play.add(int(said), owns(tunnel.owns()), places(tunnel.receivers()), Hex{{bytes.data(), tunnel.carried()}}, tunnel.is_heard());
    }
}

static void plain_turn(Play &play, ipx::Tunnel &tunnel)
{
    const ipx::Place place = play.place();
    const ipx::Node cookie = of_place(6, place);
    const ipxr_sender sender = ipx::sender(place, cookie, cookie, play.chance(9) == 0);
    tunnel_turn(play, tunnel, sender, datagram(play, place, place));
    play.add(each(tunnel.clients(), [](const ipxr_client &it) { return list(node_of(it.place), it.seconds_left); }));
}

static void keyed_turn(Play &play, ipx::Keyed &tunnel)
{
    const ipx::Place place = play.place();
    ipxr_keyed_sender sender = ipx::keyed_sender(place, of_place(2, place), of_place(6, place), of_place(6, place));
    sender.is_trusted = play.chance(9) == 0;
    sender.may_register = play.chance(4) > 0;
    tunnel_turn(play, tunnel, sender, datagram(play, of_place(2, place), place));
    std::vector<ipxr_keyed_member> all = tunnel.clients();
    const std::vector<ipxr_keyed_member> waiters = tunnel.waiters();
    all.insert(all.end(), waiters.begin(), waiters.end());
    play.add(members(all));
}

static void extend_turn(Play &play)
{
    const std::uint32_t here = play.network();
    const std::uint16_t one = play.socket(), other = play.socket();
    const std::uint32_t there = play.network();
    ipx::Bytes bytes = play.packet();
    const bool is_copied = ipx::extend(here, {one, other}, there, bytes);
    play.add(either(is_copied, Hex{bytes}));
}

static ipx::Answer change(Play &play, ipx::Segment &segment, std::uint8_t link)
{
    const std::uint8_t kind = play.byte(4);
    return segment.change(link, {kind, std::uint16_t(5 + play.chance(9))});
}

static ipx::Answer hear(Play &play, ipx::Segment &segment, std::uint8_t link)
{
    const ipx::Node source = play.node();
    return segment.hear(link, source, play.node());
}

static void segment_turn(Play &play, ipx::Segment &segment)
{
    const std::uint32_t what = play.chance(8);
    const std::uint8_t number = play.byte(5);
    const ipx::Answer done = what == 0   ? change(play, segment, number)
                             : what == 1 ? segment.come(number, play.node())
                             : what == 2 ? segment.leave(number, play.node())
                             : what == 3 ? segment.second()
                             : what == 4 ? segment.send(play.node())
                                         : hear(play, segment, number);
    if (!done)
        play.add(done.number, None());
    else
        play.add(what < 4 ? "-" : each(segment.receivers()), either(what > 4, done == 1));
    const std::string stations =
        each(segment.stations(), [](const ipxr_station &it) { return list(node_of(it.node), it.link, bool(it.is_sure), it.seconds_left); });
    play.add(stations, segment.next_node(play.address()).value);
    const ipx::Result<ipxr_link> link = segment.link(number);
    play.add(link ? shown(link.value.kind) : shown(link.answer.number), link ? shown(link.value.share) : shown(link.answer.number));
}

void play_tunnels(Play &play)
{
    ipx::Tunnel plain;
    ipx::Keyed handing;
    ipx::Segment segment;
    plain.make(ipx::tunnel_setting(0x10, SERVER, 6, 3));
    handing.make(ipx::keyed_setting(0x10, SERVER, 6, 3, 4, 2));
    segment.make(ipx::segment_setting(0x10, SERVER, 4, 20));
    play.part("tunnel", 400, [&](unsigned) { plain_turn(play, plain); });
    play.part("keyed", 400, [&](unsigned) { keyed_turn(play, handing); });
    play.part("extend", 200, [&](unsigned) { extend_turn(play); });
    play.part("segment", 500, [&](unsigned) { segment_turn(play, segment); });
}

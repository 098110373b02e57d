// A configuration and a plan.
#include "play.hpp"

static const std::vector<std::string> LINES = {
    "network 10 1 1424 dosbox 2130", "clients 40 8", "trust 192.168.0.0/16 10.0.0.0/8", "extend 4545 451", "rate 800 50 300",
    "line 512", "nodes by-address", "network 20 1 1500 # of several", "permit type 4", "deny service 4 FILES* in",
    "route 30 2 3 via 020000000005", "service 4 FILES 30.020000000005.451 2 via 020000000005", "adopt no", "link tap ipx0 raw",
    "link qemu-udp 127.0.0.1:5000 127.0.0.1:5001 raw", "internal 99 node 02:00:00:00:00:07", "link interface eth0 auto",
    "network 30 1 1500 tap ipx1 snap", "what", "", "permit type 4", "link tap ipx0 raw"};
static const std::vector<std::string> OTHERS = {"0", "FFFF", "raw", "65536", "x", "192.168.0.0/16", "020000000005"};

static std::vector<std::string> split(const std::string &line)
{
    std::vector<std::string> words;
    for (std::size_t begin = 0, end; begin <= line.size(); begin = end + 1) {
        end = std::min(line.find(' ', begin), line.size());
        words.push_back(line.substr(begin, end - begin));
    }
    return words;
}

// Which letters of a line come before a word of it.
static std::string start_of(const std::string &line, std::size_t number)
{
    const ipx::View it(line);
    std::size_t start = 0;
    const bool is_one = ipxr_settings_word(it.at, it.length, number, &start) > 0;
    return is_one && ipx::line_word(line, number) == line.substr(start, ipx::line_word(line, number).size()) ? shown(start) : "-";
}

static void words_of(Play &play, const std::string &word)
{
    std::uint32_t number = 0;
    ipx::Node node = {};
    ipxr_setting_range range = ipxr_setting_range();
    const bool is_number = ipx::read_network(word, number), is_node = ipx::read_node(word, node), is_range = ipx::read_range(word, range);
    play.add(ipx::line_socket(word), either(is_number, number), either(is_node, node), either(is_range, Hex{range.first}));
}

static void settings_turn(Play &play)
{
    std::vector<std::string> words = split(LINES[play.chance(std::uint32_t(LINES.size()))]);
    if (play.flips()) {
        const std::size_t at = play.chance(std::uint32_t(words.size()));
        words[at] = OTHERS[play.chance(std::uint32_t(OTHERS.size()))];
    }
    const std::string asking = joined(words);
    const bool has_cards = play.chance(3) > 0, is_below_tunnel = play.flips();
    ipxr_setting it = ipxr_setting();
    const std::uint8_t expected = ipx::read_line(asking, has_cards, is_below_tunnel, IPXR_MOST_CLIENTS, it);
    play.add(expected, it.read, it.kind, it.bits, it.network.number, node_of(it.network.node), it.link.carrier, name_of(it.link.name),
             it.link.local.port, list(it.numbers[0], it.numbers[1], it.numbers[2]), it.rule.what, name_of(it.rule.name),
             node_of(it.route.via), name_of(it.service.service.name), it.service.line);
    words_of(play, words[play.chance(std::uint32_t(words.size()))]);
    play.add(start_of(asking, play.chance(4)), ipx::link_text(it.link));
    ipxr_setting_host plain = ipxr_setting_host(), six = ipxr_setting_host();
    plain.four[0] = 10;
    plain.four[3] = play.byte(9);
    plain.port = play.small(65536);
    six.six[0] = 0xFD00;
    six.six[7] = play.small(9);
    six.port = 213;
    six.is_six = true;
    play.add(ipx::host_text(plain), ipx::host_text(six));
}

template <class List> static std::vector<typename std::remove_reference<decltype(List::list[0])>::type> listed(const List &it)
{
    return {it.list, it.list + it.count};
}

static void configured(Play &play, const ipxr_configured &it)
{
    const std::string trusted =
        each(listed(it.trusted), [](const ipxr_setting_range &one) { return list(Hex{one.first}, one.bits); });
    play.add(it.line, it.network_line, it.port, it.number, it.cost, it.longest, bool(it.is_of_several), it.carrier.number,
             name_of(it.carrier.name), it.clients, it.of_address, it.rate, it.share, it.household, it.kilobits, each(listed(it.sockets)),
             trusted, bool(it.nodes_by_address), bool(it.adopts));
    play.add(each(listed(it.rules), [](const ipxr_rule &one) { return list(one.permits, one.what, one.type, name_of(one.name)); }),
             each(listed(it.static_routes),
                  [](const ipxr_static_route &one) { return list(one.line, one.route.network, node_of(one.via)); }),
             each(listed(it.static_services), [](const ipxr_static_service &one) { return list(one.line, name_of(one.service.name)); }));
}

static void configuration_turn(Play &play)
{
    ipx::Configuration all;
    for (std::size_t k = 0; k < LINES.size(); k++) {
        const ipx::LineRead read = all.line(LINES[k], k + 1, true);
        const ipxr_line_wrong &it = read.wrong;
        play.add(read.expected, read.said.read, it.unlinked, it.word, it.line, list(it.numbers[0], it.numbers[1]), bool(it.is_below_tunnel));
    }
    ipxr_internal own = ipxr_internal();
    const bool has_own = all.internal(own);
    play.add(all.unlinked(), either(has_own, own.line), either(has_own, own.number), either(has_own, node_of(own.node)));
    for (const ipxr_configured &it : all.links())
        configured(play, it);
}

static std::vector<ipxr_plan_link> planned(Play &play)
{
    std::vector<ipxr_plan_link> links(play.chance(5));
    for (std::size_t k = 0; k < links.size(); k++) {
        ipxr_plan_link &it = links[k];
        it.network = std::uint32_t(0x10 * (1 + k));
        it.carrier = play.byte(4);
        it.frames = play.byte(3);
        it.udp_port = std::uint16_t(2130 + play.chance(2));
        it.number = play.chance(3);
        it.port = play.chance(2);
        it.clients = play.chance(2);
        it.sockets = play.chance(2);
        ipx::put_node(it.node, play.node());
        it.has_node = play.chance(3) > 0;
        it.is_of_several = play.chance(3) == 0;
        it.is_first = play.flips();
    }
    return links;
}

static std::string one(std::size_t number) { return either(number != IPXR_NO_ONE, number); }

static void plan_turn(Play &play)
{
    const std::vector<ipxr_plan_link> old = planned(play), links = planned(play);
    const ipx::Plan it = ipx::plan(old, links).value;
    play.add(it.router_stays, each(it.origins, [](const ipxr_plan_origin &from) {
                 return list(one(from.was), from.cable, from.tunnel, bool(from.is_kept), bool(from.is_as_before),
                             bool(from.has_other_clients), bool(from.has_other_sockets));
             }));
    play.add(each(it.fates, [](const ipxr_plan_fate &fate) { return list(one(fate.becomes), bool(fate.is_closed), bool(fate.ends_tunnel)); }));
}

void play_lines(Play &play)
{
    play.part("settings", 400, [&](unsigned) { settings_turn(play); });
    play.part("configuration", 1, [&](unsigned) { configuration_turn(play); });
    play.part("plan", 400, [&](unsigned) { plan_turn(play); });
}

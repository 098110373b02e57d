"""Plays made-up events to whatever the package has, and prints for each part a sum of all that came of them. made_up.mjs plays the same."""
import sys

import ipxr
from ipxr import raw, settings
from ipxr.values import packed

SHOWN = sys.argv[1:] == ["all"]
WHOLE = 0xFFFFFFFF
state, total = 1, 0


def chance(below):
    global state
    state ^= state << 13 & WHOLE
    state ^= state >> 17
    state ^= state << 5 & WHOLE
    return state % below


def pick(items):
    return items[chance(len(items))]


def text(it):
    """The same text in each language for what a call returns."""
    if it is None:
        return "-"
    if isinstance(it, bool):
        return "1" if it else "0"
    if isinstance(it, (list, tuple)) and not isinstance(it, ipxr.Address):
        return f"[{' '.join(map(text, it))}]"
    return it.hex() if isinstance(it, bytes) else str(int(it)) if isinstance(it, int) else str(it)


def add(*items):
    global total
    line = " ".join(map(text, items))
    if SHOWN:
        print(line)
    for letter in f"{line}\n".encode("latin-1"):
        total = (total ^ letter) * 16777619 & WHOLE


def part(name, turns, play):
    global state, total
    state, total = 1, 2166136261
    for turn in range(turns):
        play(turn)
    print(f"{name}: {turns} turns, {total:08x}")


def node():
    return "FFFFFFFFFFFF" if chance(6) == 0 else f"02000000000{1 + chance(9):x}"


def network():
    return 0 if chance(9) == 0 else 0x10 * (1 + chance(4))


def socket():
    return pick([0x451, 0x452, 0x453, 0x4545, 2])


def address():
    return network(), node(), socket()


def place():
    return f"10.0.{chance(3)}.{chance(4)}:{2000 + chance(3)}"


def data():
    return bytes(chance(256) for _ in range(chance(60)))


def route():
    return ipxr.RouteEntry(0x10 * (1 + chance(30)), chance(18), chance(40))


def service():
    return ipxr.ServiceEntry(f"S{chance(20)}", address(), 1 + chance(5), chance(18))


def several(most, make):
    return [make() for _ in range(1 + chance(most))]


def packet():
    source, to, kind = address(), address(), chance(5)
    if kind == 0:
        return ipxr.write_rip(source, to, 1 + chance(2), several(5, route))
    if kind == 1:
        nearest = chance(2) == 1
        return ipxr.write_sap(source, to, several(3, service), nearest=nearest)
    if kind == 2:
        nearest = chance(2) == 1
        return ipxr.write_query(source, to, chance(6), nearest=nearest)
    control = chance(4)
    return ipxr.write_packet(source, to, 4 if kind == 3 else 20, data() if kind == 3 else bytes(32), control=control)


def tried(call):
    try:
        return call()
    except ipxr.IpxrError as why:
        return why.number


PORTS = [ipxr.Port(it, "020000000001") for it in (0x10, 0x20, 0x30)]

# ---- A router, tunnels and a segment ----

router = ipxr.Router(PORTS)
router.start()


def told(port, of):
    """What a neighbour on a port's network tells."""
    ends = [(0x10 * (1 + port), it, of) for it in ("02000000000A", "FFFFFFFFFFFF")]
    return ipxr.write_rip(*ends, 2, several(5, route)) if of == 0x453 else ipxr.write_sap(*ends, several(3, service))


def router_turn(_):
    what, port = chance(12), chance(4)
    calls = [router.second, lambda: router.port_down(port), lambda: router.port_up(port), lambda: router.packet(port, told(port, 0x453)),
             lambda: router.packet(port, told(port, 0x452)), lambda: router.port_up(port)]
    it = tried(calls[what] if what < len(calls) else lambda: router.packet(port, packet()))
    if isinstance(it, int):
        add(it)
    else:
        add(it.outcome, [[one.port, one.node, one.data] for one in it.sent])


def tables(_):
    for it in router.routes():
        add(it.network, it.hops, it.ticks, it.node, it.port, it.age)
    for it in router.services():
        add(it.name, it.address, it.type, it.hops, it.neighbour, it.port, it.age)


part("router", 600, router_turn)
part("tables", 1, tables)

SETTING = {"network": 0x10, "node": "020000000001", "capacity": 6, "share": 3}


def cookie(of):
    return f"0600{str(ipxr.Node(ipxr.Place(of)))[4:]}"


def keyed(of):
    return f"0200{str(ipxr.Node(ipxr.Place(of)))[4:]}"


def datagram(own, of):
    here = (0x10, own, 2)
    to = pick([address(), (0x10, cookie(of), 2), (0x10, "000000000000", 2)])
    source = address() if chance(5) == 0 else here
    control = chance(3)
    return ipxr.write_packet(source, to, 4, data(), control=control)


def owns_of(owns):
    return [[it.place, it.data] for it in owns]


def tunnel_turn(tunnel, sender, of):
    what = chance(8)
    if what == 0:
        it = tunnel.second()
        add(owns_of(it.owns), getattr(it, "pings", 0), [getattr(one, "place", one) for one in it.leavers])
    elif what == 1:
        add(tunnel.send(node()))
    else:
        it = tunnel.hear(sender, of)
        add(it.said, owns_of(it.owns), it.receivers, it.packet, it.is_heard)


plain = ipxr.Tunnel(**SETTING)


def plain_turn(_):
    of = place()
    values = {"place": of, "current": cookie(of), "previous": cookie(of), "is_trusted": chance(9) == 0}
    tunnel_turn(plain, packed(raw.ipxr_sender, "the sender", values), datagram(ipxr.Place(of), of))
    add([[it.place, it.seconds_left] for it in plain.clients()])


handing = ipxr.KeyedTunnel(**SETTING, remembered=4, remembered_share=2)


def keyed_turn(_):
    of = place()
    values = {"place": of, "node": keyed(of), "former": keyed(of), "current": cookie(of), "previous": cookie(of),
        "is_trusted": chance(9) == 0}
    values["may_register"] = chance(4) > 0
    tunnel_turn(handing, packed(raw.ipxr_keyed_sender, "the sender", values), datagram(keyed(of), of))
    add([[it.place, it.node, it.seconds_left] for it in [*handing.clients(), *handing.waiters()]])


def extend_turn(_):
    here, sockets, there = network(), [socket(), socket()], network()
    add(ipxr.extend(here, sockets, there, packet()))


part("tunnel", 400, plain_turn)
part("keyed", 400, keyed_turn)
part("extend", 200, extend_turn)
segment = ipxr.Segment(0x10, "020000000001", links=4, capacity=20)


def change(link):
    kind = chance(4)
    segment.change(link, kind, 5 + chance(9))


def segment_turn(_):
    what, link = chance(8), chance(5)
    calls = [lambda: change(link), lambda: segment.come(link, node()), lambda: segment.leave(link, node()), segment.second,
             lambda: segment.send(node())]
    it = tried(calls[what] if what < len(calls) else lambda: segment.hear(link, node(), node()))
    add(getattr(it, "receivers", it), getattr(it, "is_heard", None))
    add([[one.node, one.link, one.is_sure, one.seconds_left] for one in segment.stations()], segment.next_node(address()))
    add(tried(lambda: segment.link(link).kind), tried(lambda: segment.link(link).share))


part("segment", 500, segment_turn)

# ---- Shares and limits ----

FAIR = {"one": 2000, "own": 9000, "reserve": 30000, "room": 50000}
one, other, meter, second = ipxr.Fair(**FAIR), ipxr.Fair(**{**FAIR, "room": 40000}), ipxr.Meter(), ipxr.Meter()


def fair_turn(turn):
    one.look(turn * 900)
    other.passes(chance(2000))
    meter.passes(500)
    add(one.says(chance(5), chance(3000)), one.both_hear(other, chance(5), chance(2000), chance(2000)))
    add(meter.lets(5000, chance(1500)), meter.both_let(5000, chance(900), second, 9000, chance(100)), meter.used, second.used)
    add(one.state.total, other.state.waits)


limits = ipxr.Limits(ipxr.LimitsLink.TUNNEL, rate=100, share=20, routes=300, services=100)
household = ipxr.HouseholdLimits(150)
clients, address_use = [ipxr.ClientUse() for _ in range(3)], ipxr.AddressUse()
readers = [ipxr.Reader(limits) for _ in clients]
receives, links = household.receiver(), ipxr.told_by_links()
meters = [ipxr.Meter() for _ in range(6)]


def limits_turn(turn):
    k, kind, now, size, queue = chance(3), chance(6), turn * 3_000_000, chance(1000), chance(4)
    for it in (clients[k], address_use, readers[k]):
        it.look(now)
    calls = [lambda: limits.says(kind, clients[k], meters[0]), lambda: limits.frames_say(kind, meters[1]),
             lambda: limits.answers(2, clients[k], address_use), lambda: limits.router_answers(2, clients[k], address_use),
             lambda: limits.hands(2, kind, clients[k], address_use, meters[2], meters[3]),
             lambda: limits.frames_hand(queue, kind, meters[4], meters[5], links), lambda: limits.receives(readers[k], queue, size),
             lambda: limits.hears_router(readers[k], queue, size), lambda: limits.carries(readers[k], queue, size, 2),
             lambda: household.receives(limits, readers[k], receives, queue, size),
             lambda: household.receives_of_own(limits, readers[k], meters[5], queue, size),
             lambda: household.receives_of_router(limits, readers[k], receives, queue, size)]
    add(pick(calls)(), ipxr.kind_of(packet()))


strangers, queues = ipxr.StrangersLimits(40), ipxr.Queues()


def queues_turn(_):
    add(strangers.send(chance(9), meters[0], meters[1]), queues.take(3, 9), queues.unshare(3 + chance(7), 3, 9))
    if chance(3) == 0:
        queues.give_back(3 + chance(7))


def limit_numbers(_):
    it = limits.state
    add(it.received.packet, it.received.piece, it.received.packets.one, it.received.pieces.room, it.handed.each, it.handed.burst,
        it.handed_answers, it.pings.each, it.all_pings.burst, it.questions.each, it.advertisements.burst, it.answers.each, it.pages.burst)


part("fair", 500, fair_turn)
part("limits", 1500, limits_turn)
part("queues", 300, queues_turn)
part("limits' numbers", 1, limit_numbers)

line = ipxr.Line(512)
ends = [ipxr.LineAddress() for _ in range(4)]
said, answered = ipxr.Moment(), ipxr.Moment()


def line_turn(turn):
    k, now, size = chance(4), turn * 2_000_000, chance(1400)
    calls = [lambda: line.join(ends[k]), lambda: line.leave(ends[k]), lambda: line.second(ends[k]), lambda: line.silence(ends[k]),
             lambda: line.lets_beyond(now), lambda: line.lets_answer(now, answered), lambda: line.send_answer(now, size, answered),
             lambda: line.send_ping(now, 30), lambda: line.lets_stranger(now, answered), lambda: line.send_to_stranger(now, 60, answered)]
    number = line.speak(ends[k])
    rank = line.room(now, number, size, said, ends[(k + 1) % 4])
    if rank != ipxr.LineRank.FULL:
        line.send(now, number, size, rank, said, ends[(k + 1) % 4])
    add(number, rank, pick(calls)(), said.nanoseconds, answered.nanoseconds, line.between_pings(30))
    add(line.strangers().send(1 + chance(3), meters[2], meters[3]))


part("line", 1500, line_turn)

# ---- The edge, cables and fates ----

edge = ipxr.Edge(PORTS[0])


def rule():
    return ipxr.rule(permits=chance(2), what=1 + chance(5), way=1 + chance(2), names=chance(3), type=chance(6), socket=socket(), from_=0x10,
                     to=0x10 * chance(20), name=f"S{chance(4)}")


def edge_turn(_):
    given = packet()
    add(edge.enter(given), edge.is_held(given), edge.number(given), edge.claim(given), edge.is_needless(chance(4), given))
    add(tried(lambda: edge.filter(1 + chance(2), several(4, rule), given)), edge.write_routes("020000000009", several(5, route)))
    add(tried(lambda: edge.write_services("020000000009", several(3, service))))


kinds, loops, pace, twins, asks = ipxr.Kinds(), [ipxr.Loop(), ipxr.Loop()], ipxr.Pace(), ipxr.Twins(), ipxr.Asks()
asked = [ipxr.Asked() for _ in range(3)]


def probe_turn(turn):
    here, there = chance(3), 3 + chance(3)
    add(ipxr.probe(here, there, turn - chance(6) + 10, turn + 10, loops[0], loops[1]), loops[0].left, loops[1].second())
    ranges = [ipxr.Range("10.0.0.0", chance(33)), ipxr.Range([192, 168, 0, chance(3)])]
    add(ipxr.ranges_have(ranges, [192, 168, 0, chance(3)]))
    first = ipxr.Range(f"10.0.{chance(3)}.0", 8 + chance(20))
    add(ipxr.is_first_of_range(first), twins.hear("020000000003", chance(2), turn))


def cable_turn(turn):
    hashed, of, kind, k, now = chance(99), node(), chance(6), chance(3), 1 + turn * 40_000_000
    add(kinds.hear(hashed, of, kind, chance(2) == 1), kinds.of(hashed, of), kinds.is_used(kind), kinds.speaks(hashed, of, kind))
    if turn % 20 == 0:
        kinds.second()
    probe_turn(turn)
    pace.more_wait(chance(9), 50_000_000, now)
    add(pace.lets_go(chance(9), now), asked[k].is_due(asks, now), asks.are_due(now), asks.patience(5000, now))
    if chance(2) == 0:
        asked[k].ask(asks, now, chance(1000))
    else:
        asked[k].answer()
    add(ipxr.choose_node(is_tunnel=chance(2) == 1, is_of_several=chance(2) == 1, said=of if chance(2) else None, card=node(),
        hashed=hashed))


counts = ipxr.Counts()


def fates_turn(_):
    course = ipxr.Course.of_frame() if chance(2) else ipxr.Course.of_datagram()
    while course.next != ipxr.Next.END:
        add(course.next)
        course.answer(pick([0, 1, 2, 3, 28, 28, 600, 1600]))
    add(course.fate, course.number)
    counts.count(course)
    if chance(5) == 0:
        counts.lose(chance(30))


part("edge", 800, edge_turn)
part("cable", 800, cable_turn)
part("fates", 800, fates_turn)
part("counts", 1, lambda _: add(counts.came, [counts.lost(it) for it in ipxr.Lost], counts.dropped(ipxr.Drop.NO_ROUTE),
                                counts.dropped(ipxr.Drop.CROSSED_FULL)))

# ---- A configuration and a plan ----

LINES = ["network 10 1 1424 dosbox 2130", "clients 40 8", "trust 192.168.0.0/16 10.0.0.0/8", "extend 4545 451", "rate 800 50 300",
         "line 512", "nodes by-address", "network 20 1 1500 # of several", "permit type 4", "deny service 4 FILES* in",
         "route 30 2 3 via 020000000005", "service 4 FILES 30.020000000005.451 2 via 020000000005", "adopt no", "link tap ipx0 raw",
         "link qemu-udp 127.0.0.1:5000 127.0.0.1:5001 raw", "internal 99 node 02:00:00:00:00:07", "link interface eth0 auto",
         "network 30 1 1500 tap ipx1 snap", "what", "", "permit type 4", "link tap ipx0 raw"]


def name_of(field):
    return bytes(field).partition(b"\0")[0].decode("latin-1")


def settings_turn(_):
    words = pick(LINES).split(" ")
    if chance(2):
        at = chance(len(words))
        words[at] = pick(["0", "FFFF", "raw", "65536", "x", "192.168.0.0/16", "020000000005"])
    asking = " ".join(words)
    has_cards = chance(3) > 0
    expected, it = settings.settings_line(asking, has_cards=has_cards, is_below_tunnel=chance(2) == 1)
    add(expected or 0, it.read, it.kind, it.bits, it.network.number, bytes(it.network.node), it.link.carrier, name_of(it.link.name),
        it.link.local.port, [*it.numbers], it.rule.what, name_of(it.rule.name), bytes(it.route.via), name_of(it.service.service.name),
        it.service.line)
    word = words[chance(len(words))]
    found = settings.settings_range(word)
    add(settings.settings_socket(word) or 0, settings.settings_hexadecimal(word, 8), settings.settings_node(word),
        found and bytes(found.first))
    at = settings.settings_word(asking, chance(4))
    add(at and at[0], settings.settings_link_words(it.link))
    plain_host = settings.setting_host(four=bytes([10, 0, 0, chance(9)]), port=chance(65536))
    six = settings.setting_host(six=[0xFD00, 0, 0, 0, 0, 0, 0, chance(9)], port=213, is_six=True)
    add(settings.settings_address_words(plain_host), settings.settings_address_words(six))


configuration = ipxr.Configuration()


def configuration_link(it):
    add(it.line, it.network_line, it.port, it.number, it.cost, it.longest, it.is_of_several, it.carrier.number, name_of(it.carrier.name),
        it.clients, it.of_address, it.rate, it.share, it.household, it.kilobits, [*it.sockets.list[:it.sockets.count]],
        [[bytes(one.first), one.bits] for one in it.trusted.list[:it.trusted.count]], it.nodes_by_address, it.adopts)
    add([[one.permits, one.what, one.type, name_of(one.name)] for one in it.rules.list[:it.rules.count]],
        [[one.line, one.route.network, bytes(one.via)] for one in it.static_routes.list[:it.static_routes.count]],
        [[one.line, name_of(one.service.name)] for one in it.static_services.list[:it.static_services.count]])


def configuration_turn(_):
    for each in LINES:
        expected, told, wrong = configuration.line(each)
        add(expected or 0, told.read, wrong.unlinked, wrong.word, wrong.line, [*wrong.numbers], wrong.is_below_tunnel)
    own = configuration.internal()
    add(configuration.unlinked() or 0, own and own.line, own and own.number, own and bytes(own.node))
    for it in configuration.links():
        configuration_link(it)


def planned():
    return [ipxr.plan_link(network=0x10 * (1 + k), carrier=chance(4), frames=chance(3), udp_port=2130 + chance(2), number=chance(3),
                           port=chance(2), clients=chance(2), sockets=chance(2), node=node(), has_node=chance(3) > 0,
                           is_of_several=chance(3) == 0, is_first=chance(2) == 1) for k in range(chance(5))]


def plan_turn(_):
    old = planned()
    it = ipxr.plan(old, planned())
    add(it.stays_router, [[*one] for one in it.origins])
    add([[*one] for one in it.fates])


part("settings", 400, settings_turn)
part("configuration", 1, configuration_turn)
part("plan", 400, plan_turn)

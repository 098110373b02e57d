"""Links whose stations may use any kind of frames: each is spoken to in its own, and all in those that were heard."""
import errno
import re
import select
import signal

from cards import has_bridges, has_cards, has_taps, hears_all_frames, pair
from frames import KINDS, Packets, Station, Udp, frame, unframed
from lab import (EVERYONE, GAME, LIMIT, Client, Clock, Gateway, address, comes_next, free_ports, fresh, is_routers, packet, reaches,
                 reaches_again, tunnels, until)
from links import both_ways, connected, places_joined
from segments import NUMBER, Cable, calls, hears, tells
from spaces import ip
from status import Watched
from systems import SYSTEM, Windows
from troubles import ends_well, troubled
from trying import Counts, begin, left_out, tried, tried_inside

CABLE = 0x20
STAYS = 5  # seconds without a word in its kind, after which a station may have another
STATION_LASTS, KIND_LASTS = 300, 3600  # seconds
MADE_UP = 2000  # nodes: more than there is room for
KNOWN = 512  # stations at most
OPTIONS = 8  # of sockets, at least so many as the gateway sets at its start
SOCKET = 0x4004  # of a game whose broadcasts are extended


def node(number):
    return bytes.fromhex("0200000A") + number.to_bytes(2, "big")


class Wire(Udp):
    """A cable with stations of any kind, of which each frame is seen with its kind."""

    def __init__(self):
        super().__init__()
        self.frames = []

    def say(self, kind, source, to, data, at=None):
        """A station sends a packet in a kind of frame, to a node or to all."""
        self.send(frame(kind, at, source, packet(to, address(CABLE, source, GAME), data)))

    def until(self, data):
        """The kinds and destinations of the frames with a packet of a program's, up to some data, which is taken away."""
        found = []
        while True:
            ready, _, _ = select.select([self], [], [], LIMIT)
            assert ready, f"{data} never came"
            for bytes_ in self.receive():
                kind, inside = next((it, inside) for it in KINDS if (inside := unframed(it, bytes_)) is not None)
                if inside[30:] == data:
                    return found
                if not is_routers(inside):
                    found.append((kind, bytes_[:6], inside[30:]))


class Tried:
    """A gateway with a DOSBox on one network, and a wire of any kind on the other."""

    def __init__(self, **how):
        self.wire = Wire()
        extended = f"extend {SOCKET:X}\n"
        text = tunnels(1, extra=extended) + f"network {CABLE:X} 1 1492 qemu-udp 0 {self.wire.port} auto\n{extended}"
        self.gate = Gateway(text, **how)
        self.wire.to = self.gate.ports[CABLE]
        self.node = self.gate.nodes[CABLE]
        self.far = Client(self.gate.ports[0x10])
        self.end = node(0xEEEE)

    def __enter__(self):
        self.gate.__enter__()
        return self

    def __exit__(self, *fault):
        self.gate.__exit__(*fault)

    def says(self, kind, source):
        """A station says something to the DOSBox, who hears it."""
        data = fresh()
        self.wire.say(kind, source, self.far.at(), data, self.node)
        heard = self.far.hear()
        assert heard is not None and heard[30:] == data

    def comes(self, to):
        """The kinds in which a packet of the DOSBox comes to a node, or to all by `extend`."""
        data, last = fresh(), fresh()
        if to == EVERYONE:
            self.far.send(packet(address(0x10, EVERYONE, SOCKET), self.far.at(), data))
        else:
            self.far.say(address(CABLE, to, GAME), data)
        self.wire.say("raw", self.end, self.far.at(), last, self.node)
        assert self.far.hear()[30:] == last
        self.far.say(address(CABLE, self.end, GAME), last)
        found = self.wire.until(last)
        # (what is in more kinds of the last may come too late for this time)
        found = [it for it in found if it[2] == data]
        assert all(it[1] == to for it in found)
        return [it[0] for it in found]


def each_in_its_kind():
    """A station of each kind is answered in its own kind alone, once."""
    with Tried() as it:
        for k, kind in enumerate(KINDS):
            it.says(kind, node(k))
        for k, kind in enumerate(KINDS):
            assert it.comes(node(k)) == [kind], kind
        assert it.gate.counted(CABLE, "second kind of a station") == 0


def is_among(found, kind, data):
    """Whether one of the frames is of that kind and has the data."""
    return any((inside := unframed(kind, one)) and inside[30:] == data for one in found)


def all_in_what_was_heard():
    """A broadcast goes out in all kinds as long as none was heard, then in those that were; it counts as one packet."""
    with Tried() as it:
        data = fresh()
        it.far.send(packet(address(0x10, EVERYONE, SOCKET), it.far.at(), data))
        found = [it.wire.receive()[0] for _ in KINDS if ready(it.wire)]
        while len(found) < len(KINDS) or not all(is_among(found, kind, data) for kind in KINDS):
            found += it.wire.receive() if ready(it.wire) else never("all kinds")
        it.says("raw", node(1))
        assert it.gate.told("hears raw: qemu-udp").startswith(f"{it.gate.lines[-1].split()[0]} network {CABLE:08X} hears raw")
        assert it.comes(EVERYONE) == ["raw"]
        it.says("llc", node(2))
        before = it.gate.counted(CABLE, "out")
        assert sorted(it.comes(EVERYONE)) == ["llc", "raw"]
        assert it.gate.counted(CABLE, "out") <= before + 3, "a broadcast in two kinds is one packet"
        assert sorted(it.comes(node(3))) == ["llc", "raw"], "a station that isn't known is found"


def ready(wire):
    return bool(select.select([wire], [], [], LIMIT)[0])


def never(what):
    raise AssertionError(f"never: {what}")


def passes(clock, gate, seconds):
    """Seconds pass, of which the gateway notices each."""
    for _ in range(seconds):
        clock.let_pass(1)
        gate.report()


def a_station_changes_its_kind():
    """A station that speaks in a second kind is spoken to in the first, until it was silent there for some seconds.

    What it says to all in the second kind meanwhile is a copy, and counted."""
    clock = Clock()
    with Tried(program=SYSTEM.fast, environment=clock.environment()) as it:
        one = node(1)
        it.says("raw", one)
        it.says("llc", one)
        assert it.comes(one) == ["raw"], "it doesn't go to and fro"
        for kind in ("raw", "llc", "snap"):
            it.wire.send(frame(kind, EVERYONE, one, packet(address(CABLE, EVERYONE, SOCKET), address(CABLE, one, SOCKET), kind.encode())))
        assert it.far.hear()[30:] == b"raw"
        it.says("raw", one)
        assert it.gate.counted(CABLE, "second kind of a station") == 2
        passes(clock, it.gate, STAYS)
        it.says("llc", one)
        assert it.comes(one) == ["llc"]


def kinds_age():
    """A station that was silent for five minutes is spoken to in each kind that was heard within an hour."""
    clock = Clock()
    with Tried(program=SYSTEM.fast, environment=clock.environment()) as it:
        it.says("snap", node(1))
        assert it.comes(node(1)) == ["snap"]
        passes(clock, it.gate, STATION_LASTS)
        assert sorted(it.comes(node(1))) == ["raw", "snap"]
        passes(clock, it.gate, KIND_LASTS - STATION_LASTS)
        # (the node that asked last has said something in raw since)
        assert it.comes(node(1)) == ["raw"]


def made_up_nodes():
    """Whoever makes up nodes takes no place of a station that is known, and a new one is found all the same."""
    with Tried() as it:
        it.says("llc", node(1))
        it.says("raw", node(4))
        for k in range(MADE_UP):
            made_up = node(0x1000 + k)
            it.wire.send(frame("raw", it.node, made_up, packet(address(CABLE, it.node, GAME), address(CABLE, made_up, GAME))))
            if k % 50 == 0:
                it.says("raw", node(3))  # (so it has read what was sent)
        it.says("snap", node(2))
        assert it.comes(node(1)) == ["llc"] and it.comes(node(4)) == ["raw"] and "snap" in it.comes(node(2))
        (count,) = re.findall(rf"stations on {CABLE:08X}: (\d+)", it.gate.report())
        assert int(count) <= KNOWN, count


def two_gateways():
    """Two gateways join the networks of two places by links of any kind, and a broadcast of one comes to the other once."""
    here, there = free_ports(2)
    places_joined(f"qemu-udp {here} {there} auto", f"qemu-udp {there} {here} auto")
    here, there = free_ports(2)
    text = "network {:X} 1 1424 dosbox 127.0.0.1:0\nextend 4004\nnetwork 20 1 1490 qemu-udp {} {} auto\nextend 4004\n"
    with Gateway(text.format(0x10, here, there)) as one, Gateway(text.format(0x30, there, here)) as other:
        near, far = Client(one.ports[0x10]), Client(other.ports[0x30])
        one.until("\n  00000030 hops 1 ")
        other.until("\n  00000010 hops 1 ")
        for _ in range(3):
            bytes_ = fresh()
            # (what is propagated crosses both, as a broadcast)
            near.send(packet(address(0, EVERYONE, GAME), near.at(), bytes(32) + bytes_, kind=20))
            assert far.hear()[62:] == bytes_
            assert comes_next(near, far), "it came twice"


def on_one_network():
    """A link of any kind is one of a network's: its stations hear those of other links, each in its kind, and nothing comes back."""
    wire, other = Wire(), Udp()
    with Cable(["dosbox 127.0.0.1:0", f"qemu-udp 0 {wire.port} auto", f"qemu-udp 0 {other.port} raw"]) as gate:
        wire.to, other.to = gate.ports_of[1], gate.ports_of[2]
        own, anna = gate.nodes[NUMBER], gate.client()
        pc = Station(other, "raw", NUMBER, node(9), own)
        for k, kind in enumerate(KINDS):
            data = fresh()
            wire.send(frame(kind, EVERYONE, node(k), packet(address(NUMBER, EVERYONE, GAME), address(NUMBER, node(k), GAME), data)))
            assert hears(anna, data) and hears(pc, data)
        for one in (anna, pc):
            for k, kind in enumerate(KINDS):
                told = fresh()
                to = address(NUMBER, node(k), GAME)
                one.say(to, told) if one is anna else one.say(to, told, node=node(k))
                while (found := in_kind(wire, told)) is None:
                    pass
                assert found == kind
            called = calls(one)
            assert sorted(in_kind(wire, called) for _ in KINDS) == sorted(KINDS)
        report = gate.report()
        assert all(f"{node(k).hex().upper()} at qemu-udp 127.0.0.1:{wire.to} 127.0.0.1:{wire.port} auto, {kind}\n" in report
                   for k, kind in enumerate(KINDS)), report


def in_kind(wire, data):
    """The kind of the next frame that has no loop's probe and no router's packet in it: it is to have that data."""
    while True:
        assert ready(wire), f"{data} never came"
        (bytes_,) = wire.receive()
        kind, inside = next((it, inside) for it in KINDS if (inside := unframed(it, bytes_)) is not None)
        if int.from_bytes(inside[16:18], "big") == GAME and not is_routers(inside):
            assert inside[30:] == data, f"{inside[30:]} came instead"
            return kind


def another_machine():
    """Where a link goes down what was heard there is forgotten: the next machine is greeted in all kinds, and spoken to in its own."""
    with Gateway(tunnels(1) + f"network {CABLE:X} 1 1492 qemu-tcp listen 0 auto\n") as gate:
        far = Client(gate.ports[0x10])
        for kind in ("raw", "snap", "llc"):
            station, connection = connected(gate, CABLE, kind)
            assert reaches(station, far) and reaches(far, station)
            assert f"\n  kinds: {kind}\n" in gate.report()
            connection.close()
            gate.until("connected: 0")


def read_anew(gate, old, new):
    """Lets the gateway read its configuration anew, in which some words are others."""
    with open(gate.configuration, encoding="utf-8") as file:
        text = file.read()
    assert old in text
    with open(gate.configuration, "w", encoding="utf-8") as file:
        file.write(text.replace(old, new))
    gate.run.order(signal.SIGHUP)
    gate.told(" was read again: ")


def read_while_it_runs():
    """Where another line changes each station's kind is still known; where the link's kind does, the new one holds."""
    with Tried() as it:
        for k, kind in enumerate(KINDS):
            it.says(kind, node(k))
        read_anew(it.gate, f"extend {SOCKET:X}\n", f"extend {SOCKET:X} 4005\n")
        assert [it.comes(node(k)) for k in range(len(KINDS))] == [[kind] for kind in KINDS]
        read_anew(it.gate, " auto\n", " raw\n")
        it.wire.to = it.gate.ports[CABLE]
        it.says("raw", node(1))
        it.wire.say("llc", node(2), it.far.at(), fresh(), it.node)
        it.says("raw", node(1))
        assert it.gate.counted(CABLE, "another kind of frame") == 1
        assert it.comes(node(0)) == ["raw"] == it.comes(node(3))


def kinds_are_shown():
    """show links has the kinds in which a broadcast goes out, and show stations each station's."""
    wire = Wire()
    with Watched(tunnels(1) + f"network {CABLE:X} 1 1492 qemu-udp 0 {wire.port} auto\n") as gate:
        wire.to = gate.ports[CABLE]
        assert [it["kinds"] for it in gate.shown("links")] == [None, "ethernet2,raw,llc,snap"]
        far = Client(gate.ports[0x10])
        for k, kind in ((1, "llc"), (2, "raw")):
            wire.say(kind, node(k), far.at(), fresh(), gate.nodes[CABLE])
            assert far.hear() is not None
        assert [it["kinds"] for it in gate.shown("links")] == [None, "raw,llc"]
        shown = {it["station"]: (it["network"], it["kind"], it["link"].split()[-1]) for it in gate.shown("stations")}
        assert shown == {node(k).hex().upper(): (f"{CABLE:08X}", kind, "auto") for k, kind in ((1, "llc"), (2, "raw"))}, shown
        assert "raw,llc" in gate.asked("show", "links") and node(1).hex().upper() in gate.asked("show", "stations")
        assert "\n  kinds: raw,llc\n" in gate.report()


WRONG, MINUTE = "another kind of frame", 60


def told_as_wrong(gate, number):
    """The lines about kinds of frames that no network has on the link of one."""
    return [it for it in gate.lines if f"network {number:08X} speaks " in it]


def says_in(say, gate, number, kind, sender):
    """A station says something to a network in a kind."""
    say(frame(kind, EVERYONE, sender, packet(address(number, EVERYONE, GAME), address(number, sender, GAME), fresh())))


def others_are_told(gate, clock, number, link, own, say):
    """What comes in its own kind is heard. Each other one is told with its sender and what to write, once a minute, and all of it counted."""
    until(lambda: clock.let_pass(1) or f"network {number:08X} up" in gate.report(), "the link is up")
    says_in(say, gate, number, own, node(1))
    gate.until_counted(number, "drop OtherSocket", 1)
    assert not told_as_wrong(gate, number) and gate.counted(number, WRONG) == 0, own
    for count, kind in enumerate((it for it in KINDS if it != own), 1):
        for k in (2, 3):
            says_in(say, gate, number, kind, node(k))
        gate.until_counted(number, WRONG, 2 * count)
        lines = told_as_wrong(gate, number)
        assert len(lines) == count, (own, kind, lines)
        assert lines[-1].endswith(f"network {number:08X} speaks {own}, and node {node(2).hex().upper()} speaks {kind} there: "
                                  f"write '{link} {kind}', or auto"), lines
        clock.let_pass(MINUTE)
    report = gate.report()
    counted = {what: gate.counted(number, what, report) for what in ("in", "no IPX", "drop OtherSocket")}
    # (Linux itself says something on a TAP)
    assert counted["in"] - counted["no IPX"] == 7 and counted["drop OtherSocket"] == 1, (own, counted)


def wrong_kinds_are_told():
    """Each kind on a link of each other kind is told, with the words for the configuration, and so is counted what is lost."""
    clock = Clock()
    wires = [Udp() for _ in KINDS]
    text = "".join(f"network {CABLE + k:X} 1 1492 qemu-udp 0 {wire.port} {kind}\n" for k, (kind, wire) in enumerate(zip(KINDS, wires)))
    with Watched(text, program=SYSTEM.fast, environment=clock.environment()) as gate:
        for k, (kind, wire) in enumerate(zip(KINDS, wires)):
            wire.to = gate.ports[CABLE + k]
            link = f"qemu-udp 127.0.0.1:{wire.to} 127.0.0.1:{wire.port}"
            others_are_told(gate, clock, CABLE + k, link, kind, wire.send)
        shown = {(it["network"], it["count"]): it["number"] for it in gate.shown("counts")}
        assert all(shown[f"{CABLE + k:08X}", f"lost: {WRONG}"] == 6 for k in range(len(KINDS))), shown


# ---- In a network of the test's own ----


def wrong_kinds_on(device, far, prepare):
    """The same on a card or a TAP: its word and name, and the name of the cable's other end."""
    clock = Clock()
    for kind in KINDS:
        prepare()
        link = f"{device} {'k0' if device == 'interface' else far}"
        with Gateway(f"network {CABLE:X} 1 1490 {link} {kind}\n", program=SYSTEM.fast, environment=clock.environment()) as gate:
            others_are_told(gate, clock, CABLE, link, kind, Packets(far, kind).send)
        if device == "interface":
            ip("link", "del", "k0")


def wrong_kinds_on_a_card():
    """Each kind on a card of each other kind is told once a minute."""
    wrong_kinds_on("interface", "k1", lambda: pair("k0", "k1"))


def wrong_kinds_on_a_tap():
    """Each kind on a TAP of each other kind is told once a minute."""
    wrong_kinds_on("tap", "kinds0", lambda: None)


def several_networks_on_a_card():
    """Networks with a kind each on one card hear their own alone; what none has is told and counted once, whoever is added or removed."""
    line = "network {:X} 1 1490 interface k0 {}\n"
    text = tunnels(1) + line.format(CABLE, "raw") + line.format(CABLE + 1, "llc")
    with Gateway(text) as gate:
        pair("k0", "k1")
        gate.until(f"network {CABLE + 1:08X} up")
        wire = Packets("k1", "raw")
        for number, kind in ((CABLE, "raw"), (CABLE + 1, "llc"), (CABLE, "snap")):
            says_in(wire.send, gate, number, kind, node(1))
        gate.until_counted(CABLE, WRONG, 1)
        assert [gate.counted(number, "in") for number in (CABLE, CABLE + 1)] == [2, 1]
        (told,) = told_as_wrong(gate, CABLE)
        assert told.endswith("write 'interface k0 snap' for one more network"), told
        read_anew(gate, line.format(CABLE + 1, "llc"), line.format(CABLE + 1, "llc") + line.format(CABLE + 2, "snap"))
        for number, kind in ((CABLE + 2, "snap"), (CABLE, "raw")):
            says_in(wire.send, gate, number, kind, node(1))
        gate.until_counted(CABLE, "in", 3)
        assert gate.counted(CABLE + 2, "in") == 1 and gate.counted(CABLE, WRONG) == 1
        read_anew(gate, line.format(CABLE, "raw"), "")
        for number, kind in ((CABLE, "raw"), (CABLE + 1, "llc")):
            says_in(wire.send, gate, number, kind, node(1))
        gate.until_counted(CABLE + 1, WRONG, 1)
        assert [gate.counted(number, "in") for number in (CABLE + 1, CABLE + 2)] == [3, 1]
    ip("link", "del", "k0")


# What is on cables beside IPX: IP, ARP, IPv6, a spanning tree, Cisco's discovery, AppleTalk.
OTHERS = [b"\x08\x00", b"\x08\x06", b"\x86\xdd", b"\x00\x26\x42\x42\x03", b"\x00\x30\xaa\xaa\x03\x00\x00\x0c\x20\x00",
          b"\x00\x30\xaa\xaa\x03\x08\x00\x07\x80\x9b"]


def others_wake_nobody():
    """On a card of any kind, or of one, other protocols aren't counted; nor do they wake the gateway."""
    for kind in (*KINDS, "auto"):
        pair("k0", "k1")
        with Gateway(tunnels(1) + f"network {CABLE:X} 1 1490 interface k0 {kind}\n") as gate:
            gate.until(f"network {CABLE:08X} up")
            spoken = KINDS[0] if kind == "auto" else kind
            far, host = Client(gate.ports[0x10]), Station(Packets("k1", spoken), spoken, CABLE, node(1), gate.nodes[CABLE])
            before, slept = gate.counted(CABLE, "in"), sleeps(gate)
            for k in range(MADE_UP):
                host.wire.send((EVERYONE + node(2) + OTHERS[k % len(OTHERS)]).ljust(60 + k % 1000, b"\xff"))
            slept = sleeps(gate) - slept
            assert comes_next(host, far)
            assert gate.counted(CABLE, "in") == before + 1 and gate.counted(CABLE, "no IPX") == 0, kind
            assert slept < MADE_UP / 20, f"{kind}: it woke {slept} times"
        ip("link", "del", "k0")


def sleeps(gate):
    """How often the gateway has waited."""
    with open(f"/proc/{gate.run.process()}/status", encoding="ascii") as it:
        return int(re.search(r"(?m)^voluntary_ctxt_switches:\s+(\d+)", it.read())[1])


def tagged():
    """What has the tag of another VLAN isn't heard; a tag that only says how urgent a frame is stands in nobody's way."""
    for kind in ("ethernet2", "auto"):
        pair("k0", "k1")
        with Gateway(tunnels(1) + f"network {CABLE:X} 1 1490 interface k0 {kind}\n") as gate:
            gate.until(f"network {CABLE:08X} up")
            far, own = Client(gate.ports[0x10]), gate.nodes[CABLE]
            wire = Packets("k1", "ethernet2")
            for tag, data in ((b"\x00\x05", b"of another"), (b"\xe0\x00", b"urgent")):
                inside = packet(far.at(), address(CABLE, node(1), GAME), data)
                wire.send((own + node(1) + b"\x81\x00" + tag + b"\x81\x37" + inside).ljust(60, b"\0"))
            assert far.hear()[30:] == b"urgent", kind
        ip("link", "del", "k0")



def old_pcs_on_a_card():
    """PCs of all four kinds on one cable reach a DOSBox, each in its kind, and are reached; what isn't IPX there isn't heard."""
    pair("k0", "k1")
    extended = f"extend {GAME:X}\n"
    with Gateway(tunnels(1, extra=extended) + f"network {CABLE:X} 1 1490 interface k0 auto\n{extended}") as gate:
        gate.until(f"network {CABLE:08X} up")
        own, far = gate.nodes[CABLE], Client(gate.ports[0x10])
        hosts = [Station(Packets("k1", kind), kind, CABLE, node(k), own) for k, kind in enumerate(KINDS)]
        for host in hosts:
            assert reaches(host, far), f"from {host.kind}"
        for host in hosts:
            both_ways(gate, host, far)
        data = fresh()
        far.say(address(0x10, EVERYONE, GAME), data)
        for host in hosts:
            while (found := host.hear()) is not None and found[30:] != data:
                pass
            assert found is not None
            assert reaches(far, host) and reaches(host, far)
        before = gate.counted(CABLE, "in")
        sender = hosts[0].wire
        inside = packet(far.at(), hosts[0].at(), b"tagged")
        for field in (b"\x81\x00\x00\x05\x81\x37", b"\x08\x00", b"\x86\xdd", b"\x00\x30\x42\x42\x03"):
            sender.send((own + hosts[0].node + field + inside).ljust(60, b"\0"))
        Packets("k0", "raw").send(frame("raw", own, node(9), packet(far.at(), address(CABLE, node(9), GAME), b"of this machine")))
        assert comes_next(hosts[0], far)
        assert gate.counted(CABLE, "in") == before + 1, "what has a tag, isn't IPX, or is sent by this machine isn't heard"
        assert gate.counted(CABLE, "no IPX") == gate.counted(CABLE, "own frame") == 0
    ip("link", "del", "k0")


def two_on_a_cable():
    """Two gateways on one cable, both of any kind, join the networks of two places."""
    pair("k0", "k1")
    places_joined("interface k0 auto", "interface k1 auto")
    ip("link", "del", "k0")


def cards_and_taps():
    """A card and a TAP of any kind are one network with a DOSBox: stations of all kinds find each other, but on one link."""
    pair("k0", "k1")
    with Cable(["dosbox 127.0.0.1:0", "tap kinds0 auto", "interface k0 auto"]) as gate:
        gate.until("on interface k0 auto")
        own, anna = gate.nodes[NUMBER], gate.client()
        by_tap = [Station(Packets("kinds0", kind), kind, NUMBER, node(k), own) for k, kind in enumerate(KINDS)]
        by_card = [Station(Packets("k1", kind), kind, NUMBER, node(8 + k), own) for k, kind in enumerate(KINDS)]
        for one in (*by_tap, *by_card):
            assert hears(anna, calls(one))
        for one in by_tap:
            assert all(hears(other, tells(one, other)) and hears(one, tells(other, one)) for other in (anna, *by_card)), one.kind
        data = calls(by_tap[0])
        assert all(hears(other, data) for other in by_card)
        last = calls(anna)
        assert all(hears(other, last) for other in (*by_tap, *by_card))
    ip("link", "del", "k0")


def a_bridge_behind_its_back():
    """Two links that a bridge joins are found whatever their kinds of frames: the later is shut."""
    ip("link", "add", "brk", "type", "bridge")
    ip("link", "set", "brk", "up")
    for kinds in (("auto", "llc"), ("snap", "auto"), ("auto", "auto"), ("raw", "ethernet2"), ("llc", "snap")):
        with Cable([f"tap kinda {kinds[0]}", f"tap kindb {kinds[1]}"]) as gate:
            for name in ("kinda", "kindb"):
                ip("link", "set", name, "master", "brk")
            down = gate.told(f"network {NUMBER:08X} is down: tap kindb {kinds[1]}")
            assert down.endswith(f": it is one cable with tap kinda {kinds[0]}"), down
    ip("link", "del", "brk")


def two_kinds_on_one_card():
    """Two links of a network with a kind each, on one card or on two that a bridge joins: the later is shut, and who is there is heard."""
    pair("k0", "k1")
    pair("k2", "k3")
    ip("link", "add", "brk", "type", "bridge")
    for name in ("k1", "k3"):
        ip("link", "set", name, "master", "brk")
    pair("k4", "k5")
    ip("link", "set", "k4", "master", "brk")
    ip("link", "set", "brk", "up")
    for later in ("interface k0 llc", "interface k2 llc"):
        with Cable(["interface k0 raw", later, "dosbox 127.0.0.1:0"]) as gate:
            down = gate.told(f"network {NUMBER:08X} is down: {later}")
            assert down.endswith(": it is one cable with interface k0 raw"), down
            anna = Client(gate.ports_of[2], gateway=gate.nodes[NUMBER])
            pc = Station(Packets("k5", "raw"), "raw", NUMBER, node(1), gate.nodes[NUMBER])
            assert hears(anna, calls(pc)) and hears(pc, tells(anna, pc))
    for name in ("k0", "k2", "k4", "brk"):
        ip("link", "del", name)


def each_option_fails():
    """Each option of a socket fails once, also the filter of a card's: the gateway doesn't start and says why, or hears all kinds."""
    pair("k0", "k1")
    ended = 0
    for which in range(1, OPTIONS + 1):
        gate = troubled(tunnels(1) + f"network {CABLE:X} 1 1490 interface k0 auto\n", "setsockopt", errno.ENOMEM, which)
        ended += gate is None
        if gate is not None:
            gate.until(f"network {CABLE:08X} up")
            far = Client(gate.ports[0x10])
            for k, kind in enumerate(KINDS):
                assert reaches_again(Station(Packets("k1", kind), kind, CABLE, node(k), gate.nodes[CABLE]), far), (which, kind)
            ends_well(gate, which)
    assert ended > 0, "none was the filter"
    ip("link", "del", "k0")


TESTS = (each_in_its_kind, all_in_what_was_heard, made_up_nodes, another_machine, two_gateways, on_one_network)
OF_LINUX = (kinds_are_shown, wrong_kinds_are_told, read_while_it_runs, a_station_changes_its_kind, kinds_age)


def inside():
    """In the network of its own."""
    ip("link", "set", "lo", "up")
    counts, cards = Counts(), has_cards()
    if cards:
        counts += tried(old_pcs_on_a_card, two_on_a_cable, each_option_fails, wrong_kinds_on_a_card, several_networks_on_a_card,
                        others_wake_nobody, tagged)
    else:
        left_out("cards of any kind", "none can be made")
    if not cards or not has_taps():
        left_out("TAPs of any kind", "none can be made")
        return counts
    counts += tried(*((cards_and_taps,) if hears_all_frames() else ()), wrong_kinds_on_a_tap)
    if has_bridges():
        return counts + tried(a_bridge_behind_its_back, two_kinds_on_one_card)
    left_out("a bridge behind the gateway's back", "none can be made")
    return counts


def main():
    if SYSTEM is Windows:
        return tried(*TESTS)
    return tried(*TESTS, *OF_LINUX) + tried_inside(__file__, "cards and TAPs of any kind")


if __name__ == "__main__":
    begin(main, inside)

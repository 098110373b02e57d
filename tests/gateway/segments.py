"""Networks of several links: DOSBox, emulators' cards, TAPs and Ethernet as one cable."""
import re
import select
import signal
import struct
import time

from cards import has_bridges, has_cards, has_taps, hears_all_frames, pair
from frames import Packets, Station, Udp, frame
from lab import (AGAIN, EVERYONE, GAME, LIMIT, RIP, Client, Clock, Gateway, address, free_ports, fresh, is_routers, packet, reaches,
                 reaches_again, rip_response, until)
from spaces import ip
from status import Watched, advertise
from systems import SYSTEM, Windows
from trying import Counts, begin, left_out, tried, tried_inside

NUMBER = 0x10
PC, CARD = bytes.fromhex("020000000AA1"), bytes.fromhex("020000000BB2")
EVEN = "10.77.0.1"
LOOP_SOCKET = bytes.fromhex("8A5E")  # of the packets by which the gateway finds links that are one cable
OLD = 5  # seconds, after which such a packet isn't under way any more
FEW, MANY = 4, 30  # tries of half a second: pings come after five seconds, and who answers none leaves after 30
TWENTY = 20  # packets at once: fewer than a client's limit
LASTS = 300  # seconds for which a station is known
SIX_HUNDRED = 600  # clients: more than there are stations
STATIONS = 512  # of a link with frames that are known
LOOKED_AT = 12  # seconds, after which a link that was shut would be open again, if nothing came back on it
ROUTES_OF_DOSBOX, SERVICES_OF_DOSBOX = 64, 32  # that are learned where a network's line says nothing of it
FOR_ALL = struct.pack(">HIHH", 1, 0xFFFFFFFF, 16, 1)  # a request for all routes
ASKED, QUESTIONS = 40, 6  # that a client asks at once, and that go on of them: four, and one each second
MANY_WAIT, STANDS_STILL = 200, 1  # packets that wait, more than a turn hears; and seconds of a gateway
ADVERTISED = 60  # seconds from one advertisement of a router's to the next


class Cable(Gateway):
    """A gateway whose first network has several links, with the port of each."""

    def __init__(self, links, extra="", **how):
        self.ports_of = {}
        super().__init__(f"network {NUMBER:X} 1 1424\n" + "".join(f"link {it}\n" for it in links) + extra, **how)
        while len(self.ports_of) < len(links):
            self.line()

    def learn(self, line):
        super().learn(line)
        found = re.search(rf"^network {NUMBER:08X} on (\S+) (?:listen )?(?:[\d.]+:(\d+))?", line)
        if found:
            self.ports_of[len(self.ports_of)] = int(found[2] or 0)

    def client(self):
        return Client(self.ports_of[0], gateway=self.nodes[NUMBER])


def at_once(station, other_node, data):
    """A packet straight to a node of the same network."""
    station.say(address(NUMBER, other_node, GAME), data, node=other_node)


def hears(one, data, patience=LIMIT):
    return one.hear(lambda it: not is_routers(it) and it[30:] == data, patience) is not None


def calls(one):
    """One says something to all of the network. Returns what."""
    data = fresh()
    to = address(NUMBER, EVERYONE, GAME)
    if isinstance(one, Client):
        one.say(to, data)
    else:
        one.say(to, data, node=EVERYONE)
    return data


def tells(one, other):
    """One says something to the node of another, on the network itself. Returns what."""
    data = fresh()
    if isinstance(one, Client):
        one.say(address(NUMBER, other.node, GAME), data)
    else:
        at_once(one, other.node, data)
    return data


class Party:
    """Two DOSBoxes and two emulators' cards, of two kinds of frames, on one network."""

    def __init__(self, extra="", below="", **how):
        self.wires = [Udp(), Udp()]
        cards = (f"qemu-udp 0 {wire.port} {kind}" for wire, kind in zip(self.wires, ("raw", "ethernet2")))
        links = [f"dosbox 127.0.0.1:0\n{below}".rstrip("\n"), *cards]
        self.gate = Cable(links, extra, **how)
        for k, wire in enumerate(self.wires):
            wire.to = self.gate.ports_of[k + 1]
        node = self.gate.nodes[NUMBER]
        self.anna, self.ben = self.gate.client(), self.gate.client()
        self.pc, self.card = Station(self.wires[0], "raw", NUMBER, PC, node), Station(self.wires[1], "ethernet2", NUMBER, CARD, node)
        self.all = (self.anna, self.ben, self.pc, self.card)

    def __enter__(self):
        self.gate.__enter__()
        return self

    def __exit__(self, *fault):
        self.gate.__exit__(*fault)

    def next_is(self, one, data):
        """Whether what one hears next is that: nothing else came before."""
        heard = one.hear()
        return heard is not None and heard[30:] == data


def a_call_finds_all():
    """A broadcast of a DOSBox or a PC comes to all other stations once, by whichever link, and never back."""
    with Party() as it:
        for one in it.all:
            first, second = calls(one), calls(one)
            for other in it.all:
                if other is not one:
                    assert it.next_is(other, first) and it.next_is(other, second), (it.all.index(one), it.all.index(other))
        # (what each hears next is what it is told now: its own calls didn't come back)
        for one, other in ((it.ben, it.anna), (it.anna, it.ben), (it.card, it.pc), (it.pc, it.card)):
            assert it.next_is(other, tells(one, other))


def an_answer_goes_to_one():
    """What is for a node goes to the link where that was heard, and to no other; for one that wasn't heard it goes to all."""
    with Party() as it:
        assert hears(it.card, tells(it.pc, it.card)), "a node that wasn't heard is found"
        calls(it.card)
        for one in (it.anna, it.ben, it.pc):
            one.hear()
        for one in it.all:
            for other in it.all:
                if other is not one:
                    assert it.next_is(other, tells(one, other)), (it.all.index(one), it.all.index(other))
        report = it.gate.report()
        assert "source of another" not in report and "no such client" not in report, report


def a_node_moves():
    """A node that is heard on another link is found there from its next packet on."""
    with Party() as it:
        calls(it.pc)
        moved = Station(it.wires[1], "ethernet2", NUMBER, PC, it.pc.gateway)
        assert hears(it.pc, tells(it.anna, it.pc)) and hears(it.anna, calls(moved))
        data = tells(it.anna, it.pc)
        assert hears(moved, data)
        last = calls(it.anna)
        assert hears(it.pc, last) and not hears(it.pc, data, 0), "it isn't where it was"


def two_with_one_node():
    """Two PCs with one node, on two links, are told once; a PC that is plugged in elsewhere and back is not."""
    with Party() as it:
        twin = Station(it.wires[1], "ethernet2", NUMBER, PC, it.pc.gateway)
        for one in (it.pc, twin, it.pc):
            assert hears(it.anna, calls(one))
            time.sleep(1)
        assert not any("by turns" in line for line in told_so_far(it.gate)), it.gate.lines
        for one in (twin, it.pc) * 3:
            assert hears(it.anna, calls(one))
            time.sleep(1)
        told = [line for line in told_so_far(it.gate) if "by turns" in line]
        assert len(told) == 1 and f"network {NUMBER:08X} hears node {PC.hex().upper()} by turns on qemu-udp " in told[0], told


def told_so_far(gate):
    """All lines of the gateway up to now."""
    gate.report()
    return gate.lines


def nobody_takes_a_clients_name():
    """Who uses a client's node on another link is heard by nobody, and the client is found still."""
    with Party() as it:
        forged = packet(address(NUMBER, EVERYONE, GAME), it.anna.at(), b"forged")
        it.wires[0].send(frame("raw", EVERYONE, it.anna.node, forged))
        data = calls(it.pc)
        for one in (it.anna, it.ben, it.card):
            assert it.next_is(one, data)
        assert it.next_is(it.anna, tells(it.card, it.anna))
        assert lost(it.gate, "source of another") == 1


def by_one_node_at_a_time():
    """Who is a client by its address says nothing by the node of its place: neither clients nor stations of other links hear that."""
    with Party("network 20 1 1424 dosbox 127.0.0.1:0\n", below="nodes by-address") as it:
        (port,) = free_ports(1)
        elsewhere = Client(it.gate.ports[0x20], own_port=port)
        elsewhere.close()
        old = Client(it.gate.ports_of[0], own_port=port, registers=False, gateway=it.gate.nodes[NUMBER])
        old.network = NUMBER
        assert reaches_again(old, old)
        by_place, old.node = old.node, elsewhere.node
        for to in EVERYONE, PC, it.anna.node:
            old.say(address(NUMBER, to, GAME), b"by another node")
        it.gate.until_counted(NUMBER, "no room for a client", 3)
        old.node = by_place
        data = calls(old)
        assert all(it.next_is(one, data) for one in it.all)


def lost(gate, what):
    """What all links together lost for a reason."""
    return sum(int(number) for number in re.findall(rf"lost: {what}: (\d+)", gate.report()))


def clients_are_sure_after_a_reload():
    """Who is a client when the configuration is read again is proved to be one still: no frame draws its packets away."""
    with Party() as it:
        for _ in range(3):
            it.gate.run.order(signal.SIGHUP)
            it.gate.told("nothing changed")
            forged = packet(address(NUMBER, EVERYONE, GAME), it.pc.at(), b"forged")
            it.wires[0].send(frame("raw", EVERYONE, it.anna.node, forged))
            assert it.next_is(it.anna, tells(it.card, it.anna)), "what is for a client goes to who sent a frame in its name"
            data = calls(it.card)
            for one in (it.anna, it.ben, it.pc):
                assert it.next_is(one, data), "somebody heard what was said in a client's name"


def nodes_until(wire, data):
    """The nodes for which frames come to a wire, up to one that says something."""
    nodes = []
    while True:
        for bytes_ in wire.receive():
            nodes.append(bytes_[:6])
            if bytes_.rstrip(bytes(1)).endswith(data):
                return nodes


def each_client_is_sure():
    """As many clients as a network may have are known at their link: none is looked for on others."""
    with Party("", below=f"clients {SIX_HUNDRED}\nrate none\nstrangers none\n") as it:
        others = [it.gate.client() for _ in range(SIX_HUNDRED - 2)]
        assert it.gate.counted(NUMBER, "clients") == SIX_HUNDRED
        told = it.anna, others[STATIONS], others[-1]
        assert all(hears(one, tells(it.pc, one)) for one in told)
        found = nodes_until(it.card.wire, calls(it.pc))
        assert not any(one.node in found for one in told), "what was for a client went to another link"
        report = it.gate.report()
        assert f"stations on {NUMBER:08X}: {SIX_HUNDRED + 1}" in report, "each client, and the PC"


def a_client_at_two_links():
    """Whoever is a client at two links of a network is reached by the one where they registered, spoke, or answered a ping last: by one node."""
    wire = Udp()
    with Cable(["dosbox 127.0.0.1:0", "dosbox 127.0.0.1:0", f"qemu-udp 0 {wire.port} raw"]) as gate:
        wire.to = gate.ports_of[2]
        pc, one = Station(wire, "raw", NUMBER, PC, gate.nodes[NUMBER]), gate.client()

        def goes_to(link, registers=True):
            one.udp.connect(("127.0.0.1", gate.ports_of[link]))
            if registers:
                one.ask()
                one.say(one.at(), b"I am here")

        def is_reached(tries=FEW):
            return any(hears(one, tells(pc, one), AGAIN) and hears(pc, tells(one, pc), AGAIN) for _ in range(tries))

        # (at first its answer to a ping may be under way, later it answers none)
        for link, one.answers in ((1, True), (0, True), (1, False), (0, False)):
            goes_to(link)
            assert is_reached(), f"at link {link}, where it registered last"
        one.answers = True
        goes_to(1, registers=False)
        assert is_reached(MANY), "where it answered last"


def shares_of_several_links():
    """Of a network that has several links the router learns as many routes, and as many services, as its line says, or as DOSBox' have."""
    for said, routes, services in (("", ROUTES_OF_DOSBOX, SERVICES_OF_DOSBOX), (" 3 2", 3, 2)):
        text = f"network {NUMBER:X} 1 1424{said}\nlink qemu-tcp listen 127.0.0.1:0 raw\nlink dosbox 127.0.0.1:0\nrate none\n"
        with Watched(text) as gate:
            link = gate.shown("links")[1]
            a = Client(int(link["link"].rpartition(":")[2]), gateway=bytes.fromhex(link["node"]))
            many = [(0x1000 + k, 1, 2) for k in range(2 * ROUTES_OF_DOSBOX)]
            advertise(a, [b"%d" % k for k in range(2 * ROUTES_OF_DOSBOX)], many)
            held = len(gate.shown("routes")), len(gate.shown("services"))
            assert held == (routes, services), held


def who_is_a_router_there():
    """What a client tells as a router comes to this router and to other clients; to stations of other links only where it is trusted."""
    for below, comes in ("", False), ("trust 127.0.0.1/32\n", True):
        with Party(below=below) as it:
            calls(it.anna)
            it.anna.send(rip_response(NUMBER, it.anna.node, [(0x77, 1, 2)]))
            said = calls(it.anna)
            is_annas = lambda bytes_: bytes_[22:28] == it.anna.node
            told = lambda bytes_: is_annas(bytes_) and is_routers(bytes_)
            assert it.ben.hear(told) is not None
            it.gate.until("\n  00000077 hops 1 ")
            for one in it.pc, it.card:
                heard = []
                while not heard or heard[-1][30:] != said:
                    heard.append(one.hear(is_annas))
                assert any(is_routers(bytes_) for bytes_ in heard) == comes, (below, len(heard))


def who_asks_there():
    """What a client asks routers goes to other links as often as to this router, and what it says goes beside it."""
    with Party() as it:
        calls(it.anna)
        hears(it.card, calls(it.anna))
        for _ in range(ASKED):
            it.anna.send(packet(address(0, EVERYONE, RIP), address(NUMBER, it.anna.node, RIP), FOR_ALL, kind=1))
        last = calls(it.anna)
        heard = []
        while not heard or heard[-1][30:] != last:
            heard.append(it.card.hear(lambda bytes_: bytes_[22:28] == it.anna.node))
        came = sum(is_routers(bytes_) for bytes_ in heard)
        assert 0 < came <= QUESTIONS, f"{came} questions"
        assert it.gate.counted(NUMBER, "lost: too many questions") == ASKED - came


def the_router_is_a_station():
    """Stations of each link reach other networks by the gateway, and are reached from there; its advertisements come to each link."""
    with Party("network 20 1 1424 dosbox 127.0.0.1:0\n") as it:
        far = Client(it.gate.ports[0x20])
        for one in it.all:
            assert reaches(one, far) and reaches(far, one)
        for one in it.all:
            assert one.hear(is_routers, LIMIT + ADVERTISED) is not None
        assert it.next_is(far, tells_far(it.anna, far))


def tells_far(one, far):
    data = fresh()
    one.say(far.at(), data)
    return data


def stations_are_shown():
    """show stations has each station with its link, also in columns, and the report has them; each count of a network is one line."""
    wire = Udp()
    text = f"network {NUMBER:X} 1 1424\nlink dosbox 127.0.0.1:0\nlink qemu-udp 0 {wire.port} raw\n"
    with Watched(text) as gate:
        port = int(re.search(r"dosbox 127.0.0.1:(\d+)", gate.lines[0])[1])
        while len(gate.lines) < 2:
            gate.line()
        wire.to = int(re.search(r"qemu-udp 127.0.0.1:(\d+)", gate.lines[1])[1])
        anna = Client(port, gateway=gate.nodes[NUMBER])
        pc = Station(wire, "raw", NUMBER, PC, gate.nodes[NUMBER])
        assert hears(anna, calls(pc))
        shown = gate.shown("stations")
        assert [(it["station"], it["heard"] is None, it["link"].split()[0]) for it in shown] == [
            (anna.node.hex().upper(), True, "dosbox"), (PC.hex().upper(), False, "qemu-udp")], shown
        assert shown[1]["heard"] <= LIMIT and all(it["network"] == f"{NUMBER:08X}" for it in shown)
        assert f"{PC.hex().upper()}" in gate.asked("show", "stations")
        assert f"{PC.hex().upper()} at qemu-udp" in gate.report()
        samples = [it.split(" ")[0] for it in gate.asked("show", "counts", "--prometheus").splitlines() if not it.startswith("#")]
        assert len(samples) == len(set(samples)), "two links have one line of counts"


def is_anything_in(wire):
    return bool(select.select([wire], [], [], 0)[0])


def loop_packet(wire):
    """The next packet by which the gateway looks for links that are one cable."""
    while LOOP_SOCKET not in (found := wire.receive()[0]):
        pass
    return found


def links_change_beneath_a_packet():
    """A packet that comes back on another link shuts it; an old one doesn't, nor one of before a reload that changed the links."""
    wires = [Udp(), Udp()]
    with Cable([f"qemu-udp 0 {it.port} raw" for it in wires]) as gate:
        for k, wire in enumerate(wires):
            wire.to = gate.ports_of[k]
        old = loop_packet(wires[0])
        time.sleep(OLD)
        wires[1].send(old)
        gate.until("own frame: 1")
        while (late := loop_packet(wires[0])) and is_anything_in(wires[0]):
            pass
        with open(gate.configuration, "a", encoding="utf-8") as file:
            file.write(f"link qemu-udp 0 {Udp().port} raw\n")
        gate.run.order(signal.SIGHUP)
        gate.told(" was read again: networks and links: 1 added")
        wires[1].send(late)
        gate.until("own frame: 2")
        assert not any("it is one cable with" in line for line in gate.lines), gate.lines

        def is_shut():
            wires[1].send(loop_packet(wires[0]))
            return gate.report() and any("it is one cable with" in line for line in gate.lines)

        until(is_shut, "a packet of now shuts the link")


def stations_age():
    """A station that isn't heard for five minutes is forgotten: what is for it goes to all links again, and finds it."""
    clock = Clock()
    with Party(program=SYSTEM.fast, environment=clock.environment()) as it:
        calls(it.pc)
        assert hears(it.card, calls(it.pc)) and hears(it.pc, tells(it.card, it.pc))
        until(lambda: f"{PC.hex().upper()} at" in it.gate.report(), "a station")
        for _ in range(LASTS + 10):
            clock.let_pass(1)
            it.gate.report()
        assert f"{PC.hex().upper()} at" not in it.gate.report()
        data = tells(it.card, it.pc)
        assert hears(it.pc, data)


def links_change_while_it_runs():
    """A link is added and another taken away while it runs: the clients of a third stay, and nothing between them is lost."""
    with Party() as it:
        kept = open(it.gate.configuration, encoding="utf-8").read()
        more = Udp()
        with open(it.gate.configuration, "w", encoding="utf-8") as file:
            lines = kept.splitlines()
            file.write("\n".join([*lines[:2], *lines[3:], f"link qemu-udp 0 {more.port} llc"]) + "\n")
        said = [tells(it.anna, it.ben) for _ in range(TWENTY)]
        it.gate.run.order(signal.SIGHUP)
        said += [tells(it.anna, it.ben) for _ in range(TWENTY)]
        assert all(it.next_is(it.ben, data) for data in said)
        up = it.gate.told(f"network {NUMBER:08X} is up: qemu-udp")
        more.to = int(re.search(r"qemu-udp 127.0.0.1:(\d+)", up)[1])
        assert any("is removed: qemu-udp" in line for line in it.gate.lines)
        assert not any(" leaves " in line for line in it.gate.lines)
        third = Station(more, "llc", NUMBER, PC, it.pc.gateway)
        for one, other in ((it.anna, it.ben), (it.anna, it.card), (third, it.anna), (it.card, third)):
            assert hears(other, tells(one, other))


# ---- In a network of the test's own ----


def cards_and_taps():
    """A DOSBox, a TAP and an Ethernet card are one cable: a card hears what is for a DOSBox, and frames of stations keep their nodes."""
    pair("s0", "s1")
    with Cable(["dosbox 127.0.0.1:0", "tap seg0 raw", "interface s0 llc"]) as gate:
        node = gate.nodes[NUMBER]
        gate.until("on interface s0 llc")
        anna = gate.client()
        pc, old = Station(Packets("seg0", "raw"), "raw", NUMBER, PC, node), Station(Packets("s1", "llc"), "llc", NUMBER, CARD, node)
        for one, other in ((anna, pc), (anna, old), (pc, old), (old, pc), (pc, anna), (old, anna)):
            assert hears(other, tells(one, other))
        for one in (anna, pc, old):
            data = calls(one)
            assert all(hears(other, data) for other in (anna, pc, old) if other is not one)
        at_once(pc, CARD, b"whose")
        while not (found := old.wire.receive()[0]).rstrip(bytes(1)).endswith(b"whose"):
            pass
        assert found[6:12] == PC and found[:6] == CARD
    ip("link", "del", "s0")


def a_bridge_behind_its_back():
    """Two links that a bridge joins behind the gateway's back are one cable: the later is shut, which is told, until they are apart."""
    # (a bridge lets nothing pass from a node whose first byte is odd, as that of a client at 127.0.0.1)
    ip("addr", "replace", f"{EVEN}/32", "dev", "lo")
    ip("link", "add", "brs", "type", "bridge")
    ip("link", "set", "brs", "up")
    pair("s0", "s1")
    ip("link", "set", "s0", "master", "brs")
    with Cable(["tap sega raw", "tap segb raw", f"dosbox {EVEN}:0"]) as gate:
        anna = Client(gate.ports_of[2], EVEN, to=EVEN, gateway=gate.nodes[NUMBER])
        for name in ("sega", "segb"):
            ip("link", "set", name, "master", "brs")
        down = gate.told(f"network {NUMBER:08X} is down: tap segb raw")
        assert down.endswith(": it is one cable with tap sega raw"), down
        pc = Station(Packets("s1", "raw"), "raw", NUMBER, PC, gate.nodes[NUMBER])
        assert hears(anna, calls(pc)) and hears(pc, tells(anna, pc))
        # (each call comes once: none goes round)
        first, second = calls(pc), calls(pc)
        assert [anna.hear()[30:] for _ in range(2)] == [first, second]
        # (that it is shut isn't told again where its line has another place in the file)
        with open(gate.configuration, "r+", encoding="utf-8") as file:
            text = "network 20 1 1424 dosbox 127.0.0.1:0\n" + file.read()
            file.seek(0)
            file.write(text)
        gate.run.order(signal.SIGHUP)
        gate.told(" was read again: networks and links: 1 added, 0 removed, 0 with another link, ")
        assert sum("is down: tap segb raw" in it for it in told_so_far(gate)) == 1, gate.lines
        assert hears(anna, calls(pc)) and hears(pc, tells(anna, pc))
        ip("link", "set", "segb", "nomaster")
        assert gate.told(f"network {NUMBER:08X} is up: tap segb raw")
    ip("link", "del", "s0")
    ip("link", "del", "brs")


def in_a_bridge_with(upper, first):
    """A card in a bridge, as a link of the network, beside another through which the bridge is reached; which of the two the file names first."""
    ip("link", "add", "brs", "type", "bridge")
    ip("link", "set", "brs", "up")
    for near, far in (("s0", "s1"), ("t0", "t1")):
        pair(near, far)
        ip("link", "set", near, "master", "brs")
    card = "interface s0 raw"
    links = [card, upper] if first == card else [upper, card]
    with Cable([*links, f"dosbox {EVEN}:0"]) as gate:
        anna = Client(gate.ports_of[2], EVEN, to=EVEN, gateway=gate.nodes[NUMBER])
        if upper.startswith("tap"):
            ip("link", "set", "sega", "master", "brs")
        down = gate.told(f"network {NUMBER:08X} is down: {card}")
        assert down.endswith(f": it is one cable with {upper}"), down
        pcs = [Station(Packets(far, "raw"), "raw", NUMBER, node, gate.nodes[NUMBER], b"\0") for far, node in (("s1", PC), ("t1", CARD))]
        for one, other in (pcs, reversed(pcs)):
            data = calls(one)
            assert hears(anna, data) and hears(other, data) and hears(one, tells(anna, one))
            assert hears(other, tells(one, other))
        time.sleep(LOOKED_AT if first == card else 0)
        assert sum(" is down: " in it for it in told_so_far(gate)) == 1, gate.lines
        ip("link", "set", "s0", "nomaster")
        assert gate.told(f"network {NUMBER:08X} is up: {card}")
    for name in ("s0", "t0", "brs"):
        ip("link", "del", name)


def a_card_beneath_a_link():
    """A card in a bridge that the gateway reaches by another link, too, is shut, whichever the file names first, until it is taken out."""
    ip("addr", "replace", f"{EVEN}/32", "dev", "lo")
    for upper in ("tap sega raw", "interface brs raw"):
        for first in ("interface s0 raw", upper):
            in_a_bridge_with(upper, first)


def a_card_by_two_names():
    """A card that the file names twice, by its name and by another that it has, is one cable: the later link is shut, and it alone."""
    ip("addr", "replace", f"{EVEN}/32", "dev", "lo")
    pair("s0", "s1")
    ip("link", "property", "add", "dev", "s0", "altname", "sother")
    with Cable(["interface s0 raw", "interface sother raw", f"dosbox {EVEN}:0"]) as gate:
        anna = Client(gate.ports_of[2], EVEN, to=EVEN, gateway=gate.nodes[NUMBER])
        down = gate.told(f"network {NUMBER:08X} is down: interface sother raw")
        assert down.endswith(": it is one cable with interface s0 raw"), down
        pc = Station(Packets("s1", "raw"), "raw", NUMBER, PC, gate.nodes[NUMBER], b"\0")
        for _ in range(3):
            assert hears(anna, calls(pc)) and hears(pc, tells(anna, pc))
            time.sleep(LOOKED_AT / 3)
        assert sum(" is down: " in it for it in told_so_far(gate)) == 1, gate.lines
    ip("link", "del", "s0")


def four_in_one_bridge():
    """Of four links that a bridge joins while a station speaks to all, all but the first are shut, though packets that go round fill them."""
    names = [f"seg{it}" for it in "abcd"]
    ip("link", "add", "brs", "type", "bridge")
    ip("link", "set", "brs", "up")
    pair("s0", "s1")
    ip("link", "set", "s0", "master", "brs")
    with Cable([f"tap {it} raw" for it in names]) as gate:
        pc = Station(Packets("s1", "raw"), "raw", NUMBER, PC, gate.nodes[NUMBER])
        for name in names:
            ip("link", "set", name, "master", "brs")
        ends = time.monotonic() + 1
        while time.monotonic() < ends:
            calls(pc)
            time.sleep(0.02)
        for name in names[1:]:
            assert gate.told(f"network {NUMBER:08X} is down: tap {name} raw").endswith(": it is one cable with tap sega raw")
    ip("link", "del", "s0")
    ip("link", "del", "brs")


def stood_still():
    """A gateway that stood still for a moment hears all that waits for one node, though a second passes and a turn hears less than waits."""
    wires = [Udp(), Udp()]
    with Cable([f"qemu-udp 0 127.0.0.1:{it.port} raw" for it in wires]) as gate:
        for k, it in enumerate(wires):
            it.to = gate.ports_of[k]
        one, other = (Station(wire, "raw", NUMBER, node, gate.nodes[NUMBER]) for wire, node in zip(wires, (PC, CARD)))
        assert hears(other, calls(one)) and hears(one, calls(other))
        with gate.run.halted():
            said = [tells(one, other) for _ in range(MANY_WAIT)]
            time.sleep(STANDS_STILL)
        for data in said:
            assert hears(other, data), f"of {len(said)} packets number {said.index(data)} isn't heard"


TESTS = (a_call_finds_all, an_answer_goes_to_one, a_node_moves, two_with_one_node, nobody_takes_a_clients_name, by_one_node_at_a_time,
         the_router_is_a_station,
         each_client_is_sure, a_client_at_two_links)
OF_LINUX = (stations_are_shown, links_change_while_it_runs, clients_are_sure_after_a_reload, links_change_beneath_a_packet,
            shares_of_several_links, who_is_a_router_there, who_asks_there, stations_age, stood_still)


def inside():
    """In the network of its own."""
    ip("link", "set", "lo", "up")
    if not has_taps() or not has_cards():
        left_out("TAPs and cards as one cable", "none can be made")
        return Counts()
    counts = tried(*((cards_and_taps,) if hears_all_frames() else ()), a_card_by_two_names)
    if has_bridges():
        return counts + tried(a_bridge_behind_its_back, a_card_beneath_a_link, four_in_one_bridge)
    left_out("a bridge behind the gateway's back", "none can be made")
    return counts


def main():
    if SYSTEM is Windows:
        return tried(*TESTS)
    return tried(*TESTS, *OF_LINUX) + tried_inside(__file__, "TAPs and cards as one cable")


if __name__ == "__main__":
    begin(main, inside)

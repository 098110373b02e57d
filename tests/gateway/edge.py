"""What a packet passes between its network and the router: numbers that stations don't know are filled in, and what routers carried is held.

A capture of a real cable that nobody numbered is played too, where IPX_CAPTURE names the file: ipx.pcap of tcpdump's tests, which Debian's
source package of tcpdump has.
"""
import os
import struct
import time

from cards import has_taps
from changed import Changed
from frames import FRONTS, Packets, Station, Udp
from lab import (AGAIN, EVERYONE, GAME, RIP, SAP, Client, Clock, Gateway, address, comes_next, free_ports, packet, reaches, rip_response, sap_response,
                 tunnels, until)
from spaces import ip
from systems import SYSTEM
from trying import Counts, begin, has_linux, left_out, tried, tried_inside

STATION = bytes.fromhex("020000000AA1")
SERVER, OFFERED = 0x4010, 0x451  # a server's type, and the socket of its service
QUERY = struct.pack(">HH", 1, 0xFFFF)  # for all services
NETWORK, CABLE, LINE = 0x10, 0x20, 0x30
CAPTURE = "IPX_CAPTURE"  # names the capture of a real cable
MUCH = 600  # packets at once, more than a link may say to its router
HEAD, RECORD = 24, 16  # bytes in front of a capture, and of each record
BEHIND = 14 + len(FRONTS["llc"])  # where the packet stands in its frames


def on_a_cable(wire, more=""):
    """A network of DOSBox, and a cable whose stations don't know their network."""
    return tunnels(1) + more + f"network {CABLE:X} 1 1490 qemu-udp 0 {wire.port} raw\n"


def unnumbered(gate, wire, network=CABLE):
    """A station that says 0 for its network."""
    wire.to = gate.ports[network]
    return Station(wire, "raw", 0, STATION, gate.nodes[network])


def named(station):
    """What it is called elsewhere."""
    return address(CABLE, station.node, GAME)


def is_answered():
    """What a station says that doesn't know its network can be answered: a packet to one, and to all by type 20."""
    wire = Udp()
    with Gateway(on_a_cable(wire)) as gate:
        station, far = unnumbered(gate, wire), Client(gate.ports[NETWORK])
        station.say(far.at(), b"one")
        assert far.hear() == packet(far.at(), named(station), b"one", control=1)
        far.say(named(station), b"answer")
        assert station.hear()[30:] == b"answer"
        station.say(address(0, EVERYONE, GAME), bytes(32) + b"all", node=EVERYONE, kind=20)
        heard = far.hear()
        assert heard[18:30] == named(station) and heard[30:34] == struct.pack(">I", CABLE) and heard[62:] == b"all", heard
        far.say(heard[18:30], b"found")
        assert station.hear()[30:] == b"found"


def services_of(far, gate):
    """The services that the router tells, by their name: where they are, and how far."""
    far.say(address(0, gate.nodes[NETWORK], SAP), QUERY)
    answer = far.hear(is_told_of_services)
    entries = [answer[start:start + 64] for start in range(32, len(answer), 64)]
    return {it[2:50].rstrip(b"\0").decode(): (it[50:62], int.from_bytes(it[62:], "big")) for it in entries}


def is_found():
    """Its services are reached from elsewhere; one that a router told further has no number that anybody knows."""
    wire = Udp()
    with Gateway(on_a_cable(wire)) as gate:
        station, far = unnumbered(gate, wire), Client(gate.ports[NETWORK])
        services = [(SERVER, "NEAR", 0, STATION, OFFERED, 1), (SERVER, "FAR", 0, STATION, OFFERED, 2), (SERVER, "NAMED", CABLE, STATION, OFFERED, 1)]
        station.wire.send(framed(sap_response(0, STATION, services)))
        until(lambda: "services: 3\n" in gate.report(), "three services")
        found = services_of(far, gate)
        assert found == {"NEAR": (address(CABLE, STATION, OFFERED), 2), "FAR": (address(0, STATION, OFFERED), 3),
                         "NAMED": (address(CABLE, STATION, OFFERED), 2)}, found
        far.say(found["NEAR"][0], b"reached")
        assert station.hear()[30:] == b"reached"


def framed(bytes_):
    """To all on the cable."""
    return EVERYONE + STATION + struct.pack(">H", len(bytes_)) + bytes_.ljust(46, b"\0")


def routes_of_a_neighbour():
    """Routes are learned of a neighbour, also of one that says 0 for its network; what a router carried there is held, and counted."""
    wire = Udp()
    with Gateway(on_a_cable(wire)) as gate:
        wire.to = gate.ports[CABLE]
        wire.send(framed(rip_response(0, STATION, [(0x51, 1, 2)])))
        wire.send(framed(rip_response(CABLE, STATION, [(0x52, 1, 2)])))
        until(lambda: "routes: 2\n" in gate.report(), "two routes more")
        for source in (0, CABLE, LINE):
            told = struct.pack(">HIHH", 2, 0x53, 1, 2)
            wire.send(framed(packet(address(CABLE, EVERYONE, RIP), address(source, STATION, RIP), told, kind=1, control=1)))
        gate.until_counted(CABLE, "from afar", 3)
        assert "routes: 2\n" in gate.report() and "\n  00000053 " not in gate.report()


def neighbours_are_heard_beside():
    """What routers carried there, and what passes to routers of another network, uses up none of what neighbours may say."""
    wire = Udp()
    with Gateway(on_a_cable(wire)) as gate:
        station = unnumbered(gate, wire)
        told = struct.pack(">HIHH", 2, 0x53, 1, 2)
        for _ in range(MUCH):
            wire.send(framed(packet(address(CABLE, EVERYONE, RIP), address(LINE, STATION, RIP), told, kind=1, control=1)))
        gate.until_counted(CABLE, "from afar", MUCH)
        for _ in range(MUCH):
            station.say(address(NETWORK, bytes(5) + b"\7", RIP), told, kind=1)
            station.say(address(0, EVERYONE, RIP), bytes(32) + told, node=EVERYONE, kind=20)
        gate.until_counted(CABLE, "in", 3 * MUCH)
        wire.send(framed(rip_response(CABLE, STATION, [(0x51, 1, 2)])))
        until(lambda: "\n  00000051 hops 1 " in gate.report(), "a neighbour's route")
        assert gate.counted(CABLE, "too many advertisements") == 0


def nobody_passes_for_a_neighbour():
    """A station on one gateway's cable tells routes to the line between that gateway and another, in the name of a node of the line: the other
    gateway doesn't learn them."""
    wire = Udp()
    here, there = free_ports(2)
    line = "network {:X} 1 1490 qemu-udp {} {} raw\n"
    with Gateway(on_a_cable(wire, line.format(LINE, here, there))) as one, \
            Gateway(line.format(LINE, there, here) + "network 40 1 1424 dosbox 127.0.0.1:0\n") as other:
        other.until(f"\n  {CABLE:08X} hops 1 ")
        station, far, own = unnumbered(one, wire), Client(other.ports[0x40]), Client(one.ports[NETWORK])
        for source in (0, CABLE, LINE):
            told = struct.pack(">HIHH", 2, 0x53, 1, 2)
            station.network = source
            station.say(address(LINE, EVERYONE, RIP), told, kind=1)
        station.network = CABLE
        assert reaches(station, far) and reaches(own, far), "what isn't for routers gets there"
        assert other.counted(LINE, "from afar") == 3
        assert "\n  00000053 " not in other.report() and "\n  00000053 " not in one.report()


def as_it_came():
    """Who is on its own network hears a client's packet as it said it, and the router with its number."""
    with Gateway(tunnels(2)) as gate:
        one, beside, far = Client(gate.ports[0x10]), Client(gate.ports[0x10]), Client(gate.ports[0x20])
        one.send(packet(address(0, EVERYONE, GAME), address(0, one.node, GAME), bytes(32) + b"all", kind=20))
        assert beside.hear() == packet(address(0, EVERYONE, GAME), address(0, one.node, GAME), bytes(32) + b"all", kind=20)
        heard = far.hear()
        assert heard[18:30] == address(0x10, one.node, GAME) and heard[62:] == b"all", heard
        assert comes_next(one, beside)


def is_told_of_services(bytes_):
    """Whether the router answers a query."""
    return bytes_[28:30] == struct.pack(">H", SAP) and bytes_[16:18] == struct.pack(">H", GAME)


def names_nearest(bytes_):
    """Whether the router answers a query for the nearest server."""
    return is_told_of_services(bytes_) and bytes_[30:32] == struct.pack(">H", 4)


def nearest_for(asker, gateway):
    """The name and hops of the server that the router names as the nearest; None where it names none before it answers for all."""
    asker.say(address(0, gateway, SAP), struct.pack(">HH", 3, SERVER), kind=0)
    asker.say(address(0, gateway, SAP), struct.pack(">HH", 1, SERVER), kind=0)
    found, heard = None, asker.hear(is_told_of_services)
    while heard[30:32] == struct.pack(">H", 4):
        found, heard = (heard[34:82].rstrip(b"\0").decode(), int.from_bytes(heard[94:96], "big")), asker.hear(is_told_of_services)
    return found


def nearest_server():
    """Who asks for the nearest server is told none by the router where one on his own cable is as near; elsewhere that one is named."""
    wire = Udp()
    with Gateway(on_a_cable(wire)) as gate:
        station, far = unnumbered(gate, wire), Client(gate.ports[NETWORK])
        station.network = CABLE
        far.send(sap_response(NETWORK, far.node, [(SERVER, "FAR", 0x99, STATION, OFFERED, 3)]))
        until(lambda: "services: 1\n" in gate.report(), "one service")
        assert nearest_for(station, gate.nodes[CABLE]) == ("FAR", 4)
        for hops in 2, 16:
            wire.send(framed(sap_response(CABLE, STATION, [(SERVER, "BESIDE", 0x98, STATION, OFFERED, hops)])))
            until(lambda of=hops: f"services: {2 if of < 16 else 1}\n" in gate.report(), "a service by another router, and none")
            assert nearest_for(station, gate.nodes[CABLE]) == ("FAR", 4), "what is behind another router keeps nobody from this one"
        wire.send(framed(sap_response(CABLE, STATION, [(SERVER, "LOCAL", CABLE, STATION, OFFERED, 1)])))
        until(lambda: "services: 2\n" in gate.report(), "two services")
        assert nearest_for(station, gate.nodes[CABLE]) is None
        assert nearest_for(far, gate.nodes[NETWORK]) == ("LOCAL", 2)
        far.send(sap_response(NETWORK, far.node, [(SERVER, "FALSE", NETWORK, far.node, OFFERED, 1)]))
        until(lambda: "services: 3\n" in gate.report(), "three services")
        assert nearest_for(Client(gate.ports[NETWORK]), gate.nodes[NETWORK]) == ("LOCAL", 2), "a client keeps others from servers"
        wire.send(framed(sap_response(CABLE, STATION, [(SERVER, "LOCAL", CABLE, STATION, OFFERED, 16)])))
        until(lambda: "services: 2\n" in gate.report(), "two services again")
        assert nearest_for(station, gate.nodes[CABLE]) == ("FALSE", 2)


def nearest_that_is_permitted():
    """Where the rules deny the nearest server, the next that they permit is named; and none where one on the asker's own cable is as near."""
    wire = Udp()
    with Gateway(on_a_cable(wire) + "permit service * MAIN* out\ndeny service * * out\n") as gate:
        station, far = unnumbered(gate, wire), Client(gate.ports[NETWORK])
        station.network = CABLE
        offers = [(SERVER, name, 0x99, STATION, OFFERED, hops) for name, hops in (("LAB", 1), ("MAIN3", 4), ("MAIN2", 3), ("MAIN1", 3), ("LAST", 15))]
        far.send(sap_response(NETWORK, far.node, [*offers, (SERVER + 1, "MAIN0", 0x99, STATION, OFFERED, 2)]))
        until(lambda: "services: 6\n" in gate.report(), "six services")
        assert nearest_for(station, gate.nodes[CABLE]) == ("MAIN1", 4)
        wire.send(framed(sap_response(CABLE, STATION, [(SERVER, "MAIN", CABLE, STATION, OFFERED, 1)])))
        until(lambda: "services: 7\n" in gate.report(), "seven services")
        assert nearest_for(station, gate.nodes[CABLE]) is None


def many_are_held_against_rules():
    """Of services that rules deny so many are looked through in a second for who asks for the nearest, and no more: then he asks again."""
    wire, many, asked, a_second = Udp(), 301, 40, 2048 // 301 + 1
    text = on_a_cable(wire).replace(" dosbox", f" 64 {many} dosbox")
    with Gateway(text + "deny service * LAB* out\n") as gate:
        station, far = unnumbered(gate, wire), Client(gate.ports[NETWORK])
        station.network = CABLE
        offers = [(SERVER, f"LAB{k}", 0x99, STATION, OFFERED, 2) for k in range(many - 1)] + [(SERVER, "MAIN", 0x99, STATION, OFFERED, 3)]
        for first in range(0, many, 7):
            far.send(sap_response(NETWORK, far.node, offers[first : first + 7]))
            until(lambda of=first: f"services: {min(of + 7, many)}\n" in gate.report(), "seven services more")
        began = time.monotonic()
        for _ in range(asked):
            station.say(address(0, gate.nodes[CABLE], SAP), struct.pack(">HH", 3, SERVER), kind=0)
        station.say(address(0, gate.nodes[CABLE], SAP), struct.pack(">HH", 1, SERVER), kind=0)
        found = 0
        while station.hear(is_told_of_services)[30:32] == struct.pack(">H", 4):
            found += 1
        assert 0 < found <= a_second * (2 + int(time.monotonic() - began)), found
        until(lambda: station.say(address(0, gate.nodes[CABLE], SAP), struct.pack(">HH", 3, SERVER), kind=0)
              or (station.hear(names_nearest, AGAIN) or b"")[34:38] == b"MAIN", "who asks later is answered")


def another_number():
    """A router that has another number for the cable is told, once a minute."""
    wire, clock = Udp(), Clock()
    words = f"network {CABLE:08X} is network 00000099 for router {STATION.hex().upper()} there: each cable has one number"
    with Gateway(on_a_cable(wire), SYSTEM.fast, environment=clock.environment()) as gate:
        wire.to = gate.ports[CABLE]
        for k, passed in enumerate((0, 59, 1), 1):
            clock.let_pass(passed)
            for _ in range(3):
                wire.send(framed(rip_response(0x99, STATION, [(0x51, 1, 2)])))
            gate.until_counted(CABLE, "in", 3 * k)
        assert sum(words in it for it in gate.lines) == 2, gate.lines


def routes_told(far, gate, network):
    """The networks to which the router has a way, as it tells who asks."""
    far.say(address(0, gate.nodes[network], RIP), struct.pack(">HIHH", 1, 0xFFFFFFFF, 0xFFFF, 0xFFFF), kind=1)
    heard = far.hear(lambda it: it[28:30] == struct.pack(">H", RIP) and it[16:18] == struct.pack(">H", GAME))
    return {int.from_bytes(heard[at:at + 4], "big") for at in range(32, len(heard), 8)}


def rules_come_in():
    """Of several rules the first that names something decides: a response loses routes and services, and packets go nowhere."""
    wire = Udp()
    below = "deny type 20\ndeny socket 0455\npermit route 1001 in\ndeny route 1000-1FFF in\ndeny service 0004 LAB* in\ndeny nearest\n"
    with Gateway(on_a_cable(wire) + below) as gate:
        station, far = unnumbered(gate, wire), Client(gate.ports[NETWORK])
        station.network = CABLE
        wire.send(framed(rip_response(CABLE, STATION, [(0x1000, 1, 2), (0x1001, 1, 2), (0x2000, 1, 2)])))
        wire.send(framed(rip_response(CABLE, STATION, [(0x1FFF, 1, 2)])))
        services = [(4, "LAB1", CABLE, STATION, OFFERED, 1), (4, "OTHER", CABLE, STATION, OFFERED, 1), (7, "LAB2", CABLE, STATION, OFFERED, 1)]
        wire.send(framed(sap_response(CABLE, STATION, services)))
        gate.until_counted(CABLE, "denied", 1)
        until(lambda: "services: 2\n" in gate.report(), "two services")
        assert routes_told(far, gate, NETWORK) == {CABLE, 0x1001, 0x2000}
        assert set(services_of(far, gate)) == {"OTHER", "LAB2"}
        station.say(address(0, EVERYONE, GAME), bytes(32) + b"all", node=EVERYONE, kind=20)
        station.say(address(NETWORK, far.node, 0x455), b"to a socket")
        station.say(address(0, gate.nodes[CABLE], SAP), struct.pack(">HH", 3, 4), kind=0)
        assert reaches(station, far) and gate.counted(CABLE, "denied") == 4
        assert far.hear(lambda it: it[30:] == b"to a socket" or it[5] == 20, 0) is None


def rules_go_out():
    """What is denied on its way out isn't told, nor sent; what the network's own clients say to each other is."""
    with Gateway(tunnels(2) + "deny type 20\ndeny route 1000-1FFF out\ndeny service * LAB* out\ndeny socket 0455\n") as gate:
        one, far, other = Client(gate.ports[0x10]), Client(gate.ports[0x20]), Client(gate.ports[0x20])
        one.send(rip_response(0x10, one.node, [(0x1000, 1, 2), (0x2000, 1, 2)]))
        one.send(sap_response(0x10, one.node, [(4, "LAB1", 0x10, one.node, OFFERED, 1), (4, "OTHER", 0x10, one.node, OFFERED, 1)]))
        until(lambda: "services: 2\n" in gate.report(), "two services")
        assert routes_told(far, gate, 0x20) == {0x10, 0x2000}
        far.say(address(0, gate.nodes[0x20], SAP), QUERY)
        heard = far.hear(is_told_of_services)
        assert len(heard) == 96 and heard[34:39] == b"OTHER", heard
        one.say(far.at(0x455), b"to a socket")
        one.say(address(0, EVERYONE, GAME), bytes(32) + b"all", kind=20)
        assert comes_next(one, far), "what is denied comes"
        other.say(far.at(0x455), b"from beside")
        assert far.hear()[30:] == b"from beside"


def rules_change():
    """Another reload brings other rules, which hold at once; the router runs on."""
    text = tunnels(2).replace(":0\n", ":{}\n").format(*free_ports(2))
    with Changed(text) as gate:
        one, far = Client(gate.ports[0x10]), Client(gate.ports[0x20])
        assert reaches(one, far)
        told = gate.reload(text + f"deny socket {GAME:04X}\n")
        assert "1 with other sockets or edge" in told and "afresh" not in told, told
        one.say(far.at(), b"denied")
        gate.until_counted(0x20, "denied", 1)
        gate.reload(text)
        assert comes_next(one, far)


def statics_change():
    """A reload sees each value of a route or a service by way of a node that is another one, and none where only its line is."""
    words = ["A1", "2", "3", "020000000009", "4", "LAB", "A1", "000000000001", "451", "5", "02000000000A"]
    others = ["A2", "3", "4", "020000000008", "5", "LAB2", "A2", "000000000002", "452", "6", "02000000000B"]
    text = tunnels(2).replace(":0\n", ":{}\n").format(*free_ports(2))
    below = "route {} {} {} via {}\nservice {} {} {}.{}.{} {} via {}\n"
    with Changed(text + below.format(*words)) as gate:
        for k, other in enumerate(others):
            told = gate.reload(text + below.format(*words[:k], other, *words[k + 1:]))
            assert "1 with other sockets or edge" in told and "afresh" not in told, (other, told)
            told = gate.reload("# a remark\n" + text + below.format(*words))
            assert "1 with other sockets or edge" in told, (other, told)
            assert gate.reload(text + below.format(*words)).endswith(": nothing changed\n"), other


def none_is_adopted():
    """Where a network doesn't adopt, the router hears what comes as it comes: 0 stays 0, and what routers carried is heard."""
    wire = Udp()
    with Gateway(on_a_cable(wire) + "adopt no\n") as gate:
        station, far = unnumbered(gate, wire), Client(gate.ports[NETWORK])
        station.say(far.at(), b"one")
        assert far.hear() == packet(far.at(), address(0, STATION, GAME), b"one", control=1)
        told = struct.pack(">HIHH", 2, 0x53, 1, 2)
        wire.send(framed(packet(address(CABLE, EVERYONE, RIP), address(CABLE, STATION, RIP), told, kind=1, control=1)))
        until(lambda: "\n  00000053 hops 1 " in gate.report(), "a route")
        assert gate.counted(CABLE, "from afar") == 0


# ---- A real cable ----


def frames_of(name):
    """The frames of a capture."""
    with open(name, "rb") as it:
        bytes_, at = it.read(), HEAD
    while at < len(bytes_):
        (length,) = struct.unpack_from("<I", bytes_, at + 8)
        yield bytes_[at + RECORD:at + RECORD + length]
        at += RECORD + length


def answers_all(far, wire, node):
    """Whether what a client says to a station of the cable comes there."""
    far.say(address(CABLE, node, OFFERED), b"answer")
    return Station(wire, "llc", CABLE, node, b"").hear(lambda it: it[30:] == b"answer") is not None


def a_real_cable():
    """A capture of a cable that nobody numbered, played by a TAP: a client on another network finds its services, and reaches them; and it
    answers who called all by type 20."""
    frames = [it for it in frames_of(os.environ[CAPTURE]) if it[14:BEHIND] == FRONTS["llc"]]
    with Gateway(tunnels(1) + f"network {CABLE:X} 1 1490 tap edge0 auto\n") as gate:
        ip("link", "set", "edge0", "up")
        gate.until(f"network {CABLE:08X} up")
        far, wire = Client(gate.ports[NETWORK]), Packets("edge0", "llc")
        for bytes_ in frames:
            wire.send(bytes_)
        until(lambda: "services: 3\n" in gate.report(), "three services")
        called = [it for it in iter(lambda: far.hear(lambda it: it[5] == 20, 1), None)]
        found = services_of(far, gate)
        assert len(found) == 3 and all(at[:4] == struct.pack(">I", CABLE) for at, _ in found.values()), found
        assert all(answers_all(far, wire, at[4:10]) for at, _ in found.values()), "a service isn't reached"
        callers = {it[18:28] for it in called}
        assert callers and not any(it.startswith(bytes(4)) for it in callers), callers
        own = [it[4:] for it in callers if it.startswith(struct.pack(">I", CABLE))]
        assert own and all(answers_all(far, wire, node) for node in own), "a caller isn't reached"


def inside():
    """In the network of its own."""
    ip("link", "set", "lo", "up")
    if has_taps():
        return tried(a_real_cable)
    left_out("a capture of a real cable", "no TAP can be made")
    return Counts()


def main():
    counts = tried(is_answered, is_found, routes_of_a_neighbour, neighbours_are_heard_beside, nobody_passes_for_a_neighbour, as_it_came,
                   nearest_server, nearest_that_is_permitted, many_are_held_against_rules, rules_come_in, rules_go_out, none_is_adopted)
    if has_linux("rules that change, and what is told once a minute", "the status socket and the clock that a test sets are Linux' own"):
        counts.run(rules_change)
        counts.run(statics_change)
        counts.run(another_number)
    if not SYSTEM.has_cards or not os.path.isfile(os.environ.get(CAPTURE, "")):
        left_out("a capture of a real cable", f"{CAPTURE} names none")
        return counts
    return counts + tried_inside(__file__, "a capture of a real cable")


if __name__ == "__main__":
    begin(main, inside)

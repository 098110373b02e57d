"""Routes and services by way of nodes that say nothing themselves, as lines of the configuration say them."""
import socket
import time

from changed import Changed
from edge import nearest_for, routes_told, services_of, unnumbered
from frames import Udp, frame
from lab import EVERYONE, GAME, Client, Clock, Gateway, address, free_ports, is_routers, rip_response, sap_response, tunnels, until
from systems import SYSTEM
from trying import begin, has_linux, tried

NETWORK, CABLE = 0x10, 0x20
VIA, OTHER = bytes.fromhex("00001B0204AA"), bytes.fromhex("00001B0204BB")
SERVER, FIRST, MANY = bytes.fromhex("000000000001"), 0x1000, 60  # a server's node; and more routes than a packet has room for
LONG = 400  # seconds: more than twice a record lasts
ROUTE, SERVICE = "route A1 2 3 via 00001B0204AA\n", "service 4010 FILES A1.000000000001.451 3 via 00001B0204AA\n"


def with_lines(wire, lines, near=0):
    """A network of DOSBox, and a cable with lines below it."""
    return tunnels(1) + f"network {CABLE:X} 1 1490 qemu-udp {near} {wire.port} raw\n{lines}"


def are_learned():
    """The router tells the routes and services of the lines, and sends what is for them to their node."""
    wire = Udp()
    many = "".join(f"route {FIRST + k:X} 1 2 via 00001B0204BB\n" for k in range(MANY))
    with Gateway(with_lines(wire, ROUTE + SERVICE + many)) as gate:
        station, far = unnumbered(gate, wire), Client(gate.ports[NETWORK])
        until(lambda: f"routes: {MANY + 1}\n" in gate.report() and "services: 1\n" in gate.report(), "all routes and the service")
        assert routes_told(far, gate, NETWORK) >= {CABLE, 0xA1}
        assert services_of(far, gate) == {"FILES": (address(0xA1, SERVER, 0x451), 4)}
        assert nearest_for(far, gate.nodes[NETWORK]) == ("FILES", 4)
        for node, to in (VIA, 0xA1), (OTHER, FIRST + MANY - 1):
            far.say(address(to, SERVER, GAME), b"far away")
            frame = next(it for it in iter(lambda: wire.receive()[0], None) if it[44:] == b"far away" + bytes(60 - 52))
            assert frame[:6] == node, frame
        assert station.network == 0


def it_answers_nobody():
    """A server that a line names says nothing to who asks for the nearest on its cable: the router names the one elsewhere."""
    wire = Udp()
    with Gateway(with_lines(wire, SERVICE + "service 4010 OLD 20.000000000001.451 1 via 00001B0204AA\n")) as gate:
        station, far = unnumbered(gate, wire), Client(gate.ports[NETWORK])
        station.network = CABLE
        far.send(sap_response(NETWORK, far.node, [(0x4010, "FAR", 0x99, far.node, 0x451, 5)]))
        until(lambda: "services: 3\n" in gate.report(), "all services")
        assert nearest_for(station, gate.nodes[CABLE]) == ("FAR", 6)


def they_stay():
    """By a set clock they stay, however long nobody says them: the gateway does, also after the link was away."""
    wire, clock = Udp(), Clock()
    with Gateway(with_lines(wire, ROUTE + SERVICE), program=SYSTEM.fast, environment=clock.environment()) as gate:
        for _ in range(LONG):
            clock.let_pass(1)
            report = gate.report()
        assert "\n  000000A1 hops 2 ticks 3 by 00001B0204AA on 00000020" in report and "services: 1\n" in report, report


def they_come_again():
    """Where a link is lost and is there again at once, the router hears of its lines again at once, too."""
    with Gateway(tunnels(1) + f"network {CABLE:X} 1 1490 qemu-tcp listen 127.0.0.1:0 raw\n{ROUTE}") as gate:
        for _ in range(3):
            with socket.create_connection(("127.0.0.1", gate.ports[CABLE])):
                until(lambda: f"network {CABLE:08X} up" in gate.report(), "the link")
                until(lambda: "\n  000000A1 hops 2 " in gate.report(), "the route")


def nobody_takes_their_places():
    """What a line says is heard from nobody else, on its network or another one: so who fills the tables can't take its place, or end it."""
    cable, wire = Udp(), Udp()
    other, evil = 0x30, b"\2\0\0\0\0\xE1"
    text = f"network {NETWORK:X} 1 1424 dosbox 127.0.0.1:0\n" + ROUTE + SERVICE + f"network {other:X} 1 1490 qemu-udp 0 {wire.port} raw\n"
    with Gateway(text) as gate:
        wire.to = gate.ports[other]
        client = Client(gate.ports[NETWORK])
        says = (lambda bytes_: client.send(bytes_), NETWORK, client.node), (lambda bytes_: wire.send(frame("raw", EVERYONE, evil, bytes_)), other, evil)
        for number, (send, network, node) in enumerate(says):
            server = lambda name, hops: (0x4010, name, 0x5000, node, 0x451, hops)
            first = 0x5000 + 0x1000 * number
            for k in range(0, 64, 32):
                send(rip_response(network, node, [(first + k + it, 1, 2) for it in range(32)]))
            for k in range(0, 35, 7):
                send(sap_response(network, node, [server(f"S{number}{k + it}", 1) for it in range(7)]))
            send(rip_response(network, node, [(0xA1, 1, 1), (first + 70, 1, 2)]))
            send(sap_response(network, node, [server("FILES", 1), server(f"T{number}", 1)]))
            send(rip_response(network, node, [(0xA1, 16, 1)]))
            send(sap_response(network, node, [server("FILES", 16)]))
            gate.until_counted(network, "denied", 2)
            report = gate.report()
            assert "\n  000000A1 hops 2 ticks 3 by 00001B0204AA on 00000010" in report and "FILES" in report, report
        assert "routes: 129\n" in report and "services: 68\n" in report, report


def they_come_before_others():
    """What others told before ends where a line's network comes up, and who comes to that network is heard behind its lines."""
    wire, near, evil = Udp(), 0x30, b"\2\0\0\0\0\xE1"
    text = f"network {CABLE:X} 1 1490 1 1 qemu-tcp listen 127.0.0.1:0 raw\n" + ROUTE + SERVICE + f"network {near:X} 1 1490 qemu-udp 0 {wire.port} raw\n"
    with Gateway(text) as gate:
        wire.to = gate.ports[near]
        wire.send(frame("raw", EVERYONE, evil, rip_response(near, evil, [(0xA1, 1, 1)])))
        until(lambda: "\n  000000A1 hops 1 " in gate.report(), "another way")
        for k in range(3):
            with socket.create_connection(("127.0.0.1", gate.ports[CABLE])) as there:
                frame_ = frame("raw", EVERYONE, evil, rip_response(CABLE, evil, [(0x5000 + k, 1, 2)]))
                there.sendall(len(frame_).to_bytes(4, "big") + frame_)
                until(lambda: f"network {CABLE:08X} up" in gate.report(), "the link")
                until(lambda: "\n  000000A1 hops 2 " in gate.report() and "FILES" in gate.report(), "the lines")
            until(lambda: f"network {CABLE:08X} down" in gate.report(), "the link's end")


def lines_that_say_the_same():
    """Where lines of two networks lead to the same, the nearer one holds, and the router says so once: nothing changes from second to second."""
    wire, other = Udp(), 0x30
    two = f"network {other:X} 1 1490 qemu-udp 0 9 raw\n" + ROUTE.replace("2 3", "4 5") + SERVICE.replace("451 3", "451 5")
    with Gateway(with_lines(wire, ROUTE + SERVICE) + two) as gate:
        far = Client(gate.ports[NETWORK])
        until(lambda: "routes: 1\n" in gate.report() and "services: 1\n" in gate.report(), "both")
        time.sleep(2)
        while far.hear(is_routers, 0) is not None:
            pass
        assert far.hear(is_routers, 5) is None, "the router says something anew"
        assert "\n  000000A1 hops 2 ticks 3 by 00001B0204AA on 00000020" in gate.report()


def they_end():
    """A reload without a line ends what it said at once, and a line more is heard at once, also by a new router."""
    wire = Udp()
    (near,) = free_ports(1)
    with Changed(with_lines(wire, ROUTE + SERVICE, near)) as gate:
        far = Client(gate.ports[NETWORK])
        until(lambda: "routes: 1\n" in gate.report() and "services: 1\n" in gate.report(), "both")
        other = with_lines(wire, "route A2 2 3 via 00001B0204BB\n", near)
        told = gate.reload(other)
        assert "afresh" not in told, told
        report = gate.report()
        assert "\n  000000A2 " in report and "\n  000000A1 " not in report and "services: 0\n" in report, report
        assert routes_told(far, gate, NETWORK) == {CABLE, 0xA2}
        assert "afresh" in gate.reload(other.replace(f"{CABLE:X} 1 1490", f"{CABLE:X} 2 1490"))
        assert "\n  000000A2 " in gate.report(), "a new router hears of it at once"


def main():
    counts = tried(are_learned, it_answers_nobody, they_come_again, nobody_takes_their_places, they_come_before_others, lines_that_say_the_same)
    if has_linux("lines that change, and that stay", "the status socket and the clock that a test sets are Linux' own"):
        counts.run(they_stay)
        counts.run(they_end)
    return counts


if __name__ == "__main__":
    begin(main)

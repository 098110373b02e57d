"""Cards of emulators: frames in datagrams and on connections, by the four kinds."""
import errno
import fcntl
import os
import re
import resource
import select
import socket
import struct
import termios
import threading
import time

from frames import KINDS, Station, Tcp, Udp, frame
from lab import (AGAIN, EVERYONE, GAME, LIMIT, Client, Clock, Gateway, address, comes_next, free_ports, is_routers, packet, played_anew, reaches,
                 tunnels, until)
from systems import SYSTEM, Windows, fault_words
from trying import begin, figures, has_linux, left_out, tried

STATION = bytes.fromhex("020000000AA1")
RESETS = 30
SOON = 0.05  # seconds in which a connection comes about, where there is room for it
KNOCKS = 50  # connections a second
WITHIN = 5  # seconds in which a PC is there, whoever else knocks
LATE = 6  # seconds, after which a call that hasn't come about is given up
MUCH, AT_ONCE, HELD = 4000, 20, 800  # long packets for a PC that doesn't read; so many at once; and most that it has to read thereafter


def listening(port=0):
    it = socket.socket()
    it.settimeout(LIMIT)
    it.bind(("127.0.0.1", port))
    it.listen()
    return it


def connected(gate, network, kind, last=1):
    """A station that connects to the gateway, and its connection. It is heard as soon as the router has greeted it."""
    connection = socket.create_connection(("127.0.0.1", gate.ports[network]))
    station = Station(Tcp(connection), kind, network, STATION[:5] + bytes([last]), gate.nodes[network])
    assert station.hear(is_routers) is not None, "the router greets a link that comes up"
    return station, connection


def is_closed(connection):
    """Waits until the other end has closed a connection."""
    connection.settimeout(LIMIT)
    try:
        while connection.recv(65536):
            pass
    except ConnectionResetError:
        pass
    return True


def both_ways(gate, station, far):
    """A packet goes there and back; short ones padded, the longest whole; then type 20."""
    for size in (0, 1, 15, 16, 17, 500, 1300):
        data = bytes(k % 251 for k in range(size))
        assert reaches(far, station, data), f"{size} bytes to {station.kind}"
        assert reaches(station, far, data), f"{size} bytes from {station.kind}"
    station.say(address(0, EVERYONE, GAME), bytes(32) + b"all", node=EVERYONE, kind=20)
    assert far.hear()[62:] == b"all"


def datagrams():
    """A card that sends a frame a datagram reaches a DOSBox by each kind of frame, the node said or made up, the link by either of its words."""
    for kind in KINDS:
        wire = Udp()
        said = " node 02:00:5e:00:00:f1" if kind == "llc" else ""
        word = "udp" if kind == "snap" else "qemu-udp"
        text = tunnels(1) + f"network 20 1 1490 {word} 0 127.0.0.1:{wire.port} {kind}{said}\n"
        with Gateway(text) as gate:
            wire.to = gate.ports[0x20]
            assert kind != "llc" or gate.nodes[0x20] == bytes.fromhex("02005E0000F1")
            station = Station(wire, kind, 0x20, STATION, gate.nodes[0x20])
            far = Client(gate.ports[0x10])
            both_ways(gate, station, far)


def two_networks_on_a_link():
    """Two networks share a link by different kinds of frames; each hears its own, and both hear each other by the gateway."""
    wire = Udp()
    (wire.to,) = free_ports(1)
    text = "".join(f"network {n} 1 1490 qemu-udp {wire.to} {wire.port} {kind}\n" for n, kind in ((20, "raw"), (30, "llc")))
    with Gateway(text) as gate:
        a = Station(wire, "raw", 0x20, STATION, gate.nodes[0x20])
        b = Station(wire, "llc", 0x30, STATION, gate.nodes[0x30])
        assert reaches(a, b) and reaches(b, a)
        wire.send(frame("snap", EVERYONE, STATION, packet(b.at(), a.at())))
        wire.send(frame("raw", EVERYONE, STATION, b"\0\0" + packet(b.at(), a.at())[2:]))
        wire.send(frame("raw", b"\x02\0\0\0\0\x99", STATION, packet(b.at(), a.at())))
        wire.send(frame("raw", EVERYONE, gate.nodes[0x20], packet(b.at(), a.at())))
        wire.send(b"short")
        wire.send(b"")
        assert reaches(a, b)
        report = gate.report()
        for what, count in (("another kind of frame", 1), ("no IPX", 3), ("for another node", 1), ("own frame", 1)):
            assert gate.counted(0x20, what, report) == count, (what, report)


def long_frames():
    """Frames of any length are heard, cut or dropped, and the next one is heard."""
    wire = Udp()
    with Gateway(tunnels(1) + f"network 20 1 1500 qemu-udp 0 {wire.port} ethernet2\n") as gate:
        wire.to = gate.ports[0x20]
        station, far = Station(wire, "ethernet2", 0x20, STATION, gate.nodes[0x20]), Client(gate.ports[0x10])
        for size in (1471, 2000, 2018, 2019, 9000, 60000):
            station.say(far.at(), bytes(size))
        assert reaches(station, far)
        report = gate.report()
        assert gate.counted(0x20, "longer than the link carries", report) == 6, report
        station.say(far.at(), bytes(1470))
        assert reaches(station, far) and gate.counted(0x20, "drop TooLong") == 1


def a_connection_comes():
    """A card that connects is heard, and told with its address; the link is down before and after, and its network unreachable."""
    with Gateway(tunnels(1) + "network 20 1 1490 qemu-tcp listen 0 snap\n") as gate:
        far = Client(gate.ports[0x10])
        link = f"qemu-tcp listen 127.0.0.1:{gate.ports[0x20]} snap"
        assert gate.told("network 00000020 is down").endswith(f": {link}: nobody is connected")
        assert "network 00000020 down" in gate.report()
        for _ in range(3):
            station, connection = connected(gate, 0x20, "snap")
            up = gate.told("network 00000020 is up")
            assert f": {link}, node " in up and up.endswith(f", with 127.0.0.1:{connection.getsockname()[1]}"), up
            both_ways(gate, station, far)
            assert "network 00000020 up" in gate.report()
            connection.close()
            far.say(station.at(), b"?")
            assert gate.told("network 00000020 is down").endswith(f": {link}: nobody is connected")
            gate.until("network 00000020 down")


NUMBERS = [b"%d" % k for k in range(200)]
NO_LIMIT = "rate none\n"  # below the network of whoever hears more at once than a DOSBox may


def says_numbers(station, far):
    for number in NUMBERS:
        station.say(far.at(), number)


def hears_numbers(far):
    """Whether all numbers come, in their order, and nothing between them."""
    heard = (far.hear() for _ in NUMBERS)
    return all(it is not None and it[30:] == number for it, number in zip(heard, NUMBERS))


def one_pc_at_a_time():
    """While a PC is connected others are refused, and told; it stays. Where it goes, the next is taken at once."""
    with Gateway(tunnels(1, extra=NO_LIMIT) + "network 20 1 1490 qemu-tcp listen 0 raw\n") as gate:
        far = Client(gate.ports[0x10])
        station, pc = connected(gate, 0x20, "raw")
        for _ in range(50):
            with socket.create_connection(("127.0.0.1", gate.ports[0x20])) as scanner:
                assert is_closed(scanner)
        link = f"qemu-tcp listen 127.0.0.1:{gate.ports[0x20]} raw"
        refused = gate.told("is refused")
        assert refused.endswith(f" is refused at {link}: 127.0.0.1:{pc.getsockname()[1]} is connected there"), (refused, link, pc)
        both_ways(gate, station, far)
        assert gate.counted(0x20, "refused") == 50
        # (all that it said is heard, and that it went, before the next is looked at)
        for last in range(2, 6):
            says_numbers(station, far)
            pc.shutdown(socket.SHUT_WR)
            station, pc = connected(gate, 0x20, "raw", last)
            assert hears_numbers(far)
        assert reaches(far, station) and gate.counted(0x20, "refused") == 50


@played_anew
def nobody_hears_of_it():
    """Who connects and resets, again and again, isn't told to anybody; then a PC comes in as if nothing had been."""
    with Gateway(tunnels(1) + "network 20 1 1490 qemu-tcp listen 0 raw\n") as gate:
        far = Client(gate.ports[0x10])
        gate.told("network 00000020 is down")
        for _ in range(RESETS):
            scanner = socket.socket()
            scanner.setblocking(False)
            scanner.connect_ex(("127.0.0.1", gate.ports[0x20]))
            select.select([], [scanner], [], SOON)
            reset(scanner)
        station, _ = connected(gate, 0x20, "raw")
        assert reaches(far, station) and reaches(station, far)
        gate.told("network 00000020 is up")
        told = [line for line in gate.lines if "network 00000020 is" in line]
        assert [" is up: " in line for line in told] == [False, True], told


def no_connection_stays():
    """Whoever takes a connection and closes it at once, again and again, with or without a word, isn't told to anybody; one that stays is."""
    said = frame("raw", EVERYONE, STATION, packet(address(0, EVERYONE, GAME), address(0, STATION, GAME), b"I am here"))
    with socket.create_server(("127.0.0.1", 0)) as server:
        server.settimeout(LIMIT)
        with Gateway(tunnels(1) + f"network 20 1 1490 qemu-tcp connect {server.getsockname()[1]} raw\n") as gate:
            gate.told("network 00000020 is down")
            for words in (b"", len(said).to_bytes(4, "big") + said, b""):
                connection = server.accept()[0]
                with gate.run.halted():
                    connection.sendall(words)
                    connection.close()
            with server.accept()[0]:
                gate.told("network 00000020 is up")
            told = [line for line in gate.lines if "network 00000020 is" in line]
            assert [" is up: " in line for line in told] == [False, False, True], told


class Knocks(threading.Thread):
    """Somebody who connects again and again, says something, and goes after some seconds."""

    def __init__(self, port, said, lasts):
        super().__init__(daemon=True)
        self.port, self.said, self.lasts = port, said, lasts
        self.there, self.count, self.is_over = [], 0, threading.Event()

    def run(self):
        while not self.is_over.wait(1 / KNOCKS):
            now = time.monotonic()
            for connection, _ in (it for it in self.there if it[1] <= now):
                connection.close()
            self.there = [it for it in self.there if it[1] > now]
            self.there.append((self.knock(), now + self.lasts))
            self.count += 1

    def knock(self):
        connection = socket.socket()
        connection.setblocking(False)
        connection.connect_ex(("127.0.0.1", self.port))
        try:
            if self.said and select.select([], [connection], [], SOON)[1]:
                connection.send(self.said)
        except OSError:
            pass  # (it is refused)
        return connection

    def __enter__(self):
        self.start()
        until(lambda: self.count >= KNOCKS, "knocks")
        return self

    def __exit__(self, *_):
        self.is_over.set()
        self.join()
        for connection, _ in self.there:
            connection.close()


def comes_among(said, lasts):
    """A PC comes while somebody knocks."""
    with Gateway(tunnels(1) + "network 20 1 1490 qemu-tcp listen 0 raw\n") as gate:
        far = Client(gate.ports[0x10])
        with Knocks(gate.ports[0x20], said, lasts) as other:
            began = time.monotonic()
            station, _ = connected(gate, 0x20, "raw")
            took = time.monotonic() - began
            assert took < WITHIN, f"it took {took:.1f} s"
            until(lambda: other.count >= 3 * KNOCKS, "more knocks")
            assert reaches(far, station) and reaches(station, far)
        assert gate.counted(0x20, "refused") > 0


@played_anew
def others_knock():
    """While somebody else connects fifty times a second and goes again, at once or later, with or without a word, a PC that comes is there
    within seconds, and stays."""
    said = frame("raw", EVERYONE, STATION, packet(address(0, EVERYONE, GAME), address(0, STATION, GAME), b"I am here"))
    for words, lasts in ((b"", 0), (b"", 0.5), (b"GET / HTTP/1.0\r\n\r\n", 0.5), (len(said).to_bytes(4, "big") + said, 0)):
        comes_among(words, lasts)


def no_room_for_a_connection():
    """Where the system has no room for one more connection, the gateway says so once, tries again each second, and takes it then."""
    with Gateway(tunnels(1) + "network 20 1 1490 qemu-tcp listen 0 raw\n") as gate:
        far = Client(gate.ports[0x10])
        process = gate.run.process()
        files = len(os.listdir(f"/proc/{process}/fd"))
        before = resource.prlimit(process, resource.RLIMIT_NOFILE, (files, resource.getrlimit(resource.RLIMIT_NOFILE)[1]))
        with socket.create_connection(("127.0.0.1", gate.ports[0x20])) as pc:
            assert gate.told("nobody can come in at").endswith(f" now: {fault_words(errno.EMFILE)}")
            until(lambda: gate.counted(0x20, "not taken") >= 2, "it is tried again")
            report = gate.report()
            seconds = int(re.search(r"(?m)^report after (\d+) s$", report)[1])
            assert gate.counted(0x20, "not taken", report) <= seconds + 2, report
            assert sum("nobody can come in" in line for line in gate.lines) == 1
            resource.prlimit(process, resource.RLIMIT_NOFILE, before)
            station = Station(Tcp(pc), "raw", 0x20, STATION, gate.nodes[0x20])
            assert station.hear(is_routers) is not None and reaches(far, station)


def is_at_its_end(connection):
    """Whether all that was said on a connection has come to the machine at its other end. What has not is lost where it is reset, also by a
    close while something is unread: the system of who resets it throws it away."""
    return int.from_bytes(fcntl.ioctl(connection, termios.TIOCOUTQ, bytes(4)), "little") == 0


def reset(connection):
    connection.setsockopt(socket.SOL_SOCKET, socket.SO_LINGER, struct.pack("ii", 1, 0))
    connection.close()


def a_connection_is_reset():
    """What came from a PC before it reset its connection is heard whole, though what goes to it meanwhile can't be sent."""
    with Gateway(tunnels(1, extra=NO_LIMIT) + "network 20 1 1490 qemu-tcp listen 0 raw\n") as gate:
        far = Client(gate.ports[0x10])
        for last in range(1, 4):
            station, pc = connected(gate, 0x20, "raw", last)
            unsent = gate.counted(0x20, "not sent")
            with gate.run.halted():
                says_numbers(station, far)
                until(lambda pc=pc: is_at_its_end(pc), "what the PC said has come")
                reset(pc)
                far.say(station.at(), b"Are you there?")
            assert hears_numbers(far)
            gate.until("network 00000020 down")
            assert gate.counted(0x20, "not sent") > unsent


def a_stream():
    """Frames come in pieces, and many at once; what isn't frames ends the connection."""
    with Gateway(tunnels(1, extra=NO_LIMIT) + "network 20 1 1490 qemu-tcp listen 0 raw\n") as gate:
        far = Client(gate.ports[0x10])
        station, pc = connected(gate, 0x20, "raw")
        whole = frame("raw", station.gateway, STATION, packet(far.at(), station.at(), b"pieces"))
        for byte in len(whole).to_bytes(4, "big") + whole:
            pc.sendall(bytes([byte]))
        assert far.hear()[30:] == b"pieces"
        pc.sendall((len(whole).to_bytes(4, "big") + whole) * 200)
        assert all(far.hear()[30:] == b"pieces" for _ in range(200))
        pc.sendall(b"GET / HTTP/1.0\r\n\r\n")
        assert is_closed(pc)
        again, _ = connected(gate, 0x20, "raw", last=3)
        assert reaches(far, again)


def read_until_now(far, station):
    """How many packets a PC reads until it hears what is said now. (where there is no room for that it is said again)"""
    far.say(station.at(), b"now")
    for count in range(2 * MUCH):
        heard = station.hear(patience=AGAIN)
        if heard is None:
            far.say(station.at(), b"now")
        elif heard[30:] == b"now":
            return count
    return 2 * MUCH


def is_soon_there(gate, far, station):
    """Megabytes are said to a PC that doesn't read; then it reads."""
    for _ in range(MUCH // AT_ONCE):
        for _ in range(AT_ONCE):
            far.say(station.at(), bytes(1000))
        gate.report()  # (so all of it was heard)
    count = read_until_now(far, station)
    figures(f"{count} of {MUCH} waited for {station.network:X}")
    assert count <= HELD, f"{count} packets of a thousand bytes waited"
    assert gate.counted(station.network, "not sent") >= MUCH - HELD


def a_pc_reads_later():
    """What a PC doesn't read is dropped but for some kilobytes: once it reads, it soon hears what is said then. It connects, or the gateway does."""
    place, wire = listening(), Udp()
    text = f"network 20 1 1490 qemu-tcp listen 0 raw\nnetwork 21 1 1490 qemu-tcp connect {place.getsockname()[1]} raw\n"
    with Gateway(text + f"network 30 1 1490 qemu-udp 0 {wire.port} raw\n") as gate:
        wire.to = gate.ports[0x30]
        far = Station(wire, "raw", 0x30, STATION, gate.nodes[0x30])
        is_soon_there(gate, far, connected(gate, 0x20, "raw")[0])
        taken, _ = place.accept()
        is_soon_there(gate, far, Station(Tcp(taken), "raw", 0x21, STATION, gate.nodes[0x21]))


def a_connection_goes():
    """The gateway connects where it is told to, again when the other end comes back."""
    place = listening()
    port = place.getsockname()[1]
    with Gateway(tunnels(1) + f"network 20 1 1490 qemu-tcp connect {port} llc\n") as gate:
        far = Client(gate.ports[0x10])
        for _ in range(2):
            connection, _ = place.accept()
            station = Station(Tcp(connection), "llc", 0x20, STATION, gate.nodes[0x20])
            assert station.hear(is_routers)
            both_ways(gate, station, far)
            connection.close()


def nobody_listens_yet():
    """Where nobody listens the gateway tries again, until somebody does."""
    (port,) = free_ports(1)
    with Gateway(tunnels(1) + f"network 20 1 1490 qemu-tcp connect {port} llc\n") as gate:
        until(lambda: int(re.search(r"(?m)^report after (\d+) s$", gate.report())[1]) >= 2, "two seconds")
        assert gate.told("can't connect").endswith(f": qemu-tcp connect 127.0.0.1:{port} llc: can't connect: Connection refused")
        assert "network 00000020 down" in gate.report()
        connection, _ = listening(port).accept()
        assert Station(Tcp(connection), "llc", 0x20, STATION, gate.nodes[0x20]).hear(is_routers)


def nobody_answers():
    """A call that nobody answers, not even to refuse it, ends after five seconds, and another one is made then."""
    with socket.socket() as silent:
        silent.bind(("127.0.0.1", 0))
        silent.listen(0)
        place = silent.getsockname()
        # (who has no room for another connection answers nothing)
        others = [socket.socket() for _ in range(2)]
        for it in others:
            it.setblocking(False)
            it.connect_ex(place)
        with Gateway(f"network 20 1 1490 qemu-tcp connect {place[1]} llc\n") as gate:
            assert gate.told("can't connect").endswith(f": can't connect: {fault_words(errno.ETIMEDOUT)}")
            for it in others:
                silent.accept()[0].close()
                it.close()
            silent.settimeout(LIMIT)
            connection, _ = silent.accept()
            assert Station(Tcp(connection), "llc", 0x20, STATION, gate.nodes[0x20]).hear(is_routers)


def a_late_answer():
    """A call that comes about while the gateway stands still, for longer than five seconds, is a connection like any other."""
    clock = Clock()
    with socket.socket() as slow:
        slow.bind(("127.0.0.1", 0))
        slow.listen(0)
        place = slow.getsockname()
        others = [socket.socket() for _ in range(2)]
        for it in others:
            it.setblocking(False)
            it.connect_ex(place)
        with Gateway(f"network 20 1 1490 qemu-tcp connect {place[1]} llc\n", program=SYSTEM.fast, environment=clock.environment()) as gate:
            gate.report()
            with gate.run.halted():
                slow.settimeout(LIMIT)
                connection, caller = slow.accept()
                while caller in [it.getsockname() for it in others]:
                    connection.close()
                    connection, caller = slow.accept()
                clock.let_pass(LATE)
            with connection:
                until(lambda: clock.let_pass(1) or " is up: " in gate.report() + "".join(gate.lines), "a connection")
            assert not any("can't connect" in line for line in gate.lines), gate.lines


def an_address_comes_later():
    """An address that the machine doesn't have is waited for, which is told; the other networks are routed meanwhile."""
    text = "".join(f"network {n} 1 1424 {it}\n" for n, it in ((40, "dosbox 192.0.2.1:2130"), (50, "qemu-tcp listen 192.0.2.1:5003 raw")))
    with Gateway(tunnels(2) + text) as gate:
        lacks = [(50, "qemu-tcp listen 192.0.2.1:5003 raw: can't listen there")]
        if SYSTEM is Windows:
            left_out("an address for datagrams that isn't there yet", "Wine takes any")
        else:
            lacks.insert(0, (40, "dosbox 192.0.2.1:2130: can't take the address"))
        for network, what in lacks:
            assert gate.told(f"network 000000{network} is down").endswith(f": {what}: {fault_words(errno.EADDRNOTAVAIL)}")
        assert reaches(Client(gate.ports[0x10]), Client(gate.ports[0x20]))


def places_joined(here, there):
    """Sees that two gateways join networks 10 and 30 by network 20, by the words for its link at each."""
    text = "network {} 1 1424 dosbox 127.0.0.1:0\nnetwork 20 1 1490 {}\n"
    with Gateway(text.format(10, here)) as one, Gateway(text.format(30, there)) as other:
        assert one.nodes[0x20] != other.nodes[0x20]
        one.until("\n  00000030 hops 1 ")
        other.until("\n  00000010 hops 1 ")
        near, far = Client(one.ports[0x10]), Client(other.ports[0x30])
        assert reaches(near, far)[4] == 2 and reaches(far, near)[4] == 2, "two routers"
        assert one.counted(0x20, "own frame") == other.counted(0x20, "own frame") == 0


def two_gateways():
    """Two gateways on one network, neither with a node in its line, join the networks of two places: by datagrams and by a connection."""
    here, there = free_ports(2)
    places_joined(f"qemu-udp {here} {there} raw", f"qemu-udp {there} {here} raw")
    places_joined(f"qemu-tcp listen {here} llc", f"qemu-tcp connect {here} llc")


def extended():
    """A broadcast of a DOSBox is handed to a wire, and one of the wire to DOSBox, where both name its socket."""
    wire = Udp()
    text = tunnels(1, extra="extend 4003\n") + f"network 20 1 1490 qemu-udp 0 {wire.port} raw\nextend 4003 4004\n"
    with Gateway(text) as gate:
        wire.to = gate.ports[0x20]
        station, far = Station(wire, "raw", 0x20, STATION, gate.nodes[0x20]), Client(gate.ports[0x10])
        far.say(address(0, EVERYONE, GAME), b"from DOSBox")
        assert station.hear() == packet(address(0x20, EVERYONE, GAME), far.at(), b"from DOSBox")
        station.say(address(0, EVERYONE, GAME), b"from the wire", node=EVERYONE)
        assert far.hear() == packet(address(0x10, EVERYONE, GAME), station.at(), b"from the wire")
        wire.send(frame("raw", EVERYONE, STATION, packet(address(0, EVERYONE, GAME), address(0, STATION, GAME), b"without a number")))
        assert far.hear() == packet(address(0x10, EVERYONE, GAME), station.at(), b"without a number")
        assert comes_next(station, far) and gate.counted(0x20, "not extended") == 0


def nobody_listens():
    """Where no QEMU has the other address, the system says so, and it is counted."""
    (port,) = free_ports(1)
    with Gateway(tunnels(1) + f"network 20 1 1490 qemu-udp 0 127.0.0.1:{port} raw\n") as gate:
        until(lambda: gate.counted(0x20, "nobody there") > 0, "packets for nobody")


def main():
    counts = tried(datagrams, two_networks_on_a_link, long_frames, a_connection_comes, one_pc_at_a_time, nobody_hears_of_it,
                   no_connection_stays, others_knock, a_connection_is_reset, a_stream, a_pc_reads_later, a_connection_goes, nobody_listens_yet,
                   nobody_answers, an_address_comes_later, two_gateways, extended)
    if has_linux("whether what is sent to nobody is counted", "Windows doesn't tell it, though Wine does"):
        counts.run(nobody_listens)
    if has_linux("no room for a connection", "it is tried on Linux alone"):
        counts.run(no_room_for_a_connection)
        counts.run(a_late_answer)
    return counts


if __name__ == "__main__":
    begin(main)

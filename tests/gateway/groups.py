"""Many PCs on one line by multicast: QEMU's -netdev socket,mcast= and what speaks as it does, on this machine and by a card."""
import errno
import select
import socket
import struct
import tempfile
import time

from calls import call_of
from cards import has_cards, pair
from changed import Changed
from frames import KINDS, Neighbour, Station, frame
from lab import (AGAIN, EVERYONE, GAME, LIMIT, ROOM, Client, Gateway, address, comes_next, free_ports, fresh, is_routers, packet, reaches,
                 reaches_again, tunnels, until)
from links import STATION, both_ways
from pc import MOST, Pc, missing
from segments import LOOP_SOCKET, NUMBER, Cable, calls, hears
from spaces import ip
from systems import SYSTEM, Windows, fault_words
from troubles import ends_well, troubled
from trying import Counts, begin, can, has_linux, left_out, tried, tried_inside

GROUP, OTHER = "239.77.0.1", "239.77.0.2"
HERE = "127.0.0.1"
PCS = [bytes.fromhex("52540000000A"), bytes.fromhex("52540000000B")]
PROBE = 25  # bytes of data of the packets by which gateways find links that are one cable
USUALLY = 20  # groups that a socket may join
COPIES = 3  # seconds for which it is looked whether something comes again
IPV4, UDP = 0x0800, 17


class Member:
    """A PC on a group as QEMU is one: what it hears and what it says has the group's own port. It hears itself, too."""

    def __init__(self, port, group=GROUP, by=HERE):
        self.place = group, port
        self.socket = socket.socket(socket.AF_INET, socket.SOCK_DGRAM)
        self.socket.setsockopt(socket.SOL_SOCKET, socket.SO_REUSEADDR, 1)
        self.socket.setsockopt(socket.SOL_SOCKET, socket.SO_RCVBUF, ROOM)
        self.socket.bind(("" if SYSTEM is Windows else group, port))
        self.socket.setsockopt(socket.IPPROTO_IP, socket.IP_ADD_MEMBERSHIP, socket.inet_aton(group) + socket.inet_aton(by))
        self.socket.setsockopt(socket.IPPROTO_IP, socket.IP_MULTICAST_IF, socket.inet_aton(by))
        self.said = set()

    def fileno(self):
        return self.socket.fileno()

    def send(self, bytes_):
        self.said.add(bytes_)
        self.socket.sendto(bytes_, self.place)

    def receive(self):
        """What came, but for what it said itself."""
        bytes_ = self.socket.recv(65536)
        return [] if bytes_ in self.said else [bytes_]


def line(port, kind="raw", group=GROUP, via=""):
    return f"qemu-mcast {group}:{port} {via}{kind}"


def pc_on(gate, wire, network=NUMBER, node=PCS[0], kind="raw"):
    return Neighbour(wire, kind, network, node, gate.nodes[network])


def many_pcs():
    """PCs on a group and a DOSBox on another network reach each other by each kind of frame; the PCs hear each other without the gateway."""
    (port,) = free_ports(1)
    for kind in KINDS:
        with Gateway(tunnels(1) + f"network 20 1 1490 {line(port, kind)}\n") as gate:
            assert f"network 00000020 on {line(port, kind)}, node " in gate.lines[1], gate.lines
            one, other = (pc_on(gate, Member(port), 0x20, it, kind) for it in PCS)
            far = Client(gate.ports[0x10])
            for station in one, other:
                both_ways(gate, station, far)
            data = fresh()
            one.say(other.at(), data, node=other.node)
            assert hears(other, data), "a PC doesn't hear another one"


def own_words():
    """What the gateway says comes back to it, since other programs of the machine are to hear it; it takes none of that for a frame."""
    (port,) = free_ports(1)
    with Gateway(tunnels(1) + f"network 20 1 1490 {line(port)}\n") as gate:
        station, far = Station(Member(port), "raw", 0x20, STATION, gate.nodes[0x20]), Client(gate.ports[0x10])
        for _ in range(20):
            assert reaches(far, station)
        assert reaches(station, far)
        report = gate.report()
        assert gate.counted(0x20, "in", report) == 1 and gate.counted(0x20, "own frame", report) == 0, report


def two_kinds():
    """Two networks are on one group by different kinds of frames, and the gateway carries between them."""
    (port,) = free_ports(1)
    text = f"network 20 1 1490 {line(port, 'raw')}\nnetwork 30 1 1490 {line(port, 'llc')}\n"
    with Gateway(text) as gate:
        a = Station(Member(port), "raw", 0x20, PCS[0], gate.nodes[0x20])
        b = Station(Member(port), "llc", 0x30, PCS[1], gate.nodes[0x30])
        assert reaches(a, b) and reaches(b, a)
        a.wire.send(frame("snap", EVERYONE, PCS[0], packet(b.at(), a.at())))
        assert reaches(a, b) and gate.counted(0x20, "another kind of frame") == 1


def on_one_network():
    """PCs on a group and players of DOSBox are on one network: each hears what another one says to all, once."""
    (port,) = free_ports(1)
    with Cable(["dosbox 127.0.0.1:0", line(port, "auto")]) as gate:
        anna, ben = gate.client(), gate.client()
        one, other = (pc_on(gate, Member(port), node=it) for it in PCS)
        for who in (anna, one, ben, other):
            first, second = calls(who), calls(who)
            for listener in (anna, ben, one, other):
                if listener is not who:
                    assert hears(listener, first) and hears(listener, second)
        assert comes_next(ben, anna)


def another_group():
    """What is said to another group at the same port, or to the machine itself, isn't heard."""
    (port,) = free_ports(1)
    with Gateway(tunnels(1) + f"network 20 1 1490 {line(port)}\n") as gate:
        station, far = Station(Member(port), "raw", 0x20, STATION, gate.nodes[0x20]), Client(gate.ports[0x10])
        stranger = Station(Member(port, OTHER), "raw", 0x20, PCS[1], gate.nodes[0x20])
        stranger.say(far.at(), b"to another group")
        stranger.wire.place = HERE, port
        stranger.say(far.at(), b"to the machine")
        assert comes_next(station, far) and gate.counted(0x20, "in") == 1


def taken():
    """Where another program has the group and its port for itself, the gateway doesn't start, and says so."""
    (port,) = free_ports(1)
    with socket.socket(socket.AF_INET, socket.SOCK_DGRAM) as it:
        it.bind((GROUP, port))
        try:
            Gateway(tunnels(1) + f"network 20 1 1490 {line(port)}\n")
        except AssertionError as stop:
            assert f"{line(port)}: can't join the group: {fault_words(errno.EADDRINUSE)}" in str(stop), stop
        else:
            raise AssertionError("it started")


def a_reload_keeps_it():
    """A reload that changes other networks leaves a group as it is; one that names another group joins that."""
    port, later = free_ports(2)
    text = tunnels(1) + "network 20 1 1490 {}\n"
    with Changed(text.format(line(port))) as gate:
        station, far = Station(Member(port), "raw", 0x20, STATION, gate.nodes[0x20]), Client(gate.ports[0x10])
        assert reaches(station, far)
        gate.reload(text.format(line(port)) + "network 30 1 1424 dosbox 127.0.0.1:0\n")
        assert not any("00000020 is" in it for it in gate.lines[2:]), gate.lines
        assert reaches_again(station, far)
        gate.reload(text.format(line(later)))
        gate.told("network 00000020 is up")
        other = Station(Member(later), "raw", 0x20, STATION, gate.nodes[0x20])
        assert reaches_again(other, far)


# ---- Calls that fail ----

# By which a group is joined, spoken to and heard: each with a fault, and how many times it is let fail.
OF_GROUPS = [
    ("socket", errno.EMFILE, 4),
    ("bind", errno.EADDRINUSE, 3),
    ("setsockopt", errno.ENOBUFS, 9),
    ("fcntl", errno.EINVAL, 10),
    ("connect", errno.ENETUNREACH, 1),
    ("getsockname", errno.ENOBUFS, 2),
    ("getifaddrs", errno.ENOMEM, 4),
    ("recvmmsg", errno.ENETDOWN, 3),
    ("send", errno.ENETDOWN, 2),
    ("close", errno.EIO, 2),
]


def goes_on(gate, port):
    """Sees that a PC on the group and a DOSBox hear each other, though not at the first try."""
    client = Client(gate.ports[0x10], registers=False)
    until(lambda: client.is_told(AGAIN), "an answer")
    station = Station(Member(port), "raw", 0x20, STATION, gate.nodes[0x20])
    assert reaches_again(client, station) and reaches_again(station, client)


def each_fails():
    """Each call of the system that a group needs fails once: the gateway doesn't start and says why, or goes on."""
    (port,) = free_ports(1)
    for name, fault, times in OF_GROUPS:
        for which in range(1, times + 1):
            gate = troubled(f"{tunnels(1)}network 20 1 1490 {line(port)}\n", call_of(name), fault, which)
            if gate is not None:
                goes_on(gate, port)
                ends_well(gate, f"{name} {which}")


# ---- Two gateways ----


def comes_once(one, other):
    """Whether what one says to all comes to the other, and not again."""
    data = calls(one)
    if not hears(other, data, AGAIN):
        return False
    return not hears(other, data, COPIES)


def a_loop_is_found():
    """Two gateways of one machine, whose nodes are the same, are both on two groups: one shuts its later link, and nothing goes round."""
    ports = free_ports(2)
    links = [line(port, "raw", group) for port, group in zip(ports, (GROUP, OTHER))]
    with Cable(links) as one, Cable(links) as two:
        assert one.nodes[NUMBER] == two.nodes[NUMBER]
        shut = f"a link of network {NUMBER:08X} is down: {links[1]}: it is one cable with {links[0]}"
        until(lambda: one.report() and two.report() and any(shut in it for it in one.lines + two.lines), "a link that is shut")
        near, far = pc_on(one, Member(ports[0])), pc_on(one, Member(ports[1], OTHER), node=PCS[1])
        until(lambda: comes_once(near, far), "a call that comes once")
        assert not any(is_node_known(it, one.nodes[NUMBER]) for it in (one, two))


def is_node_known(gate, node):
    """Whether a gateway takes a node for a station's."""
    return f"  {node.hex().upper()} at " in gate.report()


def words_of_a_twin():
    """What another gateway with the same node says, but for its probe, is the gateway's own frame: it goes no further."""
    ports = free_ports(2)
    with Cable([line(port, "raw", group) for port, group in zip(ports, (GROUP, OTHER))]) as gate:
        node = gate.nodes[NUMBER]
        near = Station(Member(ports[0]), "raw", NUMBER, node, node)
        far = Station(Member(ports[1], OTHER), "raw", NUMBER, PCS[1], node)
        near.say(address(NUMBER, EVERYONE, GAME), b"as the gateway", node=EVERYONE)
        probe = bytes(PROBE)
        near.say(address(NUMBER, EVERYONE, int.from_bytes(LOOP_SOCKET, "big")), probe, node=EVERYONE)
        heard = far.hear(lambda it: not is_routers(it) and it[30:] in (b"as the gateway", probe))
        assert heard[30:] == probe, heard
        assert gate.counted(NUMBER, "own frame") == 1 and not is_node_known(gate, node)


# ---- By a card ----


def checksum(bytes_):
    total = sum(struct.unpack(f">{len(bytes_) // 2}H", bytes_))
    while total >> 16:
        total = (total & 0xFFFF) + (total >> 16)
    return total ^ 0xFFFF


class Far:
    """A PC at the far end of a card: it hears what leaves there for a group, and speaks from an address of that network."""

    def __init__(self, name, port, own="10.77.0.9", group=GROUP):
        self.socket = socket.socket(socket.AF_PACKET, socket.SOCK_RAW, 0)
        self.socket.setsockopt(socket.SOL_SOCKET, socket.SO_RCVBUF, ROOM)
        self.socket.bind((name, IPV4))
        self.place, self.own, self.lives = (socket.inet_aton(group), port), socket.inet_aton(own), []

    def fileno(self):
        return self.socket.fileno()

    def send(self, bytes_):
        to, port = self.place
        udp = struct.pack(">HHHH", port, port, 8 + len(bytes_), 0) + bytes_
        head = struct.pack(">BBHHHBBH4s4s", 0x45, 0, 20 + len(udp), 0, 0, 1, UDP, 0, self.own, to)
        head = head[:10] + struct.pack(">H", checksum(head)) + head[12:]
        self.socket.send(b"\x01\x00\x5e" + bytes([to[1] & 0x7F]) + to[2:] + STATION + struct.pack(">H", IPV4) + head + udp)

    def receive(self):
        bytes_ = self.socket.recv(65536)[14:]
        if bytes_[9] != UDP or bytes_[16:20] != self.place[0] or bytes_[22:24] != struct.pack(">H", self.place[1]):
            return []
        self.lives.append(bytes_[8])
        return [bytes_[28 : int.from_bytes(bytes_[2:4], "big")]]


def by_a_card():
    """By the card of an address a group is one line with other machines on its cable, and no farther; by no address none of it leaves."""
    near, there = free_ports(2)
    pair("m0", "m1")
    ip("addr", "add", "10.77.0.1/24", "dev", "m0")
    try:
        text = tunnels(1) + f"network 20 1 1490 {line(near, 'raw')}\nnetwork 30 1 1490 {line(there, 'raw', GROUP, 'via 10.77.0.1 ')}\n"
        with Gateway(text) as gate:
            far, beside = pc_on(gate, Far("m1", there), 0x30), pc_on(gate, Member(there, by="10.77.0.1"), 0x30, PCS[1])
            leaks, own = pc_on(gate, Far("m1", near), 0x20), pc_on(gate, Member(near), 0x20, PCS[1])
            client = Client(gate.ports[0x10])
            both_ways(gate, far, client)
            assert reaches(client, beside) and reaches(beside, client) and reaches(client, own)
            assert set(far.wire.lives) == {1}, "it may go farther than the cable"
            leaks.say(client.at(), b"from outside")
            client.say(leaks.at(), b"to outside")
            assert comes_next(far, client) and leaks.hear(lambda it: it[30:] == b"to outside", AGAIN) is None
            assert gate.counted(0x20, "in") == 0
    finally:
        ip("link", "del", "m0")


def a_card_goes():
    """Where the card of an address goes, the link is down, which is told; where another one has it, the group is joined there."""
    (port,) = free_ports(1)
    group = line(port, "raw", GROUP, "via 10.77.0.1 ")
    pair("m0", "m1")
    pair("m2", "m3")
    try:
        with Gateway(tunnels(1) + f"network 30 1 1490 {group}\n") as gate:
            client = Client(gate.ports[0x10])
            assert f": {group}: no card has that address: " in gate.told("network 00000030 is down")
            for near, there in ("m0", "m1"), ("m2", "m3"):
                ip("addr", "add", "10.77.0.1/24", "dev", near)
                assert f": {group}, node " in gate.told("network 00000030 is up")
                ip("link", "set", there, "down")
                assert gate.told("network 00000030 is down").endswith(": its card has no carrier")
                ip("link", "set", there, "up")
                gate.told("network 00000030 is up")
                far = pc_on(gate, Far(there, port), 0x30)
                assert reaches_again(far, client) and reaches_again(client, far)
                ip("addr", "del", "10.77.0.1/24", "dev", near)
                assert ": no card has that address" in gate.told("network 00000030 is down")
    finally:
        for near in "m0", "m2":
            ip("link", "del", near)


def most_groups(number):
    """Sets how many groups a socket may join in this network."""
    with open("/proc/sys/net/ipv4/igmp_max_memberships", "w", encoding="ascii") as it:
        it.write(str(number))


def no_more_groups():
    """Where the system lets nobody join a group, the gateway doesn't start, and says so."""
    (port,) = free_ports(1)
    most_groups(0)
    try:
        Gateway(tunnels(1) + f"network 20 1 1490 {line(port)}\n")
    except AssertionError as stop:
        assert "the system lets nobody join one more group" in str(stop), stop
    else:
        raise AssertionError("it started")
    finally:
        most_groups(USUALLY)


# ---- QEMU ----


def answers(client, pc, node, data):
    """Whether a PC sends a packet back, though not at once: it has to boot."""
    end = time.monotonic() + MOST
    while time.monotonic() < end:
        assert pc.run.poll() is None, "the emulator has ended: " + pc.run.stderr.read().decode()
        client.say(address(NUMBER, node, GAME), data)
        if client.hear(lambda it: it[30:] == data and it[22:28] == node, AGAIN) is not None:
            return True
    return False


def real_pcs():
    """Two PCs in QEMU on one group, by its older words and its newer ones, and a DOSBox' client on the same network: both answer it."""
    (port,) = free_ports(1)
    netdevs = (f"socket,mcast={GROUP}:{port},localaddr={HERE}",
               f"dgram,remote.type=inet,remote.host={GROUP},remote.port={port},local.type=inet,local.host={HERE},local.port={port}")
    folders = [tempfile.TemporaryDirectory() for _ in PCS]
    with Cable(["dosbox 127.0.0.1:0", line(port)]) as gate, folders[0] as first, folders[1] as second:
        client = gate.client()
        with Pc(first, netdevs[0], node=PCS[0]) as one, Pc(second, netdevs[1], node=PCS[1]) as two:
            assert answers(client, one, PCS[0], b"to the first") and answers(client, two, PCS[1], b"to the second")
            assert answers(client, one, PCS[0], bytes(1000))
        stations = gate.report().partition("stations on")[2]
        assert all(f"{it.hex().upper()} at {line(port)}" in stations for it in PCS), stations


def pcs_meet():
    """A PC in QEMU hears another member of its group without the gateway."""
    (port,) = free_ports(1)
    with Cable(["dosbox 127.0.0.1:0", line(port)]) as gate, tempfile.TemporaryDirectory() as folder:
        station = pc_on(gate, Member(port), node=STATION)
        with Pc(folder, f"socket,mcast={GROUP}:{port},localaddr={HERE}", node=PCS[0]) as pc:
            end, data = time.monotonic() + MOST, fresh()
            heard = None
            while heard is None and time.monotonic() < end:
                assert pc.run.poll() is None, "the emulator has ended"
                station.say(address(NUMBER, PCS[0], GAME), data, node=PCS[0])
                heard = station.hear(lambda it: it[30:] == data and it[22:28] == PCS[0], AGAIN)
            assert heard is not None


def has_groups():
    """Whether members of a group on this machine hear each other, which not each system's loopback lets them."""
    (port,) = free_ports(1)
    try:
        one, other = Member(port), Member(port)
        one.send(b"?")
        return bool(select.select([other], [], [], LIMIT)[0])
    except OSError:
        return False


def joins():
    """Whether the gateway can join a group here: an emulator may not hand on all that Linux has for that."""
    (port,) = free_ports(1)
    try:
        with Gateway(tunnels(1) + f"network 20 1 1490 {line(port)}\n"):
            return True
    except AssertionError as stop:
        if not SYSTEM.is_emulated or "can't join the group" not in str(stop):
            raise
    return False


def main():
    if not has_groups():
        left_out("groups of multicast", "none can be joined by 127.0.0.1")
        return Counts()
    if not joins():
        left_out("groups of multicast", f"{SYSTEM.runner[0]} doesn't hand on that a group is joined")
        return Counts()
    counts = tried(many_pcs, own_words, two_kinds, on_one_network, another_group, a_loop_is_found, words_of_a_twin)
    if has_linux("a group that another program has", "Windows lets both have it"):
        counts.run(taken)
    if has_linux("a group and a reload", "the test tells it by a signal"):
        counts.run(a_reload_keeps_it)
    if has_linux("calls that a group needs, and that fail", "trouble.c stands in front of Linux' calls alone"):
        counts.run(each_fails)
    if lacking := missing():
        left_out("PCs in QEMU on a group", f"no {lacking[0]}")
    else:
        counts += tried(real_pcs, pcs_meet)
    if SYSTEM is not Windows:
        counts += tried_inside(__file__, "a group by a card, and cards that go")
    return counts


def inside():
    ip("link", "set", "lo", "up")
    counts = Counts()
    if can(lambda: most_groups(USUALLY)):
        counts.run(no_more_groups)
    else:
        left_out("where the system lets nobody join a group", "its settings can't be changed here")
    if not has_cards():
        left_out("a group by a card, and cards that go", "no card can be made, or the gateway has none")
        return counts
    return counts + tried(by_a_card, a_card_goes)


if __name__ == "__main__":
    begin(main, inside)

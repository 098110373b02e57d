"""Ethernet interfaces and TAPs, in a network of the test's own: nothing of this machine's network is touched."""
import fcntl
import re
import select
import socket
import struct
import subprocess
import sys
import tempfile
import time

from cards import TUN, about, has_cards, has_taps, hears_all_frames, own_address, pair
from frames import KINDS, Packets, Station, Tcp
from lab import AGAIN, GAME, Client, Gateway, address, comes_next, free_ports, is_routers, reaches, tunnels, until
from links import NO_LIMIT, STATION, both_ways, connected, listening, places_joined
from six import has_six
from spaces import Space, ip
from systems import SYSTEM, Arm
from trying import Counts, begin, can, left_out, tried, tried_inside

HEADER = 30  # bytes of an IPX packet's
ANY_PORTS = "32768 60999"  # as Linux begins
TABLE = "77"  # of ways by ports
LOOKS = 5  # seconds, in each of which a link looks where its way leaves


def all_kinds():
    """Hosts on one cable, each by its kind of frame, are four networks: each reaches a DOSBox, and the other hosts."""
    pair("v0", "v1")
    text = tunnels(1) + "".join(f"network {20 + k} 1 1490 interface v0 {kind}\n" for k, kind in enumerate(KINDS))
    with Gateway(text) as gate:
        node = gate.nodes[0x20]
        far = Client(gate.ports[0x10])
        for network in range(0x20, 0x20 + len(KINDS)):
            gate.until(f"network {network:08X} up")
        hosts = [Station(Packets("v1", kind), kind, 0x20 + k, STATION[:5] + bytes([k]), node) for k, kind in enumerate(KINDS)]
        for host in hosts:
            both_ways(gate, host, far)
        for one in hosts:
            for other in hosts:
                assert one is other or reaches(one, other), f"{one.kind} to {other.kind}"
        report = gate.report()
        assert all(gate.counted(0x20 + k, what, report) == 0 for k in range(len(KINDS)) for what in ("no IPX", "another kind of frame"))
    ip("link", "del", "v0")


def a_short_mtu():
    """An interface whose MTU is less than LONGEST: what the MTU and the kind of frame leave room for comes, a byte more is not sent."""
    pair("v0", "v1")
    ip("link", "set", "v0", "mtu", "1400")
    text = tunnels(1) + "".join(f"network {20 + k} 1 1490 interface v0 {kind}\n" for k, kind in enumerate(KINDS))
    with Gateway(text) as gate:
        node = gate.nodes[0x20]
        far = Client(gate.ports[0x10])
        for k, kind in enumerate(KINDS):
            host = Station(Packets("v1", kind), kind, 0x20 + k, STATION, node)
            gate.until(f"network {host.network:08X} up")
            most = 1400 - {"llc": 3, "snap": 8}.get(kind, 0)
            assert reaches(far, host, bytes(most - 30)), kind
            far.say(host.at(), bytes(most - 29))
            gate.until_counted(host.network, "not sent", 1)
            assert comes_next(far, host), kind
    ip("link", "del", "v0")


def a_cable_is_pulled():
    """A cable that is pulled, a card that is switched off, and one that is taken out: the network is down; it comes back."""
    pair("v0", "v1")
    with Gateway(tunnels(1) + "network 20 1 1490 interface v0 raw\n") as gate:
        far = Client(gate.ports[0x10])
        for name, why in (("v1", "no carrier"), ("v0", "it is switched off")):
            ip("link", "set", name, "down")
            assert gate.told("network 00000020 is down").endswith(f": interface v0 raw: {why}")
            gate.until("network 00000020 down")
            ip("link", "set", name, "up")
            gate.told("network 00000020 is up: interface v0 raw, node ")
            gate.until("network 00000020 up")
        ip("link", "del", "v0")
        # (Linux switches it off first, which may be seen)
        while not gate.told("network 00000020 is down").endswith(": interface v0 raw: it isn't there"):
            pass
        gate.until("network 00000020 down")
        pair("v0", "v1")
        gate.told("network 00000020 is up")
        host = Station(Packets("v1", "raw"), "raw", 0x20, STATION, gate.nodes[0x20])
        both_ways(gate, host, far)
    ip("link", "del", "v0")


def a_card_by_the_same_number():
    """A card that was taken away is heard again, also where it has the number that it had: as one has that was lent to a container. On a
    network of several links what is for others is heard there again, too."""
    if not hears_all_frames():
        return
    (port,) = free_ports(1)
    below = f"network 20 1 1490 interface v0 raw\nnetwork 30 1 1424\nlink interface v0 llc\nlink dosbox 127.0.0.1:{port}\n"
    pair("v0", "v1")
    with Gateway(tunnels(1) + below) as gate:
        far, near = Client(gate.ports[0x10]), Client(port, gateway=gate.nodes[0x30])
        for number in (300, 300):
            ip("link", "del", "v0")
            while not gate.told("network 00000020 is down").endswith(": it isn't there"):
                pass
            ip("link", "add", "v0", "index", str(number), "type", "veth", "peer", "name", "v1")
            for name in ("v0", "v1"):
                ip("link", "set", name, "up")
            gate.told("network 00000020 is up")
            both_ways(gate, Station(Packets("v1", "raw"), "raw", 0x20, STATION, gate.nodes[0x20]), far)
            pc = Station(Packets("v1", "llc"), "llc", 0x30, STATION, gate.nodes[0x30])
            until(lambda: pc.say(near.at(), b"to another node", node=near.node) or near.hear(patience=AGAIN), "what is for others")
    ip("link", "del", "v0")


def a_card_comes_later():
    """A card that isn't there yet is waited for, which is told. The gateway's node is its address then."""
    with Gateway(tunnels(1) + "network 20 1 1490 interface v0 raw\nnetwork 21 1 1490 interface v0 llc\n") as gate:
        assert gate.told("network 00000020 is down").endswith(": interface v0 raw: can't open the interface: No such device")
        made_up = gate.nodes[0x20]
        far = Client(gate.ports[0x10])
        pair("v0", "v1")
        assert gate.told("network 00000021 has another node")
        assert gate.told("network 00000021 is up")
        assert made_up != gate.nodes[0x20] == gate.nodes[0x21] == own_address("v0")
        both_ways(gate, Station(Packets("v1", "raw"), "raw", 0x20, STATION, gate.nodes[0x20]), far)
        both_ways(gate, Station(Packets("v1", "llc"), "llc", 0x21, STATION, gate.nodes[0x20]), far)
    ip("link", "del", "v0")


def an_address_comes_later():
    """An address of this machine, and a way to another, that aren't there yet are waited for, and told."""
    text = "network 10 1 1424 dosbox 10.77.0.1:2130\nnetwork 20 1 1490 qemu-udp 0.0.0.0:5001 10.77.0.9:5002 raw\n"
    with Gateway(text) as gate:
        assert gate.told("network 00000010 is down").endswith("can't take the address: Cannot assign requested address")
        assert gate.told("network 00000020 is down").endswith("can't take the addresses: Network is unreachable")
        pair("v0", "v1")
        ip("addr", "add", "10.77.0.1/24", "dev", "v0")
        assert gate.told("network 00000010 is up") and gate.told("network 00000020 is up")
        assert Client(2130, "10.77.0.1", to="10.77.0.1").network == 0x10
    ip("link", "del", "v0")


def sources(wire):
    """The addresses of IPv4 from which the datagrams came that lie there."""
    found = set()
    while select.select([wire], [], [], 0)[0]:
        frame = wire.recv(2000)
        if frame[23] == socket.IPPROTO_UDP:
            found.add(socket.inet_ntoa(frame[26:30]))
    return found


def another_own_address():
    """Where this machine has another address, as of a line that connects anew, or one from which the way leaves, a link at 0.0.0.0 sends by it."""
    pair("v0", "v1")
    ip("addr", "add", "10.77.0.1/24", "dev", "v0")
    ip("neigh", "add", "10.77.0.9", "lladdr", about("v1")["address"], "dev", "v0", "nud", "permanent")
    with Gateway(tunnels(1) + "network 20 1 1490 qemu-udp 0.0.0.0:5001 10.77.0.9:5002 raw\n") as gate:
        gate.until("network 00000020 up")
        far, wire = Client(gate.ports[0x10]), socket.socket(socket.AF_PACKET, socket.SOCK_RAW, socket.htons(0x0800))
        wire.bind(("v1", 0x0800))
        for old, new in (("10.77.0.1/24", "10.77.0.3"), ("10.77.0.3/32", "10.77.0.4"), (None, "10.77.0.5")):
            ip("addr", "add", f"{new}/32", "dev", "v0")
            if old is not None:
                ip("addr", "del", old, "dev", "v0")
            ip("route", "replace", "10.77.0.0/24", "dev", "v0", "src", new)
            sources(wire)
            until(lambda: far.say(address(0x20, STATION, GAME), b"out") or time.sleep(AGAIN) or new in sources(wire), f"it sends by {new}")
            gate.told("network 00000020 is up")
        wire.close()
    ip("link", "del", "v0")


def changed_rule(how, *ports):
    """Makes a rule for ways by ports, or takes it away."""
    ip("rule", how, "ipproto", "udp", *ports, "lookup", TABLE)


def opened_by_ports(*ports):
    """How often a link at 0.0.0.0 is opened again where ways go by ports."""
    changed_rule("add", *ports)
    with Gateway(tunnels(1) + "network 20 1 1490 qemu-udp 0.0.0.0:5001 10.77.0.9:5002 raw\n") as gate:
        gate.until("network 00000020 up")
        time.sleep(LOOKS)
        gate.report()
        again = sum("network 00000020 is down" in it for it in gate.lines)
    changed_rule("del", *ports)
    return again


def a_way_by_ports():
    """Where ways go by ports, a link at 0.0.0.0 stays where it is: by its own port, which no other socket can ask for, it is opened again once."""
    pair("v0", "v1")
    ip("addr", "add", "10.77.0.1/24", "dev", "v0")
    ip("addr", "add", "10.77.0.3/32", "dev", "v0")
    ip("route", "add", "10.77.0.0/24", "dev", "v0", "src", "10.77.0.3", "table", TABLE)
    ip("neigh", "add", "10.77.0.9", "lladdr", about("v1")["address"], "dev", "v0", "nud", "permanent")
    assert opened_by_ports("dport", "5002") == 0
    assert opened_by_ports("sport", "5001") <= 1
    ip("link", "del", "v0")


# Ends with the first long datagram that comes there.
LISTENS = """import socket
it = socket.socket(socket.AF_INET6, socket.SOCK_DGRAM)
it.bind(("fd02::2", 5002))
print("hears", flush=True)
while len(it.recv(2000)) < 1424:
    pass
"""


def a_narrow_way():
    """By IPv6 a long packet crosses a way that is narrower than the card, as a tunnel is, once a router there has said so."""
    between, there = Space(), Space()
    for near, far, space in (("v0", "v1", None), ("w0", "w1", between)):
        (space.ip if space else ip)("link", "add", near, "type", "veth", "peer", "name", far)
        (space.ip if space else ip)("link", "set", far, "netns", str((there if space else between).holder.pid))
    ip("-6", "addr", "add", "fd01::1/64", "dev", "v0", "nodad")
    ip("link", "set", "v0", "up")
    for space, name, own in ((between, "v1", "fd01::2"), (between, "w0", "fd02::1"), (there, "w1", "fd02::2")):
        space.ip("link", "set", name, "mtu", "1500" if name == "v1" else "1280", "up")
        space.ip("-6", "addr", "add", f"{own}/64", "dev", name, "nodad")
    between.set("ipv6/conf/all/forwarding", 1)
    ip("-6", "route", "add", "fd02::/64", "via", "fd01::2")
    there.ip("-6", "route", "add", "fd01::/64", "via", "fd02::1")
    with subprocess.Popen([*there.within, sys.executable, "-c", LISTENS], stdout=subprocess.PIPE) as listener:
        listener.stdout.readline()
        with Gateway(tunnels(1) + "network 20 1 1490 qemu-udp [fd01::1]:5001 [fd02::2]:5002 raw\n") as gate:
            gate.until("network 00000020 up")
            far, data = Client(gate.ports[0x10]), bytes(1424 - HEADER)
            try:
                until(lambda: far.say(address(0x20, STATION, GAME), data) or time.sleep(AGAIN) or listener.poll() is not None, "a long packet comes")
            finally:
                listener.kill()
    ip("link", "del", "v0")
    for it in (between, there):
        it.close()


def two_gateways():
    """Two gateways on one cable join the networks of two places."""
    pair("v0", "v1")
    places_joined("interface v0 raw", "interface v1 raw")
    ip("link", "del", "v0")


def a_new_address():
    """A card's new address is learned: stations find the gateway there, and its frames leave with it."""
    pair("v0", "v1")
    new = bytes.fromhex("02005E000077")
    with Gateway(tunnels(1) + "network 20 1 1490 interface v0 raw\nnetwork 30 1 1490 qemu-tcp listen 0 raw\n") as gate:
        far = Client(gate.ports[0x10])
        assert gate.told("network 00000030 is down")
        both_ways(gate, Station(Packets("v1", "raw"), "raw", 0x20, STATION, gate.nodes[0x20]), far)
        ip("link", "set", "v0", "address", new.hex(":"))
        assert gate.told("network 00000020 has another node") and gate.nodes[0x20] == new
        host = Station(Packets("v1", "raw"), "raw", 0x20, STATION, new)
        both_ways(gate, host, far)
        far.say(host.at(), b"whose")
        while not (heard := host.wire.receive()[0]).rstrip(bytes(1)).endswith(b"whose"):
            pass
        assert heard[6:12] == new
        report = gate.report()
        assert "network 00000030 down" in report and gate.counted(0x20, "own frame", report) == 0
        assert not any("is down" in it or "is up" in it for it in gate.lines[gate.looked :]), "nothing else changed"
    ip("link", "del", "v0")


def let_take(ports):
    """Lets sockets that ask for any port take these alone."""
    with open("/proc/sys/net/ipv4/ip_local_port_range", "w", encoding="ascii") as it:
        it.write(ports)


def meets_itself(port):
    """Whether the system connects a socket with itself."""
    with socket.socket() as it:
        it.setsockopt(socket.SOL_SOCKET, socket.SO_LINGER, bytes([1, 0, 0, 0, 0, 0, 0, 0]))
        it.connect(("127.0.0.1", port))
        return it.getsockname() == it.getpeername()


def nobody_but_itself():
    """Where nobody listens the gateway is down, though the system would connect it with itself; it is up once somebody listens."""
    port = 40000
    let_take(f"{port} {port}")
    assert meets_itself(port)
    with Gateway(f"network 20 1 1490 qemu-tcp connect {port} raw\n") as gate:
        assert gate.told("can't connect").endswith(f"127.0.0.1:{port} raw: can't connect: Connection refused")
        until(lambda: "report after 2 s" in gate.report(), "two seconds")
        assert not any("is up" in it for it in gate.lines)
        let_take(ANY_PORTS)
        connection, _ = listening(port).accept()
        assert Station(Tcp(connection), "raw", 0x20, STATION, gate.nodes[0x20]).hear(is_routers)


def a_dead_pc():
    """A PC whose machine is gone without a word gives way after a minute (here 3 seconds), whether or not something was under way."""
    if SYSTEM is Arm:
        left_out("a PC that is gone without a word", "under qemu-arm it doesn't give way; with 32 bits of this machine's own it does")
        return
    pair("v0", "v1")
    ways = (False, True)
    if SYSTEM.is_emulated:
        left_out("a PC that is gone while something is under way", f"{SYSTEM.runner[0]} doesn't hand on what Linux knows of a connection")
        ways = (False,)
    text = "network 20 1 1490 qemu-tcp listen 0 raw\nnetwork 30 1 1490 interface v0 raw\n"
    with Gateway(text, SYSTEM.troubled, environment={"TROUBLE_HASTE": "20"}) as gate:
        host = Station(Packets("v1", "raw"), "raw", 0x30, STATION, gate.nodes[0x30])
        for is_under_way in ways:
            station, _ = connected(gate, 0x20, "raw")
            assert reaches(host, station) and gate.told("network 00000020 is up")
            ip("link", "set", "lo", "down")
            try:
                if is_under_way:
                    host.say(station.at(), b"is lost")
                assert gate.told("network 00000020 is down").endswith("nobody is connected")
            finally:
                ip("link", "set", "lo", "up")
    ip("link", "del", "v0")


def as_machine(number):
    """The words that start a program on a machine of another number."""
    return ["unshare", "-m", "sh", "-c", 'mount --bind "$0" /etc/machine-id && exec "$@"', number]


def made_up_nodes():
    """A made-up node stays from start to start, and is another on another machine, network or link; it is a local one."""
    machines = []
    for letter in "ab":
        machines.append(tempfile.NamedTemporaryFile("w", encoding="ascii"))
        machines[-1].write(letter * 32 + "\n")
        machines[-1].flush()

    def nodes(machine):
        text = "".join(f"network {n} 1 1490 qemu-tcp {it} raw\n" for n, it in ((20, "listen 0"), (21, "listen 0"), (22, "connect 9")))
        with Gateway(text, before=as_machine(machines[machine].name)) as gate:
            return list(gate.nodes.values())

    first, again, other = nodes(0), nodes(0), nodes(1)
    assert first == again and len({*first, *other}) == 6, (first, again, other)
    assert all(it[0] == 2 for it in first + other)


def behind_tap(gate, kind, network):
    return Station(Packets("ipx0", kind), kind, network, STATION, gate.nodes[network])


def a_tap():
    """A TAP: the gateway makes it, switches it on, and is another station on its cable; two kinds of frames share it."""
    with Gateway(tunnels(1) + "network 20 1 1490 tap ipx0 raw\nnetwork 30 1 1490 tap ipx0 snap\n") as gate:
        far = Client(gate.ports[0x10])
        gate.until("network 00000030 up")
        a, b = behind_tap(gate, "raw", 0x20), behind_tap(gate, "snap", 0x30)
        both_ways(gate, a, far)
        both_ways(gate, b, far)
        assert reaches(a, b) and reaches(b, a)
        ip("link", "set", "ipx0", "down")
        assert gate.told("network 00000020 is down").endswith(": tap ipx0 raw: it is switched off")
        gate.until("network 00000020 down")
        ip("link", "set", "ipx0", "up")
        assert gate.told("network 00000020 is up")
        gate.until("network 00000020 up")
        both_ways(gate, behind_tap(gate, "raw", 0x20), far)
        numbers = {index for index, _ in socket.if_nameindex()}
        ip("link", "del", "ipx0")
        until(lambda: any(name == "ipx0" and index not in numbers for index, name in socket.if_nameindex()), "it is made again")
        gate.until("network 00000020 up")
        both_ways(gate, behind_tap(gate, "raw", 0x20), far)


def seconds_of(gate):
    return int(re.search(r"(?m)^report after (\d+) s$", gate.report())[1])


def let_pass(gate, seconds):
    """Waits until some more seconds of the gateway's have passed."""
    end = seconds_of(gate) + seconds
    until(lambda: time.sleep(AGAIN) or seconds_of(gate) >= end, f"{seconds} seconds")


def what_waits_on_a_card():
    """Frames that wait on a card while the gateway stands still are heard: a thousand, as of neighbours with full tables and of players."""
    pair("v0", "v1")
    with Gateway(tunnels(1, extra=NO_LIMIT) + "network 20 1 1490 interface v0 raw\n") as gate:
        far = Client(gate.ports[0x10])
        gate.until("network 00000020 up")
        host = Station(Packets("v1", "raw"), "raw", 0x20, STATION, gate.nodes[0x20])
        both_ways(gate, host, far)
        before = gate.counted(0x20, "in")
        with gate.run.halted():
            for _ in range(1000):
                host.say(far.at(), bytes(400))
        gate.until_counted(0x20, "in", before + 1000)
    ip("link", "del", "v0")


# What makes an interface of IP; and a packet of IP, from 129.55.0.0, that would be a frame of IPX if it were Ethernet's.
TUNSETIFF, IFF_TUN, IFF_NO_PI = 0x400454CA, 1, 0x1000
LIKE_A_FRAME = b"\x45\0\0\x50".ljust(12, b"\0") + b"\x81\x37" + b"\xff\xff\0\x1e".ljust(66, b"\0")


def another_kind_of_card():
    """An interface that isn't Ethernet in the place of a card that was taken out isn't heard, which is told; a card is, later."""
    pair("v0", "v1")
    with Gateway(tunnels(1) + "network 20 1 1490 interface v0 raw\n") as gate:
        far = Client(gate.ports[0x10])
        gate.until("network 00000020 up")
        ip("link", "del", "v0")
        with open(TUN, "r+b", buffering=0) as tun:
            fcntl.ioctl(tun, TUNSETIFF, struct.pack("16sH22x", b"v0", IFF_TUN | IFF_NO_PI))
            ip("link", "set", "v0", "up")
            until(lambda: gate.told("network 00000020 is down").endswith(": it isn't Ethernet"), "it is told")
            heard = gate.counted(0x20, "in")
            for _ in range(3):
                let_pass(gate, 1)
                tun.write(LIKE_A_FRAME)
            assert gate.counted(0x20, "in") == heard
        pair("v0", "v1")
        gate.told("network 00000020 is up")
        both_ways(gate, Station(Packets("v1", "raw"), "raw", 0x20, STATION, gate.nodes[0x20]), far)
    ip("link", "del", "v0")


def inside():
    """In the network of its own."""
    ip("link", "set", "lo", "up")
    counts = Counts()
    if subprocess.run([*as_machine(__file__), "true"], stderr=subprocess.DEVNULL, check=False).returncode == 0:
        counts.run(made_up_nodes)
    else:
        left_out("nodes of other machines", "no machine's number can be put in the place of this one's")
    if can(lambda: let_take(ANY_PORTS)):
        counts.run(nobody_but_itself)
    else:
        left_out("a connection with itself", "the ports that the system gives can't be set")
    if has_cards():
        if can(lambda: changed_rule("add", "sport", "1")):
            changed_rule("del", "sport", "1")
            counts.run(a_way_by_ports)
        else:
            left_out("ways by ports", "this system has no such rules")
        counts += tried(all_kinds, a_short_mtu, a_cable_is_pulled, a_card_by_the_same_number, a_card_comes_later, an_address_comes_later,
                        another_own_address, two_gateways, a_new_address, what_waits_on_a_card, a_dead_pc, *((a_narrow_way,) if has_six() else ()))
    else:
        left_out("interfaces", "no pair of them can be made")
    if has_taps():
        return counts + tried(a_tap, *((another_kind_of_card,) if has_cards() else ()))
    left_out("TAPs", "the device for them can't be opened")
    return counts


def main():
    return tried_inside(__file__, "interfaces and TAPs")


if __name__ == "__main__":
    begin(main, inside)

"""Clients of DOSBox' tunnel, by sockets on this machine's own addresses."""
import os
import re
import select
import socket
import struct
import subprocess
import time

from lab import (AGAIN, COOKIE, EVERYONE, GAME, GATEWAY, KEYED, LIMIT, NOBODY, RIP, ROOM, SAP, TUNNEL, Client, Gateway, address, comes_next,
                 free_ports, is_ping, is_routers, packet, played_anew, reaches, reaches_again, registration, rip_response, sap_response, socket_of,
                 tunnels, until, until_wine_lets_go)
from systems import SYSTEM, TOP, Arm, Windows
from trying import begin, left_out, tried

REMEMBERED, REMEMBERED_FOR = 64, 10  # registrations of one address; seconds for which they are
SPOKEN = 6  # words of a client that was silent
DECODER = os.path.join(TOP, "crates", "ipxr", "out", "ipxr")  # (where it is built)
IP_PKTINFO = 8  # as Linux numbers it


def two_clients():
    """Two clients on two networks hear each other, unicast and type 20."""
    with Gateway(tunnels(2)) as gate:
        a, b = Client(gate.ports[0x10]), Client(gate.ports[0x20])
        assert (a.network, b.network) == (0x10, 0x20)
        there = reaches(a, b)
        assert there is not None and there[4] == 1, "it has crossed one router"
        assert reaches(b, a)
        a.say(address(0, EVERYONE, GAME), bytes(32) + b"all", kind=20)
        heard = b.hear()
        assert heard is not None and heard[30:34] == struct.pack(">I", 0x10) and heard[62:] == b"all"
        assert comes_next(b, a), "nothing comes back to who sent it"


def three_clients():
    """Of three clients of one network each hears the others' broadcasts, and nobody else's packets."""
    with Gateway(tunnels(1)) as gate:
        a, b, c = (Client(gate.ports[0x10]) for _ in range(3))
        a.say(address(0, EVERYONE, GAME), b"one")
        assert b.hear()[30:] == b"one" and c.hear()[30:] == b"one"
        a.say(address(0xFFFFFFFF, EVERYONE, GAME), b"two")
        assert b.hear()[30:] == b"two" and c.hear()[30:] == b"two"
        a.say(b.at(), b"three")
        assert b.hear()[30:] == b"three" and comes_next(b, c) and comes_next(b, a)


def seventy_clients():
    """Where there is room for 64 clients, of 70 the first 64 are there and stay, and the others aren't answered."""
    with Gateway(tunnels(1, extra="clients 64\nstrangers none\n")) as gate:
        clients = [Client(gate.ports[0x10]) for _ in range(64)]
        for _ in range(6):
            late = Client(gate.ports[0x10], registers=False)
            late.send(registration())
            late.network = 0x10
            late.say(clients[0].at(), b"late")
        assert all(comes_next(one, other) for one, other in zip(clients, clients[1:] + clients[:1]))
        gate.until_counted(0x10, "no room for a client", 6)
        gate.until_counted(0x10, "source of another", 6)
        assert late.heard.empty() and gate.counted(0x10, "clients") == 64


def of_one_address():
    """Of one address no more come than there may be; others come all the same."""
    with Gateway(tunnels(1, extra="clients 10 2\n")) as gate:
        a, b = Client(gate.ports[0x10]), Client(gate.ports[0x10])
        third = Client(gate.ports[0x10], registers=False)
        third.send(registration())
        gate.until_counted(0x10, "no room for a client", 1)
        other = Client(gate.ports[0x10], host="127.0.0.2")
        assert reaches(a, other) and reaches(other, b) and third.heard.empty()


def is_answer(bytes_):
    """Whether it is the gateway's answer to a registration."""
    return len(bytes_) == 30 and socket_of(bytes_) == TUNNEL and bytes_[22:28] == GATEWAY


class House:
    """256 clients at a port, each with an address of its own."""

    SIZE, AT_ONCE = 256, 64

    def __init__(self, port, number):
        self.udp = socket.socket(socket.AF_INET, socket.SOCK_DGRAM)
        self.udp.setsockopt(socket.SOL_SOCKET, socket.SO_RCVBUF, ROOM)
        self.udp.setsockopt(socket.IPPROTO_IP, IP_PKTINFO, 1)
        self.udp.settimeout(LIMIT)
        self.udp.bind(("0.0.0.0", 0))
        self.to, self.number = ("127.0.0.1", port), number
        self.nodes = {}

    def host(self, k):
        return bytes([127, 10 + self.number, 0, k])

    def send(self, k, bytes_):
        source = struct.pack("i4s4s", 0, self.host(k), bytes(4))
        self.udp.sendmsg([bytes_], [(socket.IPPROTO_IP, IP_PKTINFO, source)], 0, self.to)

    def say(self, to, data):
        """The first says something."""
        self.send(0, packet(to, address(0, self.nodes[0], GAME), data))

    def hear(self, wanted, count, of=range(SIZE)):
        """Waits until so many of some have heard what is wanted; pings are answered meanwhile. Returns who they are."""
        found, end = set(), time.monotonic() + LIMIT
        while len(found) < count:
            k, bytes_ = self.receive()
            if wanted(bytes_) and k in of:
                found.add(k)
            assert time.monotonic() < end, f"{count - len(found)} of {count} hear nothing"
        return found

    def receive(self):
        """Who hears the next packet, and what it is. A ping is answered, and an answer tells a node."""
        bytes_, about, _, _ = self.udp.recvmsg(2048, 256)
        k = about[0][2][11]
        if is_ping(bytes_):
            self.send(k, packet(address(0, bytes_[22:28], TUNNEL), address(0, self.nodes[k], TUNNEL), kind=0))
            self.send(k, self.word(k))  # (its first one may be lost)
        elif is_answer(bytes_):
            self.nodes[k] = bytes_[10:16]
        return k, bytes_

    def word(self, k):
        """What one says to itself."""
        return packet(address(0, self.nodes[k], GAME), address(0, self.nodes[k], GAME), b"I")

    def enter(self):
        """All come in, some at once."""
        for first in range(0, self.SIZE, self.AT_ONCE):
            some = range(first, first + self.AT_ONCE)
            for k in some:
                self.send(k, registration())
            while not self.nodes.keys() >= set(some):
                self.hear(is_answer, 1, some)
            for k in some:
                self.send(k, self.word(k))
            assert self.hear(lambda it: it[30:] == b"I", self.AT_ONCE, some) == set(some)


class Deaf(Client):
    """A DOSBox to which some pings are lost."""

    def __init__(self, port, lost, **how):
        self.lost = lost
        super().__init__(port, registers=False, **how)

    def answer(self, ping):
        self.lost -= 1
        if self.lost < 0:
            super().answer(ping)


def seconds_of(gate):
    """The seconds that have passed since a gateway's start."""
    return int(re.search(r"report after (\d+) s$", gate.report(), re.M)[1])


def a_ping_is_lost():
    """Who registers once, and says nothing, comes in though the first ping is lost. It isn't pinged a third time, but for its first word."""
    with Gateway(tunnels(1)) as gate:
        boxes = [Deaf(gate.ports[0x10], lost) for lost in (0, 1, 2)]
        for box in boxes:
            box.ask()
        gate.until_counted(0x10, "clients", 2)
        speaker = Client(gate.ports[0x10])
        speaker.say(address(0, EVERYONE, GAME), b"to all")
        assert all(box.hear()[30:] == b"to all" for box in boxes[:2])
        second = seconds_of(gate)
        until(lambda: seconds_of(gate) >= second + 4, "four seconds more")
        assert boxes[2].pings == 2 and gate.counted(0x10, "clients") == 3
        boxes[2].say(boxes[2].at(), b"I am here")
        gate.until_counted(0x10, "clients", 4)


def many_pings_are_lost():
    """70 of one address that answer no ping leave room for one of another, to whom the first ping is lost."""
    with Gateway(tunnels(1, extra="strangers none\n")) as gate:
        crowd = [Deaf(gate.ports[0x10], 9, host="127.0.0.2") for _ in range(REMEMBERED + 6)]
        for box in crowd:
            box.ask()
        for _ in range(3):
            for box in crowd:
                box.send(registration())
        box = Deaf(gate.ports[0x10], 1, host="127.0.0.3")
        box.ask()
        gate.until_counted(0x10, "clients", 1)
        second = seconds_of(gate)
        until(lambda: seconds_of(gate) >= second + 2, "two seconds more")
        assert sum(it.pings for it in crowd) == 2 * REMEMBERED, "who is remembered is pinged twice"


def catch_up(houses):
    """They hear all that has come while others came in: who doesn't answer pings leaves, and what comes next needs room."""
    while ready := select.select([it.udp for it in houses], [], [], 0)[0]:
        for house in houses:
            if house.udp in ready:
                house.receive()


@played_anew
def four_thousand_clients():
    """As many clients as there may be, of an address each, are there, and one broadcast comes to all."""
    if SYSTEM is Arm:
        left_out("4,096 clients", "under qemu-arm the gateway doesn't read as much as comes from them")
        return
    with Gateway(tunnels(1, extra="clients 4096\nrate none\nstrangers none\n")) as gate:
        houses = [House(gate.ports[0x10], number) for number in range(16)]
        for house in houses:
            house.enter()
            catch_up(houses)
        assert gate.counted(0x10, "clients") == 16 * House.SIZE == 4096
        late = Client(gate.ports[0x10], registers=False)
        late.send(registration())
        gate.until_counted(0x10, "no room for a client", 1)
        catch_up(houses)
        houses[0].say(address(0, EVERYONE, GAME), b"all")
        for house in houses:
            heard = house.hear(lambda it: it[30:] == b"all", House.SIZE - (house is houses[0]))
            assert heard == set(range(house is houses[0], House.SIZE)), "each but who says it"


def allowed():
    """Who isn't among the addresses that are allowed, or trusted, is not answered."""
    extra = "allow 127.0.0.8/29 127.1.0.1\nallow 127.2.0.0/16\ntrust 127.3.0.1\n"
    with Gateway(tunnels(1, extra=extra)) as gate:
        for k, host in enumerate(("127.0.0.7", "127.0.0.16", "127.1.0.2", "127.3.0.2", "127.1.255.255"), 1):
            stranger = Client(gate.ports[0x10], host=host, registers=False)
            stranger.send(registration())
            gate.until_counted(0x10, "address not allowed", k)
            assert stranger.heard.empty()
        a = Client(gate.ports[0x10], host="127.0.0.8")
        for host in ("127.0.0.15", "127.1.0.1", "127.2.255.255", "127.3.0.1"):
            assert reaches(a, Client(gate.ports[0x10], host=host)), host


def trusted():
    """A program that answers no ping is a client by its first word, where its address is trusted; by registering alone it isn't."""
    with Gateway(tunnels(1, extra="trust 127.0.0.2\n")) as gate:
        a = Client(gate.ports[0x10])
        mute = Client(gate.ports[0x10], host="127.0.0.2", registers=False, answers=False)
        mute.ask()
        assert gate.counted(0x10, "clients") == 1
        assert reaches(mute, a) and reaches(a, mute)
        report = gate.report()
        for client, told in ((mute, "trusted, heard"), (a, "answered")):
            found = re.search(rf"(?m)^    {client.node.hex().upper()} at {client.where()}, {told} (\d+) s ago$", report)
            assert found and int(found[1]) <= LIMIT, report


def trusted_and_silent():
    """Whoever is trusted and was silent is pinged until they speak, and no longer."""
    with Gateway(tunnels(1, extra="trust 127.0.0.2\n")) as gate:
        mute = Client(gate.ports[0x10], host="127.0.0.2", registers=False, answers=False)
        mute.ask()
        mute.say(mute.at(), b"I am here")
        until(lambda: mute.pings >= 3, "pings of one who is silent")
        until(lambda: seconds_of(gate) > REMEMBERED_FOR, "its registration is forgotten")
        mute.say(mute.at(), b"I am still here")
        time.sleep(AGAIN)
        before = mute.pings
        for _ in range(SPOKEN):
            mute.say(mute.at(), b"and here")
            time.sleep(AGAIN)
        assert mute.pings == before, "who speaks is pinged"


def strangers():
    """Who doesn't name the node of its place is no client: nobody hears it, and it gets nothing, whatever it names and to whom."""
    with Gateway(tunnels(2)) as gate:
        a, far = Client(gate.ports[0x10]), Client(gate.ports[0x20])
        mute = Client(gate.ports[0x10], registers=False)
        count = 0
        for node in mute.node, a.node, bytes([KEYED]) + os.urandom(5), NOBODY, EVERYONE, GATEWAY:
            for to in a.at(), far.at(), address(0, EVERYONE, GAME), address(0, EVERYONE, TUNNEL), address(0, bytes([COOKIE]) + os.urandom(5), TUNNEL):
                mute.send(packet(to, address(0, node, GAME), b"?"))
                count += 1
        gate.until_counted(0x10, "source of another", count)
        a.say(address(0, EVERYONE, GAME), b"all")
        assert comes_next(far, a) and comes_next(a, far)
        assert gate.counted(0x10, "clients") == 1 and mute.heard.empty()


def by_address():
    """With `nodes by-address` who names the six bytes of his place is pinged, and a client by his answer; without it he says nothing. By either
    node one is a client, but not by both at one time."""
    for below, is_client in ("nodes by-address\n", True), ("", False):
        with Gateway(tunnels(1, extra=below)) as gate:
            a, old = Client(gate.ports[0x10]), Client(gate.ports[0x10], registers=False)
            old.network = 0x10
            if not is_client:
                old.say(old.at(), b"?")
                gate.until_counted(0x10, "source of another", 1)
                assert old.heard.empty() and gate.counted(0x10, "clients") == 1
                continue
            old.say(a.at(), b"a stranger's")
            assert reaches_again(old, old) and comes_next(a, old) and comes_next(old, a)
            assert gate.told(f" client {old.node.hex().upper()} comes to 00000010, ").endswith(f", {old.where()}")
            by_place = old.node
            old.send(registration())
            gate.until_counted(0x10, "no room for a client", 1)
            assert comes_next(a, old) and old.told == 0 and by_place == old.node


def allowed_is_not_trusted():
    """An address that is allowed isn't trusted: a client there has to answer pings."""
    with Gateway(tunnels(1, extra="allow 127.0.0.0/8\ntrust 127.0.0.3\n")) as gate:
        for host, told in ("127.0.0.1", "answered"), ("127.0.0.2", "answered"), ("127.0.0.3", "trusted, heard"):
            client = Client(gate.ports[0x10], host=host)
            assert f"    {client.node.hex().upper()} at {client.where()}, {told} " in gate.report()


def who_comes_and_leaves():
    """A line tells who comes, without --log too, and the report who is there."""
    with Gateway(tunnels(1)) as gate:
        client = Client(gate.ports[0x10])
        node, where = client.node.hex().upper(), client.where()
        assert gate.told(f" client {node} comes to 00000010, ").endswith(f", {where}")
        assert re.search(rf"(?m)^  clients: 1 of 256\n    {node} at {where}, answered \d+ s ago$", gate.report())


def shares():
    """What the clients of a network advertise has a share of the tables, as its line says it, or 64 routes and 32 services."""
    for words, routes, services in ("", 64, 32), ("70 0", 70, 0):
        with Gateway(tunnels(1, shares=words)) as gate:
            a = Client(gate.ports[0x10])
            for first in range(0, 100, 50):
                a.send(rip_response(0x10, a.node, [(0x1000 + first + k, 1, 2) for k in range(50)]))
            for first in range(0, 42, 7):
                entries = [(4, f"S{first + k:02}", 0x1000, bytes(5) + b"\1", 0x451, 2) for k in range(7)]
                a.send(sap_response(0x10, a.node, entries))
            assert reaches(a, a)
            report = gate.report()
            assert f"routes: {routes}\n" in report and f"services: {services}\n" in report, report


def says_to_routers(client, to):
    """A client says to routers of a network, which it calls its own, that it has a route and a service."""
    route = struct.pack(">HIHH", 2, 0x77, 1, 2)
    service = struct.pack(">HH48sI6sHH", 2, 4, b"FALSE", 0x77, client.node, 0x451, 1)
    client.send(packet(to + struct.pack(">H", RIP), address(0, client.node, RIP), route, kind=1))
    client.send(packet(to + struct.pack(">H", SAP), address(0, client.node, SAP), service))


def routers_elsewhere():
    """A client advertises nothing to routers of another network, where it would pass for a neighbour: it is dropped, and counted."""
    here, there = free_ports(2)
    text = "network {} 1 1424 dosbox 127.0.0.1:0\nnetwork 20 1 1490 qemu-udp {} {} raw\n"
    with Gateway(text.format(10, here, there)) as one, Gateway(text.format(30, there, here)) as other:
        one.until("\n  00000030 hops 1 ")
        a, b, far = Client(one.ports[0x10]), Client(one.ports[0x10]), Client(other.ports[0x30])
        for network, node in ((0x20, other.nodes[0x20]), (0x20, EVERYONE), (0x20, one.nodes[0x20]), (0x30, other.nodes[0x30]),
                              (0x30, EVERYONE), (0x99, b.node)):
            says_to_routers(a, struct.pack(">I6s", network, node))
        assert comes_next(a, far), "what isn't for routers gets there"
        report = other.report()
        assert "\n  00000077 " not in report and "services: 0\n" in report, report
        report = one.report()
        assert one.counted(0x10, "for far routers", report) == 12 and "\n      dropped: 12 for the router\n" in report, report
        assert comes_next(a, b), "nor do clients of its own network get any of it"
        for network in (0, 0x10):
            says_to_routers(a, struct.pack(">I6s", network, EVERYONE))
        one.until("\n  00000077 hops 1 ")
        assert "services: 1\n" in one.until("routes: 2\n")
        assert one.counted(0x10, "for far routers") == 12
        other.until("\n  00000077 hops 2 ")
        for socket in (RIP, SAP):
            a.send(packet(address(0x10, EVERYONE, socket), address(0, a.node, socket), bytes(4) + struct.pack(">HIHH", 2, 0x78, 1, 2), kind=20))
        assert comes_next(a, far), "nor does it by type 20, which goes to all networks"
        assert one.counted(0x10, "for far routers") == 14


def heard_again():
    """Two clients, whose gateway is killed and started again. Returns whether it could start."""
    with Gateway("".join(f"network {n} 1 1424 dosbox {port}\n" for n, port in zip((10, 20), free_ports(2)))) as gate:
        a, b = Client(gate.ports[0x10]), Client(gate.ports[0x20])
        assert reaches(a, b)
        if not gate.starts_again():
            return False
        for client in a, b:
            client.say(address(0, EVERYONE, GAME), b"here")
            gate.until_counted(client.network, "clients", 1)
        assert reaches(a, b) and reaches(b, a)
        return True


def starts_again():
    """A gateway that is killed and started again hears its clients, who don't register again, once they have answered a ping."""
    if SYSTEM is Windows:
        left_out("what a gateway hears that is started again", "Windows keeps no key of nodes")
    else:
        until_wine_lets_go(heard_again)


def control_is_cleared():
    """What a program left in transport control is cleared, so that type 4 and type 20 get through."""
    with Gateway(tunnels(2)) as gate:
        a, b = Client(gate.ports[0x10]), Client(gate.ports[0x20])
        assert reaches(a, b, control=165)[4] == 1
        a.say(address(0, EVERYONE, GAME), bytes(32) + b"all", kind=20, control=200)
        assert b.hear()[4] == 1


def false_sources():
    """Who names another's node, or another's network, as source is not heard, and counted."""
    with Gateway(tunnels(2)) as gate:
        a, b, c = Client(gate.ports[0x10]), Client(gate.ports[0x20]), Client(gate.ports[0x10])
        a.send(packet(b.at(), c.at(), b"c?"))
        a.send(packet(b.at(), address(0x99, a.node, GAME), b"c?"))
        a.send(packet(b.at(), address(0x10, GATEWAY, GAME), b"c?"))
        assert comes_next(a, b)
        assert gate.counted(0x10, "source of another") == 3
        stranger = Client(gate.ports[0x10], registers=False)
        stranger.send(packet(b.at(), c.at(), b"c?"))
        assert comes_next(a, b) and gate.counted(0x10, "clients") == 2


def is_of_pings(bytes_):
    """Whether it is for the tunnel's socket, and no ping of the gateway's own."""
    return socket_of(bytes_) == TUNNEL and not is_ping(bytes_)


def is_of_clients_pings(bytes_):
    """The same, and no answer of the gateway's either."""
    return is_of_pings(bytes_) and bytes_[22:28] != GATEWAY


def ping():
    """IPXNET PING is answered by the gateway, and handed to the other clients."""
    with Gateway(tunnels(1)) as gate:
        a, b = Client(gate.ports[0x10]), Client(gate.ports[0x10])
        a.send(packet(address(0, EVERYONE, 2), a.at(2), kind=0))
        answer = a.hear(is_of_pings)
        assert answer is not None and answer[22:28] == GATEWAY
        assert b.hear(is_of_clients_pings)[22:28] == a.node
        b.send(packet(address(0, a.node, 2), b.at(2), kind=0))
        assert a.hear(is_of_clients_pings)[22:28] == b.node


def all_sizes():
    """Datagrams of 0 to 65,507 bytes: what is too long is dropped and counted, and padding doesn't travel on."""
    with Gateway(tunnels(2)) as gate:
        a, b = Client(gate.ports[0x10]), Client(gate.ports[0x20])
        for size in (0, 1, 17, 18, 29):
            a.send(packet(b.at(), a.at())[:size])
        a.send(packet(b.at(), a.at(), length=29))
        a.send(packet(b.at(), a.at(), length=31))
        assert comes_next(a, b) and gate.counted(0x10, "no IPX") == 7
        for size in (30, 31, 576, 1423, 1424):
            assert len(reaches(a, b, os.urandom(size - 30))) == size
        for size in (1425, 2047, 2048, 2049, 9000, 65507):
            a.say(b.at(), bytes(size - 30))
        assert comes_next(a, b) and gate.counted(0x10, "longer than the link carries") == 6
        a.send(packet(b.at(), a.at(), b"padded", length=34) + bytes(20))
        assert b.hear()[30:] == b"padd"


def padding():
    """Bytes behind a packet's length stay behind: what is handed on, extended or routed has its length, and the router gets no more."""
    with Gateway(tunnels(2, extra="extend 4003\n"), options=["--log"]) as gate:
        a, b, c = Client(gate.ports[0x10]), Client(gate.ports[0x20]), Client(gate.ports[0x10])
        for to, hearers in (c.at(), [c]), (address(0, EVERYONE, GAME), [b, c]), (b.at(), [b]):
            a.send(packet(to, a.at(), b"padded") + bytes(20))
            for heard in (it.hear() for it in hearers):
                assert heard[30:] == b"padded", heard.hex()
        gate.report()
        lengths = re.findall(r"(?m) in 00000010 .* length (\d+): ", "\n".join(gate.lines))
        assert lengths[-3:] == ["36"] * 3, "what the router, or another client, was given"


def nobody_there():
    """A packet for a node that nobody has, and one for a network that isn't there, are dropped and counted."""
    with Gateway(tunnels(2)) as gate:
        a, b = Client(gate.ports[0x10]), Client(gate.ports[0x20])
        a.say(address(0x10, b"\x7f\0\0\1\0\1", GAME), b"?")
        a.say(address(0x20, b"\x7f\0\0\1\0\1", GAME), b"?")
        a.say(address(0x99, b"\x7f\0\0\1\0\1", GAME), b"?")
        assert comes_next(a, b)
        report = gate.report()
        assert gate.counted(0x10, "no such client", report) == 1 and gate.counted(0x20, "no such client", report) == 1
        assert gate.counted(0x10, "drop NoRoute", report) == 1


def neighbours():
    """A neighbour's routes and services are learned, shown with their ages, and advertised on the other network."""
    with Gateway(tunnels(2)) as gate:
        a, b = Client(gate.ports[0x10]), Client(gate.ports[0x20])
        a.send(rip_response(0x10, a.node, [(0xBEEF, 1, 2)]))
        a.send(sap_response(0x10, a.node, [(4, "ACCOUNTS", 0xBEEF, bytes(5) + b"\1", 0x451, 2)]))
        assert b.hear(lambda it: is_routers(it) and b"ACCOUNTS" in it)
        report = gate.report()
        assert f"0000BEEF hops 1 ticks 2 by {a.node.hex().upper()} on 00000010, age" in report, report
        assert "0004 ACCOUNTS at 0000BEEF.000000000001.0451 hops 2" in report, report
        b.say(address(0xBEEF, bytes(5) + b"\1", 0x451), b"far")
        assert a.hear()[30:] == b"far"


def extended():
    """Broadcasts of a socket are handed to the other networks that name it, once and never back; others stay."""
    text = tunnels(2, extra="extend 4003\n") + tunnels(1, first=0x30)
    with Gateway(text) as gate:
        a, b, c = (Client(gate.ports[n]) for n in (0x10, 0x20, 0x30))
        a.say(address(0, EVERYONE, GAME), b"game")
        heard = b.hear()
        assert heard == packet(address(0x20, EVERYONE, GAME), a.at(), b"game"), heard.hex()
        assert comes_next(a, b) and comes_next(b, a) and comes_next(a, c)
        b.send(packet(address(0x20, EVERYONE, GAME), a.at(), b"game"))  # (as another gateway would, from its own node)
        assert comes_next(b, a)
        a.say(address(0, EVERYONE, 0x4004), b"other")
        a.say(address(0x10, EVERYONE, GAME), bytes(32) + b"type 20", kind=20)
        assert b.hear()[5] == 20 and comes_next(a, b)
        assert gate.counted(0x20, "extended") == 1


def flood():
    """After a flood of registrations, of junk and of packets for everyone the gateway still routes."""
    with Gateway(tunnels(2)) as gate:
        a, b = Client(gate.ports[0x10]), Client(gate.ports[0x20])
        junk = Client(gate.ports[0x10], registers=False)
        for k in range(20000):
            junk.send(os.urandom(k % 1500))
        for _ in range(2000):
            junk.send(registration())
            a.say(address(0, EVERYONE, GAME), b"flood")
        for _ in range(200):
            Client(gate.ports[0x10], registers=False).send(registration())
        assert reaches_again(a, b) and reaches_again(b, a)


def the_capture():
    """What passes is captured, and `ipxr decode` reads it where it is built."""
    with Gateway(tunnels(2)) as gate:
        gate.end()
        path = os.path.join(gate.folder.name, "pcap")
        begun = int(time.time())
        gate.start(gate.program, ["--pcap", path, "--log"])
        a, b, c = Client(gate.ports[0x10]), Client(gate.ports[0x20]), Client(gate.ports[0x10])
        assert reaches(a, b, b"captured") and reaches(a, c) and gate.report()
        # (a wrong configuration, status 2, is one that could be read)
        reader = [*SYSTEM.quick, gate.program, "--check", path]
        assert subprocess.run(reader, capture_output=True, timeout=LIMIT, check=False).returncode == 2, "others read it while it runs"
        log = gate.end()
        assert " in 00000010 " in log and ": forwarded" in log and ": handed on" in log and " comes to 00000010" in log, log
        with open(path, "rb") as it:
            bytes_ = it.read()
        place, packets = 24, []
        while place < len(bytes_):
            seconds, part, kept = struct.unpack("=III", bytes_[place : place + 12])
            assert begun <= seconds <= time.time() and part < 1000000, "by this machine's date"
            packets.append(bytes_[place + 16 : place + 16 + kept])
            place += 16 + kept
        assert place == len(bytes_) and all(len(it) >= 60 and it[12:14] == b"\x81\x37" for it in packets)
        assert sum(b"captured" in it for it in packets) == 2, "once on each network"
        assert {it[6:12] for it in packets if b"captured" in it} == {a.node, GATEWAY}, "from its node, and from the gateway's"
        if os.path.exists(DECODER):
            run = subprocess.run([DECODER, "decode", path], capture_output=True, timeout=LIMIT, check=False)
            lines = [it for it in run.stdout.decode().splitlines() if it.startswith("record ")]
            assert run.returncode == 0 and len(lines) == len(packets) and all(" EthernetII " in it for it in lines), run


def counts_and_lines():
    """What the report counts, and for what the log has lines."""
    with Gateway(tunnels(1), options=["--log"]) as gate:
        report = gate.report()
        assert " out 00000010 " in report and gate.counted(0x10, "out", report) == 0, "a line, though nobody is there to be counted"
        a, b, c = (Client(gate.ports[0x10]) for _ in range(3))
        a.say(address(0, EVERYONE, GAME), b"all")
        assert b.hear() is not None and c.hear() is not None
        a.say(b.at(), b"one")
        assert b.hear() is not None

        def are_right():
            report = gate.report()
            pings = sum(it.pings for it in (a, b, c))
            first = next(k for k, it in enumerate(gate.lines) if " comes to " in it)
            lines = {way: sum(f" {way} 00000010 " in it for it in gate.lines[first:]) for way in ("in", "out")}
            assert lines["in"] == 3 + 2, "what each says to itself, and what one says"
            # (registrations, and answers to pings, are counted, and have no line; so are answers, pings, and what is handed on)
            counted = {way: gate.counted(0x10, way, report) for way in lines}
            told = sum(it.told for it in (a, b, c))
            return counted == {"in": lines["in"] + 3 + pings, "out": lines["out"] + told + pings + lines["in"]}

        until(are_right, "counts as there are lines")


def main():
    return tried(two_clients, three_clients, seventy_clients, of_one_address, a_ping_is_lost, many_pings_are_lost,
                 four_thousand_clients, allowed, trusted, trusted_and_silent, strangers, by_address, allowed_is_not_trusted, who_comes_and_leaves, shares, routers_elsewhere, starts_again, control_is_cleared, false_sources,
                 ping, all_sizes, padding, nobody_there, neighbours, extended, flood, the_capture, counts_and_lines)


if __name__ == "__main__":
    begin(main)

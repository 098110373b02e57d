"""Links by RFC 1234, as NetWare's IPTUNNEL has it: a datagram is a packet, a node is 0000 and an address of IPv4."""
import contextlib
import errno
import select
import socket
import struct
import time

from calls import call_of
from changed import Changed
from lab import (AGAIN, EVERYONE, GAME, LIMIT, RIP, ROOM, SAP, Client, Gateway, address, comes_next, free_ports, fresh, is_routers, packet, reaches,
                 reaches_again, rip_response, sap_response, says, tunnels, until)
from systems import SYSTEM
from troubles import ends_well, troubled
from trying import begin, has_linux, tried

NUMBER, LONGEST = 0x1234, 576
ONE, OTHER, THIRD = "127.0.0.1", "127.0.0.2", "127.0.0.3"
FAR = 0x99  # a network behind a peer
LONGEST_FRAMED = 1500


def node_of(host):
    return bytes(2) + socket.inet_aton(host)


class Peer:
    """A machine at the other end: datagrams come and go by an address of its own. It hears and says packets as stations do."""

    def __init__(self, gate, host=THIRD, port=0, network=NUMBER):
        self.udp = socket.socket(socket.AF_INET, socket.SOCK_DGRAM)
        self.udp.setsockopt(socket.SOL_SOCKET, socket.SO_RCVBUF, ROOM)
        self.udp.bind((host, port))
        self.node, self.network, self.gate = node_of(host), network, gate

    def place(self):
        return "{}:{}".format(*self.udp.getsockname())

    def at(self, port=GAME):
        return address(self.network, self.node, port)

    def send(self, bytes_):
        self.udp.sendto(bytes_, (ONE, self.gate.ports[NUMBER]))

    def say(self, to, data, **how):
        self.send(packet(to, self.at(), data, **how))

    def hear(self, wanted=lambda it: not is_routers(it), patience=LIMIT):
        """The next packet that is wanted; or None."""
        end = time.monotonic() + patience
        while select.select([self.udp], [], [], max(0, end - time.monotonic()))[0]:
            bytes_, (host, port) = self.udp.recvfrom(65536)
            assert (host, port) == (ONE, self.gate.ports[NUMBER]), "from the gateway's own address"
            assert len(bytes_) == int.from_bytes(bytes_[2:4], "big"), "exactly the packet"
            if wanted(bytes_):
                return bytes_
        return None


def link(port=None, host=ONE, peers=()):
    """A network of the link, with its peers."""
    if port is None:
        (port,) = free_ports(1)
    return f"network {NUMBER:X} 1 {LONGEST} rfc1234 {host}:{port}\n" + "".join(f"peer {it}\n" for it in peers)


class Joined:
    """A gateway with a network of DOSBox' and the link, and machines at the other end that the test plays."""

    def __init__(self, *hosts, more="", extra=""):
        self.text = tunnels(1) + "{}" + extra
        self.peers = [Peer(None, it) for it in hosts or (THIRD,)]
        self.gate = Gateway(self.text.format(link(peers=[it.place() for it in self.peers]) + more))
        for it in self.peers:
            it.gate = self.gate
        self.client = Client(self.gate.ports[0x10])

    def __enter__(self):
        self.gate.__enter__()
        return (self.gate, self.client, *self.peers)

    def __exit__(self, *fault):
        self.client.close()
        for it in self.peers:
            it.udp.close()
        self.gate.__exit__(*fault)


# ---- What passes ----


def two_gateways():
    """Players behind two gateways that the link joins reach each other, and each gateway's node is 0000 and its address."""
    ports = free_ports(2)
    places = [f"{host}:{port}" for host, port in zip((ONE, OTHER), ports)]
    texts = [tunnels(1, first) + link(port, host, [there]) for first, port, host, there in
             zip((0x10, 0x20), ports, (ONE, OTHER), reversed(places))]
    with Gateway(texts[0]) as one, Gateway(texts[1]) as other:
        assert [it.nodes[NUMBER] for it in (one, other)] == [node_of(ONE), node_of(OTHER)]
        assert f"network {NUMBER:08X} on rfc1234 {places[0]}, node 00007F000001" in one.lines, one.lines
        anna, ben = Client(one.ports[0x10]), Client(other.ports[0x20])
        assert reaches_again(anna, ben) and reaches_again(ben, anna)
        for size in (0, 1, 99, LONGEST - 30):
            data = bytes(k % 251 for k in range(size))
            assert reaches(anna, ben, data) and reaches(ben, anna, data), size
        anna.say(ben.at(), bytes(LONGEST - 29))
        assert reaches(anna, ben) and one.counted(NUMBER, "drop TooLong") == 0
        anna.say(address(0, EVERYONE, GAME), bytes(32) + b"all", kind=20)
        assert ben.hear()[62:] == b"all", "broadcasts of type 20 pass"


def bare_datagrams():
    """A machine at the other end reaches a DOSBox and is reached, by datagrams that are packets, of odd lengths too; what stands behind one is cut
    off."""
    with Joined() as (gate, client, peer):
        for size in (0, 1, 2, 15, 16, 17, 99, LONGEST - 30):
            data = bytes(k % 251 for k in range(size))
            assert reaches(peer, client, data) and reaches(client, peer, data), size
        data = fresh()
        peer.send(packet(client.at(), peer.at(), data) + b"behind it")
        assert client.hear()[30:] == data
        assert "no IPX" not in gate.report()


def asks_and_tells():
    """It asks the router by RIP and SAP and is answered; what it tells the router learns, and packets go to the networks behind it."""
    with Joined() as (gate, client, peer):
        peer.send(packet(address(0, EVERYONE, RIP), peer.at(), struct.pack(">HIHH", 1, 0x10, 16, 1), kind=1))
        answer = peer.hear(lambda it: it[16:18] == struct.pack(">H", GAME) and is_routers(it))
        assert answer[22:28] == node_of(ONE) and answer[30:36] == struct.pack(">HI", 2, 0x10), answer
        peer.send(sap_response(NUMBER, peer.node, [(4, "LAB", NUMBER, peer.node, 0x451, 1)]))
        peer.send(rip_response(NUMBER, peer.node, [(FAR, 1, 2)]))
        until(lambda: f"{FAR:08X}" in gate.report().partition("\nroutes:")[2], "a route")
        client.send(packet(address(0, EVERYONE, SAP), client.at(), struct.pack(">HH", 3, 4), kind=4))
        assert client.hear(lambda it: is_routers(it) and b"LAB" in it and it[16:18] == struct.pack(">H", GAME))
        client.say(address(FAR, b"\0\0\0\0\0\1", GAME), b"behind it")
        assert peer.hear()[6:16] == address(FAR, b"\0\0\0\0\0\1", GAME)[:10], "to the peer, whose node isn't in the packet"
        peer.send(packet(client.at(), address(FAR, b"\0\0\0\0\0\1", GAME), b"from behind it", control=1))
        assert client.hear()[30:] == b"from behind it", "a source behind a peer isn't the peer's own"


def to_each():
    """What is for all goes to each peer, what is for one to that one; peers don't hear each other by the gateway."""
    with Joined(OTHER, THIRD) as (gate, client, one, other):
        client.say(address(NUMBER, EVERYONE, GAME), b"a call", kind=4)
        client.say(one.at(), b"to one")
        client.say(other.at(), b"to the other")
        one.say(other.at(), b"past the gateway")
        data = fresh()
        client.say(address(0, EVERYONE, GAME), bytes(32) + data, kind=20)
        for peer, word in (one, b"to one"), (other, b"to the other"):
            heard = [peer.hear()[30:] for _ in range(3)]
            assert heard[0] == b"a call" and heard[1] == word and heard[2][-len(data):] == data, heard


# ---- What doesn't ----


def strangers():
    """Who is no peer isn't heard, nor one at a peer's address with another port; it is counted."""
    with Joined() as (gate, client, peer):
        for host in (OTHER, THIRD):
            stranger = Peer(gate, host)
            stranger.say(client.at(), b"from a stranger")
            stranger.send(packet(client.at(), peer.at(), b"in a peer's name"))
            stranger.send(b"")
        assert comes_next(peer, client)
        assert gate.counted(NUMBER, "from a stranger") == 6


def forged():
    """A peer that names another node of the network as its source isn't heard: another peer's, the gateway's, or none with 0000 before it."""
    with Joined(OTHER, THIRD) as (gate, client, one, other):
        for network in (NUMBER, 0, 0xFFFFFFFF):
            for node in (other.node, node_of(ONE), b"\2" + one.node[1:], EVERYONE):
                one.send(packet(client.at(), address(network, node, GAME), b"in another's name"))
        assert comes_next(one, client)
        assert gate.counted(NUMBER, "source of another") == 12


def cut_and_altered():
    """Datagrams that are cut, or no packets, aren't heard, and the next one is; one that is longer than frames are is counted as that."""
    with Joined() as (gate, client, peer):
        whole = packet(client.at(), peer.at(), b"cut")
        for length in range(len(whole)):
            peer.send(whole[:length])
        for size in (0, 29, len(whole) + 1, 0xFFFF):
            peer.send(packet(client.at(), peer.at(), b"cut", length=size))
        peer.send(packet(client.at(), peer.at(), bytes(LONGEST_FRAMED - 29)))
        assert comes_next(peer, client)
        report = gate.report()
        assert gate.counted(NUMBER, "no IPX", report) == len(whole) + 4, report
        assert gate.counted(NUMBER, "longer than the link carries", report) == 1, report


# ---- Peers that change ----


def names():
    """A peer may be named: it is heard, and reached, once its address is known."""
    peer = Peer(None, ONE)
    with Gateway(tunnels(1) + link(host=OTHER, peers=[f"localhost:{peer.udp.getsockname()[1]}"])) as gate:
        client = Client(gate.ports[0x10])

        def is_heard():
            data = fresh()
            peer.udp.sendto(packet(client.at(), peer.at(), data), (OTHER, gate.ports[NUMBER]))
            return client.hear(lambda it: it[30:] == data, AGAIN)

        assert until(is_heard, "a peer that is named")


def a_reload():
    """A reload adds peers and takes them away; those that stay are heard all the time, at the same socket."""
    peers = [Peer(None, it) for it in (OTHER, THIRD)]
    places = [it.place() for it in peers]
    (port,) = free_ports(1)
    with Changed(tunnels(1) + link(port, peers=places[:1])) as gate:
        one, other = peers
        client = Client(gate.ports[0x10])
        one.gate = other.gate = gate
        assert gate.shown("links")[1]["kinds"] is None, "frames are there in the gateway alone"
        for chosen in ([0, 1], [1], [1, 0], [0], []):
            said = gate.reload(tunnels(1) + link(port, peers=[places[k] for k in chosen]))
            assert "reopened" not in said or "0 reopened" in said, said
            assert not any("is down" in it for it in gate.lines), gate.lines
            for k, peer in enumerate(peers):
                if k in chosen:
                    assert reaches(peer, client) and reaches(client, peer)
                else:
                    before = gate.counted(NUMBER, "from a stranger")
                    peer.say(client.at(), b"no peer")
                    until(lambda: gate.counted(NUMBER, "from a stranger") == before + 1, "a stranger")


# By which the link is opened, spoken to and heard: each with a fault, and how many times it is let fail.
CALLS = [
    ("socket", errno.EMFILE, 3),
    ("bind", errno.EADDRINUSE, 2),
    ("setsockopt", errno.ENOBUFS, 4),
    ("fcntl", errno.EINVAL, 6),
    ("getsockname", errno.ENOBUFS, 2),
    ("recvmmsg", errno.ENETDOWN, 4),
    ("sendto", errno.ENETUNREACH, 4),
    ("sendmmsg", errno.ENOBUFS, 3),
    ("close", errno.EIO, 2),
    ("malloc", errno.ENOMEM, 3),
    ("calloc", errno.ENOMEM, 3),
]


def each_fails():
    """Each call of the system that the link needs fails once: the gateway doesn't start and says why, or goes on."""
    for name, fault, times in CALLS:
        for which in range(1, times + 1):
            peer, third = Peer(None, THIRD), Peer(None, OTHER)
            gate = troubled(tunnels(1) + link(peers=[peer.place(), third.place()]), call_of(name), fault, which)
            if gate is not None:
                peer.gate = gate
                gate.until_open(0x10, NUMBER)
                client = Client(gate.ports[0x10], registers=False)
                until(lambda: client.is_told(AGAIN), "an answer")
                assert reaches_again(client, peer) and reaches_again(peer, client), f"{name} {which}"
                ends_well(gate, f"{name} {which}")


def main():
    counts = tried(two_gateways, bare_datagrams, asks_and_tells, to_each, strangers, forged, cut_and_altered, names)
    if has_linux("peers that a reload adds and takes away, and calls that fail"):
        counts += tried(a_reload, each_fails)
    return counts


if __name__ == "__main__":
    begin(main)

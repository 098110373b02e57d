"""Forged words of ICMP, such as that nobody is at a port, or that a datagram is too long: they cost nobody a packet.

It runs in networks of its own (spaces.py).
"""
import socket
import struct

from attacks import OTHER_PORT, TUNNEL_LINE, Playground, during, none
from lab import EVERYONE, GAME, LIMIT, Client, Gateway, address, free_ports, tunnels, until
from players import NUMBERED
from six import has_six
from spaces import GATEWAY, host, ip
from trying import begin, left_out, tried, tried_on_own_system

FRAGMENTATION_NEEDED = 4
CODES = 16  # of what can't be reached, and why: 3 is a port, 4 says that the datagram is too long, 5 that the way wasn't right


def complaint(code, about, to, size=0):
    """What somebody says of a datagram from a place to another: the bytes of ICMP."""
    datagram = struct.pack(">BBHHHBBH4s4s", 0x45, 0, 1028, 1, 0x4000, 64, 17, 0, *map(socket.inet_aton, (about[0], to[0])))
    datagram += struct.pack(">HHHH", about[1], to[1], 1008, 0)
    whole = struct.pack(">BBHHH", 3, code, 0, 0, size) + datagram
    words = struct.unpack(f">{len(whole) // 2}H", whole)
    total = sum(words)
    total = (total & 0xFFFF) + (total >> 16)
    return whole[:2] + struct.pack(">H", ~((total & 0xFFFF) + (total >> 16)) & 0xFFFF) + whole[4:]


def icmp():
    return socket.socket(socket.AF_INET, socket.SOCK_RAW, socket.IPPROTO_ICMP)


def pieces():
    """Pieces of datagrams that have come to the test's own network."""
    with open("/proc/net/snmp", encoding="ascii") as it:
        names, numbers = (line.split() for line in it if line.startswith("Ip: "))
    return int(dict(zip(names, numbers))["ReasmReqds"])


def a_forged_complaint():
    """Nobody makes the gateway cut what it sends by a forged word of a router that it is too long."""
    with Playground() as it, icmp() as raw:
        before = pieces()
        for player in it.party.all:
            raw.sendto(complaint(FRAGMENTATION_NEEDED, GATEWAY, player.udp.getsockname(), 576), (GATEWAY[0], 0))
        it.party.begin_again(1000)
        none(it.play(during(1)), "" if pieces() == before else f"{pieces() - before} pieces came")


def a_port_that_is_there():
    """Nobody makes the gateway lose a frame for QEMU by a forged word of ICMP, such as that nobody is at its port."""
    at, to = (GATEWAY[0], OTHER_PORT), (host(0), OTHER_PORT)
    text = f"{TUNNEL_LINE}extend 4003\nnetwork 20 1 1490 qemu-udp {at[0]}:{at[1]} {to[0]}:{to[1]} raw\nextend 4003\n"
    with Playground(text, numbers=(0, 1, 1)) as it, icmp() as raw, socket.socket(socket.AF_INET, socket.SOCK_DGRAM) as card:
        card.bind(to)
        card.settimeout(LIMIT)
        for number in range(2 * CODES):
            word = struct.pack(">6sI", NUMBERED, number)
            # (it finds what the player says and the complaint at once, and hears the player first)
            with it.gate.run.halted():
                it.party.all[0].say(NUMBERED, number)
                raw.sendto(complaint(number % CODES, at, to, 576), (GATEWAY[0], 0))
            until(lambda: word in card.recv(2048), f"word {number}")
        assert it.gate.counted(0x20, "not sent") == 0, it.gate.report()


def complaint_of_six(kind, code, about, to):
    """The same of a datagram of IPv6, without the sum, which the system makes: the bytes of ICMP of some type."""
    ends = b"".join(socket.inet_pton(socket.AF_INET6, it[0]) for it in (about, to))
    datagram = struct.pack(">IHBB", 6 << 28, 1008, socket.IPPROTO_UDP, 64) + ends + struct.pack(">HHHH", about[1], to[1], 1008, 0)
    return struct.pack(">BBHI", kind, code, 0, 1280) + datagram


def a_port_of_six():
    """The same by a forged word of IPv6's ICMP."""
    at, to = (("::1", it) for it in free_ports(2))
    text = f"{tunnels(1)}extend {GAME:X}\nnetwork 20 1 1490 qemu-udp [::1]:{at[1]} [::1]:{to[1]} raw\nextend {GAME:X}\n"
    raw = socket.socket(socket.AF_INET6, socket.SOCK_RAW, socket.IPPROTO_ICMPV6)
    with Gateway(text) as gate, raw, socket.socket(socket.AF_INET6, socket.SOCK_DGRAM) as card:
        card.bind(to)
        card.settimeout(LIMIT)
        far = Client(gate.ports[0x10])
        for number, (kind, code) in enumerate((*((1, it) for it in range(8)), (2, 0), (3, 0), (4, 1)) * 2):
            word = struct.pack(">6sI", NUMBERED, number)
            with gate.run.halted():
                far.say(address(0, EVERYONE, GAME), word)
                raw.sendto(complaint_of_six(kind, code, at, to), ("::1", 0))
            until(lambda word=word: word in card.recv(2048), f"word {number}")
        assert gate.counted(0x20, "not sent") == 0, gate.report()


def inside():
    """In the network of its own."""
    ip("link", "set", "lo", "up")
    counts = tried(a_forged_complaint, a_port_that_is_there)
    if has_six():
        counts.run(a_port_of_six)
    else:
        left_out("what IPv6's ICMP says", "no address of IPv6 here")
    return counts


def main():
    return tried_on_own_system(__file__, "complaints")


if __name__ == "__main__":
    begin(main, inside)

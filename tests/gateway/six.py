"""Links by IPv6: to QEMU and to other gateways."""
import ipaddress
import random
import socket

from frames import Station, Tcp, Udp
from lab import Client, Gateway, tunnels
from links import STATION, both_ways, places_joined
from systems import SYSTEM, Windows
from trying import begin, left_out, tried

OWN = "::1"
ADDRESSES = 31  # that one gateway calls


def link(kind):
    return tunnels(1) + f"network 20 1 1490 {kind} raw\n"


class UdpOfSix(Udp):
    """The other end of `qemu-udp` by IPv6."""

    def __init__(self):
        self.socket = socket.socket(socket.AF_INET6, socket.SOCK_DGRAM)
        self.socket.bind((OWN, 0))
        self.port = self.socket.getsockname()[1]
        self.to = None

    def send(self, bytes_):
        self.socket.sendto(bytes_, (OWN, self.to))


def talks(gate, wire):
    both_ways(gate, Station(wire, "raw", 0x20, STATION, gate.nodes[0x20]), Client(gate.ports[0x10]))


def datagrams():
    """Frames pass in datagrams of IPv6."""
    wire = UdpOfSix()
    with Gateway(link(f"qemu-udp [::1]:0 [::1]:{wire.port}")) as gate:
        wire.to = gate.ports[0x20]
        talks(gate, wire)


def connections():
    """Frames pass on connections by IPv6 that come in and that go out, and who comes in is told."""
    with Gateway(link("qemu-tcp listen [::1]:0")) as gate, socket.create_connection((OWN, gate.ports[0x20])) as pc:
        assert gate.told("network 00000020 is up").endswith(f", with [::1]:{pc.getsockname()[1]}")
        talks(gate, Tcp(pc))
    with socket.socket(socket.AF_INET6) as pc:
        pc.bind((OWN, 0))
        pc.listen()
        with Gateway(link(f"qemu-tcp connect [::1]:{pc.getsockname()[1]}")) as gate:
            called = Tcp(pc.accept()[0])
            gate.told("network 00000020 is up")
            talks(gate, called)


def both_kinds():
    """A port of IPv6 leaves the same port of IPv4 to others."""
    with socket.socket() as other:
        other.bind(("0.0.0.0", 0))
        other.listen()
        with Gateway(link(f"qemu-tcp listen [::]:{other.getsockname()[1]}")):
            pass


def free_port():
    with socket.socket(socket.AF_INET6, socket.SOCK_DGRAM) as one, socket.socket(socket.AF_INET6) as other:
        one.bind((OWN, 0))
        other.bind((OWN, one.getsockname()[1]))
        return one.getsockname()[1]


def two_gateways():
    """Two gateways join two places by IPv6: by datagrams and by a connection."""
    here, there = free_port(), free_port()
    places_joined(f"qemu-udp [::1]:{here} [::1]:{there} raw", f"qemu-udp [::1]:{there} [::1]:{here} raw")
    places_joined(f"qemu-tcp listen [::1]:{here} llc", f"qemu-tcp connect [::1]:{here} llc")


def some_address():
    """An address in which zeros are frequent. (it isn't one of IPv4 behind zeros alone, which systems write with dots)"""
    groups = [0] * 8
    while not any(groups[:5]):
        groups = [random.choice((0, 0, 1, random.randrange(1 << 16))) for _ in groups]
    return ipaddress.IPv6Address(b"".join(it.to_bytes(2, "big") for it in groups))


def as_they_are_written():
    """An address is read however it is written, and written as RFC 5952 wants it."""
    addresses = set()
    while len(addresses) < ADDRESSES:
        addresses.add(some_address())
    addresses = list(addresses)
    forms = [random.choice((it.compressed, it.exploded, it.compressed.upper())) for it in addresses]
    text = "".join(f"network {k + 1:X} 1 1490 qemu-tcp connect [{it}]:5001 raw\n" for k, it in enumerate(forms))
    with Gateway(text) as gate:
        for k, it in enumerate(addresses):
            assert any(f"network {k + 1:08X} on qemu-tcp connect [{it.compressed}]:5001 raw" in line for line in gate.lines), (forms[k], it)


def has_six():
    try:
        with socket.socket(socket.AF_INET6, socket.SOCK_DGRAM) as it:
            it.bind((OWN, 0))
    except OSError:
        return False
    return True


def main():
    counts = tried(as_they_are_written)
    if has_six():
        return counts + tried(datagrams, connections, two_gateways, *(() if SYSTEM is Windows else (both_kinds,)))
    left_out("links by IPv6", "no address of it here")
    return counts


if __name__ == "__main__":
    begin(main)

"""Frames that nobody should send, made up by a seed."""
import random

from frames import KINDS, frame
from lab import EVERYONE, GAME, RIP, SAP, address, packet, rip_response, sap_response


class Frames:
    """Packets of routers and of programs in frames, some bytes of them altered, cut, or made up."""

    def __init__(self, seed, networks):
        self.random, self.networks = random.Random(seed), networks

    def packet(self):
        number = self.random.randrange
        node = bytes([2, 0, 0, 0, 0, number(256)])
        network = self.random.choice([*self.networks, number(1 << 32)])
        to = address(network, self.random.choice([EVERYONE, node]), self.random.choice([GAME, 0x4005, RIP, SAP]))
        return self.random.choice([
            lambda: packet(to, address(network, node, GAME), bytes(number(1400)), kind=self.random.choice([0, 4, 20])),
            lambda: rip_response(network, node, [(number(1 << 32), number(17), number(9)) for _ in range(number(51))]),
            lambda: sap_response(network, node, [(number(9), f"S{number(99)}", network, node, GAME, number(17)) for _ in range(number(8))]),
            lambda: packet(address(network, EVERYONE, SAP), address(network, node, SAP), b"\0\1\xff\xff"),
            lambda: packet(address(network, EVERYONE, RIP), address(network, node, RIP), b"\0\1" + b"\xff" * 8, kind=1),
        ])()

    def altered(self, bytes_):
        """Some bytes, some of which are altered, or cut off."""
        number, whole = self.random.randrange, bytearray(bytes_)
        for _ in range(number(4)):
            whole[number(len(whole))] = number(256)
        return bytes(whole[:number(len(whole)) + 1] if number(8) == 0 else whole)

    def next(self):
        number = self.random.randrange
        if number(8) == 0:
            return self.random.randbytes(14 + number(1500))
        made = frame(self.random.choice(KINDS), EVERYONE, bytes([2, 0, 0, 0, 0, number(256)]), self.packet())
        return self.altered(made)[:1514]

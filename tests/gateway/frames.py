"""Ethernet frames by the four kinds, written and read here on their own, and stations that live on a wire."""
import select
import socket
import struct
import time

from lab import EVERYONE, GAME, LIMIT, ROOM, address, is_routers, packet

KINDS = ("ethernet2", "raw", "llc", "snap")
FRONTS = {"raw": b"", "llc": b"\xe0\xe0\x03", "snap": b"\xaa\xaa\x03\0\0\0\x81\x37"}


def frame(kind, to, source, bytes_, padding=b"\xa5"):
    """A packet in a frame, padded to 60 bytes with what isn't zero, as old cards did."""
    if kind == "ethernet2":
        whole = to + source + b"\x81\x37" + bytes_
    else:
        body = FRONTS[kind] + bytes_
        whole = to + source + struct.pack(">H", len(body)) + body
    return whole.ljust(60, padding)


def unframed(kind, bytes_):
    """The packet of a frame of that kind, its padding cut off, after a look at each field; or None."""
    field = int.from_bytes(bytes_[12:14], "big")
    if kind == "ethernet2":
        rest = bytes_[14:] if field == 0x8137 else None
    else:
        front = FRONTS[kind]
        rest = bytes_[14 + len(front) :] if field < 0x600 and bytes_[14:].startswith(front) else None
        if kind == "raw" and rest is not None and not rest.startswith(b"\xff\xff"):
            rest = None
    if rest is None or len(rest) < 30:
        return None
    length = int.from_bytes(rest[2:4], "big")
    assert kind == "ethernet2" or field == length + len(FRONTS[kind]), "the length field counts what is carried"
    whole = len(bytes_) - len(rest) + length
    assert len(bytes_) == max(60, whole + whole % 2 * (kind == "raw")), "padded to 60 bytes, and raw ones to an even number, no farther"
    assert not any(rest[length:]), "padded with zeros"
    return rest[:length]


class Udp:
    """The other end of `qemu-udp`: a datagram is a frame."""

    def __init__(self, port=0, host="127.0.0.1"):
        self.socket = socket.socket(socket.AF_INET, socket.SOCK_DGRAM)
        self.socket.setsockopt(socket.SOL_SOCKET, socket.SO_RCVBUF, ROOM)
        self.socket.bind((host, port))
        self.port = self.socket.getsockname()[1]
        self.to = None

    def fileno(self):
        return self.socket.fileno()

    def send(self, bytes_):
        self.socket.sendto(bytes_, ("127.0.0.1", self.to))

    def receive(self):
        return [self.socket.recv(65536)]


class Tcp:
    """The other end of `qemu-tcp`: four bytes of length before each frame."""

    def __init__(self, connection):
        self.socket = connection
        self.bytes = b""

    def fileno(self):
        return self.socket.fileno()

    def send(self, bytes_):
        self.socket.sendall(struct.pack(">I", len(bytes_)) + bytes_)

    def receive(self):
        piece = self.socket.recv(65536)
        if not piece:
            raise ConnectionError("the gateway has closed the connection")
        self.bytes += piece
        frames = []
        while len(self.bytes) >= 4 and len(self.bytes) >= 4 + int.from_bytes(self.bytes[:4], "big"):
            size = 4 + int.from_bytes(self.bytes[:4], "big")
            frames.append(self.bytes[4:size])
            self.bytes = self.bytes[size:]
        return frames


class Packets:
    """The other end of an interface: a packet socket on the peer of a veth pair, or on the host's end of a TAP. It hears the frames
    of a kind that come in."""

    PROTOCOLS = {"ethernet2": 0x8137, "raw": 1, "llc": 4, "snap": 4}

    def __init__(self, name, kind):
        self.socket = socket.socket(socket.AF_PACKET, socket.SOCK_RAW, 0)
        self.socket.setsockopt(socket.SOL_SOCKET, socket.SO_RCVBUF, ROOM)
        self.socket.bind((name, self.PROTOCOLS[kind]))

    def fileno(self):
        return self.socket.fileno()

    def send(self, bytes_):
        self.socket.send(bytes_)

    def receive(self):
        return [self.socket.recv(65536)]


class Station:
    """A computer on a wire, with one kind of frame, padded as old cards did or as they should."""

    def __init__(self, wire, kind, network, node, gateway, padding=b"\xa5"):
        self.wire, self.kind, self.network, self.node, self.gateway, self.padding = wire, kind, network, node, gateway, padding
        self.waiting = []

    def at(self, port=GAME):
        return address(self.network, self.node, port)

    def say(self, to, data, node=None, **how):
        """Sends a packet by the gateway, or to a node of the wire."""
        self.wire.send(frame(self.kind, node or self.gateway, self.node, packet(to, self.at(), data, **how), self.padding))

    def hear(self, wanted=lambda it: not is_routers(it), patience=LIMIT):
        """The next packet that is wanted, of those for this station; or None."""
        end = time.monotonic() + patience
        while True:
            while self.waiting:
                bytes_ = self.waiting.pop(0)
                if bytes_[:6] in (self.node, EVERYONE):
                    found = unframed(self.kind, bytes_)
                    if found is not None and wanted(found):
                        return found
            ready, _, _ = select.select([self.wire], [], [], max(0, end - time.monotonic()))
            if not ready:
                return None
            self.waiting += self.wire.receive()


class Neighbour(Station):
    """One that others on its wire hear, too: its frames are padded as they should be, and raw ones have an even length."""

    def say(self, to, data, node=None, **how):
        bytes_ = frame(self.kind, node or self.gateway, self.node, packet(to, self.at(), data, **how), b"\0")
        self.wire.send(bytes_ + bytes(len(bytes_) % 2 if self.kind == "raw" else 0))

"""Captures and frames, byte by byte."""
import struct

EVERYONE = "FFFFFFFFFFFF"
AA = "0000000000AA"


def header(order="<", magic=0xA1B2C3D4, major=2, minor=4, link=1):
    """The 24 bytes of a file's header."""
    return struct.pack(order + "IHHIIII", magic, major, minor, 0, 0, 262144, link)


def record(kept, order="<", wire=None, count=None, seconds=0):
    """A record; `count` is the number of bytes that its header says."""
    return struct.pack(order + "IIII", seconds, 0, len(kept) if count is None else count, wire or len(kept)) + kept


def frame(field, rest, to=EVERYONE, source=AA):
    """A frame with a type or a length, and what stands behind it."""
    return bytes.fromhex(to + source) + struct.pack(">H", field) + rest


def framed(packet, node=EVERYONE):
    """A frame of type 8137h with a packet's digits, from the packet's own source; bytes that are no packet have a source of zeros."""
    source = packet[44:56] if len(packet) >= 60 else "0" * 12
    return frame(0x8137, bytes.fromhex(packet), node, source)


def capture(frames):
    """A capture of frames, each with its second."""
    return header() + b"".join(record(kept, seconds=second) for second, kept in frames)

"""Recordings of the kind pcapng, block by block."""
import struct

SECTION, INTERFACE, OLD_PACKET, SIMPLE_PACKET, NAMES, PACKET = 0x0A0D0D0A, 1, 2, 3, 4, 6


def padded(content):
    """Bytes with zeros behind them, up to a multiple of four."""
    return content + bytes(-len(content) % 4)


def block(kind, content, order="<", length=None, again=None):
    """A block; `length` and `again` are what it says of its length in front and at its end."""
    size = 12 + len(content) if length is None else length
    return struct.pack(order + "II", kind, size) + content + struct.pack(order + "I", size if again is None else again)


def section(order="<", magic=0x1A2B3C4D, major=1, options=b"", **lengths):
    """The header of a section whose length isn't told."""
    return block(SECTION, struct.pack(order + "IHHq", magic, major, 0, -1) + options, order, **lengths)


def interface(link=1, most=0, order="<", options=b"", **lengths):
    """An interface of a link type, on which so many bytes of a packet are kept."""
    return block(INTERFACE, struct.pack(order + "HHI", link, 0, most) + options, order, **lengths)


def packet(kept, number=0, order="<", wire=None, count=None, options=b"", **lengths):
    """A packet of an interface; `count` is the number of bytes that it says."""
    size = len(kept) if count is None else count
    return block(PACKET, struct.pack(order + "IIIII", number, 0, 0, size, wire or len(kept)) + padded(kept) + options, order, **lengths)


def old_packet(kept, number=0, order="<"):
    """The same as it was written once."""
    return block(OLD_PACKET, struct.pack(order + "HHIIII", number, 0, 0, 0, len(kept), len(kept)) + padded(kept), order)


def simple_packet(kept, wire=None, order="<"):
    """A packet of the first interface, without a time."""
    return block(SIMPLE_PACKET, struct.pack(order + "I", wire or len(kept)) + padded(kept), order)

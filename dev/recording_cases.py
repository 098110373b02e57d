"""The recordings of tests/decode, and the text that each is shown as, written by hand."""
import struct

from pcap import frame
from pcapng import NAMES, block, interface, old_packet, packet, section, simple_packet

MOST = 262144
# What editcap of Wireshark 4.0.17 makes of little.pcap by -F pcapng.
BY_EDITCAP = bytes.fromhex("""
0A0D0D0A6C0000004D3C2B1A01000000FFFFFFFFFFFFFFFF0400450045646974636170202857697265736861726B2920342E302E3137202847697420
76342E302E3137207061636B6167656420617320342E302E31372D302B6465623132753329000000000000006C000000010000001400000001000000
000004001400000006000000580000000000000000000000000000003600000036000000FFFFFFFFFFFF0000000000AA8137FFFF0028000100000010
FFFFFFFFFFFF0453000000100000000000AA04530001FFFFFFFFFFFFFFFF000058000000
""")


def tagged(field, rest, *tags):
    """A frame with tags of 802.1Q before its type or length."""
    for kind in reversed(tags):
        rest, field = struct.pack(">HH", 7, field) + rest, kind
    return frame(field, rest)


def udp(content, source=4003, destination=213, length=None):
    """A datagram; `length` is what it says of its length."""
    return struct.pack(">HHHH", source, destination, 8 + len(content) if length is None else length, 0) + content


def ip(content, options=b"", protocol=17, fragment=0, version=4, length=None, words=None):
    """A packet of IP; `length` and `words` are what it says of its own length and of its header's."""
    header = (5 + len(options) // 4) if words is None else words
    size = 20 + len(options) + len(content) if length is None else length
    return struct.pack(">BBHHHBBH8s", version * 16 + header, 0, size, 1, fragment, 64, protocol, 0, bytes(8)) + options + content


def cooked(protocol, rest):
    """What Linux records of all its interfaces, in the first form."""
    return struct.pack(">HHH8sH", 0, 1, 6, bytes(8), protocol) + rest


def cooked_again(protocol, rest):
    """The same in the second form."""
    return struct.pack(">HHIHBB8s", protocol, 0, 1, 1, 0, 6, bytes(8)) + rest


def one(link, *kept):
    """A section with an interface of a link type, and its packets."""
    return section() + interface(link) + b"".join(packet(it) for it in kept)


def carriers(request, lines):
    """What carries a packet, by link type."""
    typed, llc = frame(0x8137, request), b"\xE0\xE0\x03" + request
    snap = b"\xAA\xAA\x03\0\0\0\x81\x37" + request
    shown = lambda *kinds: "".join(f"record {at} {it} {lines}" if it != "Other" else f"record {at} Other\n" for at, it in enumerate(kinds, 1))
    short = b"\xFF\xFF\0\x1E" + request[4:30]
    return {
        "recording-frames": ("each kind of frame, and one that carries no IPX",
            one(1, typed, frame(len(request), request), frame(len(llc), llc), frame(len(snap), snap), frame(0x0806, bytes(28))),
            shown("EthernetII", "Raw", "Llc", "Snap", "Other")),
        "recording-tags": ("frames with one tag and with two, behind each the kinds of frames; three tags, and a tag that is cut",
            one(1, tagged(0x8137, request, 0x8100), tagged(len(llc), llc, 0x8100), tagged(0x8137, request, 0x88A8, 0x8100),
                tagged(0x0800, ip(udp(request)), 0x8100), tagged(0x8137, request, 0x8100, 0x8100, 0x8100), frame(0x8100, b"\0\7\x81")),
            shown("EthernetII", "Llc", "EthernetII", "Udp", "Other", "Other")),
        "recording-cooked": ("what Linux records of all its interfaces: by its type, raw, behind access points, in a datagram; and a cut one",
            one(113, cooked(0x8137, request), cooked(1, request), cooked(4, llc), cooked(0x0800, ip(udp(request))), cooked(0x8137, b"")[:15]),
            shown("EthernetII", "Raw", "Llc", "Udp", "Other")),
        "recording-cooked-again": ("the same in the second form",
            one(276, cooked_again(0x8137, request), cooked_again(1, request), cooked_again(4, llc), cooked_again(0x0800, ip(udp(request))),
                cooked_again(0x8137, b"")[:19]),
            shown("EthernetII", "Raw", "Llc", "Udp", "Other")),
        "recording-ppp": ("PPP with and without address and control; IP over PPP, and too few bytes",
            one(9, b"\xFF\3\0\x2B" + request, b"\0\x2B" + request, b"\xFF\3\0\x21" + ip(udp(request)), b"\0"),
            shown("Ppp", "Ppp", "Other", "Other")),
        "recording-ip": ("IP alone: a header with options, padding behind the packet, another protocol, a fragment, the first of several, version 6, too "
            "short a header, a length beyond the bytes, a length within the header, and too few bytes",
            one(101, ip(udp(request)), ip(udp(request), options=bytes(8)), ip(udp(request)) + bytes(6), ip(udp(request), protocol=6),
                ip(udp(request), fragment=5), ip(udp(request), fragment=0x2000), ip(udp(request), version=6), ip(udp(request), words=4),
                ip(udp(request), length=500), ip(udp(request), length=19), ip(b"")[:19]),
            shown("Udp", "Udp", "Udp", "Other", "Other", "Other", "Other", "Other", "Other", "Other", "Other")),
        "recording-udp": ("datagrams to 213, from 213, to 2130 and from it; to another port with just a packet, with a byte more, and without FFFF in front; "
            "a length beyond the packet of IP, one under 8, and a datagram that is cut; on port 213 what is no packet",
            one(101, ip(udp(request)), ip(udp(request, 213, 5000)), ip(udp(request, 5000, 2130)), ip(udp(request, 2130, 5000)),
                ip(udp(request, 5000, 5001)), ip(udp(request + b"\0", 5000, 5001)), ip(udp(b"\0\0" + request[2:], 5000, 5001)),
                ip(udp(request, length=500)), ip(udp(request, length=7)), ip(udp(b"")[:7]), ip(udp(b"\0"))),
            shown("Udp", "Udp", "Udp", "Udp", "Udp", "Other", "Other", "Other", "Other", "Other") + "record 11 Udp bad Short\n"),
        "recording-short-packet": ("a packet of 30 bytes in a datagram to another port",
            one(101, ip(udp(short, 5000, 5001))),
            "record 1 Udp " + lines.split("\n")[0].replace("length 40", "length 30") + "\nrip bad Short\n"),
        "recording-other-links": ("link types that aren't read: Token Ring, 802.11, and one beyond 255",
            section() + interface(6) + interface(105) + interface(277) + packet(typed, 0) + packet(typed, 1) + packet(typed, 2),
            shown("Other", "Other", "Other")),
    }


def blocks(request, lines):
    """Sections, interfaces and blocks."""
    typed = frame(0x8137, request)
    line = lambda *numbers: "".join(f"record {at} EthernetII {lines}" for at in numbers)
    options = struct.pack("<HH4s", 1, 3, b"abc\0") + bytes(4)
    return {
        "recording-editcap": ("what editcap makes of a pcap file", BY_EDITCAP, line(1)),
        "recording-empty": ("a section and nothing in it", section(), ""),
        "recording-big": ("highest byte first", section(">") + interface(order=">") + packet(typed, order=">"), line(1)),
        "recording-two-orders": ("a section with its lowest byte first, and one with its highest; the second has interfaces of its own",
            one(9, b"\0\x2B" + request) + section(">") + interface(1, order=">") + packet(typed, order=">"),
            f"record 1 Ppp {lines}" + line(2)),
        "recording-interfaces": ("packets of several interfaces, in any order", section() + interface(9) + interface(1) + packet(typed, 1)
            + packet(b"\0\x2B" + request, 0) + packet(typed, 1), line(1) + f"record 2 Ppp {lines}" + line(3)),
        "recording-blocks": ("blocks that aren't packets: names, one that nobody knows, one of 70,000 bytes, one without content; and options",
            section(options=options) + block(NAMES, bytes(8)) + interface(options=options) + block(0x80000001, bytes(12)) + packet(typed, options=options)
            + block(NAMES, bytes(70000)) + block(5, b"") + packet(typed), line(1, 2)),
        "recording-old-packets": ("packets as they were written once", section() + interface(9) + interface() + old_packet(typed, 1)
            + old_packet(b"\0\x2B" + request), line(1) + f"record 2 Ppp {lines}"),
        "recording-simple-packets": ("packets without an interface: whole, and cut as the first interface says",
            section() + interface(most=54) + interface(9) + simple_packet(typed) + simple_packet(typed, wire=1000), line(1, 2)),
        "recording-simple-whole": ("the same where the interface keeps all", section() + interface() + simple_packet(typed), line(1)),
        "recording-no-bytes": ("a packet that keeps no bytes, and one behind it", one(1, b"", typed), "record 1 Other\n" + line(2)),
        "recording-longest": ("a packet of 262,144 bytes, the most that are taken, and a short one behind it",
            one(1, typed + bytes(MOST - len(typed)), typed), line(1, 2)),
        "recording-most-interfaces": ("256 interfaces, and a packet of the last", section() + 256 * interface() + packet(typed, 255), line(1)),
    }


def faults(request, lines):
    """Each fault, where it may stand."""
    typed = frame(0x8137, request)
    whole = one(1, typed)
    shown = f"record 1 EthernetII {lines}"
    told = lambda number, word: f"record {number}: {word}\n"
    return {
        "recording-cut-header": ("23 bytes of a section's header", section()[:23], told(0, "CutHeader")),
        "recording-magic": ("a section without a byte order", section(magic=0x1A2B3C4E), told(0, "Magic")),
        "recording-magic-later": ("the same of the second section", whole + section(magic=0), shown + told(2, "Magic")),
        "recording-version": ("version 2.0", section(major=2), told(0, "Version")),
        "recording-version-later": ("the same of the second section", whole + section(major=2), shown + told(2, "Version")),
        "recording-section-length": ("a section's header whose length is no multiple of four", section(length=30), told(0, "BlockLength")),
        "recording-section-short": ("a section's header of 24 bytes", section(length=24), told(0, "BlockLength")),
        "recording-interface-length": ("an interface of 22 bytes", section() + interface(length=22), told(1, "BlockLength")),
        "recording-interface-short": ("an interface of 16 bytes", section() + interface(length=16), told(1, "BlockLength")),
        "recording-block-length": ("a block of 11 bytes that nobody knows", whole + block(99, b"", length=11), shown + told(2, "BlockLength")),
        "recording-packet-length": ("a packet that keeps a byte more than its block holds", one(1) + packet(typed, count=len(typed) + 3),
            told(1, "BlockLength")),
        "recording-simple-length": ("a simple packet longer than its block", section() + interface() + simple_packet(typed, wire=60), told(1, "BlockLength")),
        "recording-no-interface": ("a packet of the second interface where there is one", one(1) + packet(typed, 1), told(1, "NoInterface")),
        "recording-old-no-interface": ("the same in the old form", one(1) + old_packet(typed, 1), told(1, "NoInterface")),
        "recording-simple-no-interface": ("a simple packet before any interface", section() + simple_packet(typed), told(1, "NoInterface")),
        "recording-interface-forgotten": ("an interface of the section before", whole + section() + packet(typed), shown + told(2, "NoInterface")),
        "recording-many-interfaces": ("257 interfaces", section() + 257 * interface(), told(1, "ManyInterfaces")),
        "recording-long": ("a packet that says that it keeps 262,145 bytes", one(1) + packet(b"", count=MOST + 1, length=MOST + 36)[:28],
            told(1, "RecordLong")),
        "recording-again": ("a packet whose block has another length at its end: it is shown first", one(1) + packet(typed, again=92),
            shown + told(2, "LengthAgain")),
        "recording-section-again": ("the same of a section's header", section(again=32), told(1, "LengthAgain")),
        "recording-skipped-again": ("the same of a block that is skipped", whole + block(99, bytes(4), again=20), shown + told(2, "LengthAgain")),
        "recording-cut-fields": ("the file ends among a packet's fields", whole + packet(typed)[:27], shown + told(2, "CutBlock")),
        "recording-cut-packet": ("a packet's last byte is missing", one(1) + packet(typed)[:28 + len(typed) - 1], told(1, "CutBlock")),
        "recording-cut-padding": ("a packet's padding is missing: it is shown first", one(1) + packet(typed)[:28 + len(typed)], shown + told(2, "CutBlock")),
        "recording-cut-end": ("the last byte of a block's length is missing", whole[:-1], shown + told(2, "CutBlock")),
        "recording-cut-block": ("ten bytes of a block that is skipped", whole + block(99, bytes(100))[:10], shown + told(2, "CutBlock")),
        "recording-cut-kind": ("three bytes behind a packet", whole + bytes(3), shown + told(2, "CutBlock")),
        "recording-cut-section": ("a section's header that ends behind its fields", section()[:24], told(1, "CutBlock")),
    }


def cases(request, lines):
    """What each shows, its bytes, and its text: of a packet, and of the lines behind the word of what carries it."""
    return {**carriers(request, lines), **blocks(request, lines), **faults(request, lines)}

"""What the tests of the page feed it: kept examples and transcripts, large files, and what wants to do harm."""
import base64
import glob
import os
import struct

import layout
from page_file import TOP

LARGE = 45_000_000
LONG = 10_000
ENDS = {".script": "replay", ".internet": "internet", ".pcap": "decode"}
PIECE = 1_500_000

# A script that tries to become more than text: as a name, as a host, as an end of what it stands in.
HARMFUL = """# </script><script>window.harmed = 1</script><img src=x onerror='window.harmed = 1'>
# <b>A</b> javascript:harmed (router 0)
# host 00000010.0000000000AA"><img src=x onerror=window.harmed=1>
router
port 00000010 000000000001 1 576
port <img/src=x/onerror=harmed=1> <b>A</b> 1 576
<img src=x onerror=window.harmed=1>
"""
HARMFUL_LINKS = [
    "#internet=%3Cimg%20src=x%20onerror=window.harmed=1%3E", "#__proto__=QUJD", "#internet=____", "#constructor", "#packet=PGltZz4",
    "#<img>",
]


def content(file):
    with open(file, "rb") as it:
        return it.read()


def kept():
    """Each example, transcript and capture that is kept: its name, verb, input, text and status."""
    for file in sorted(it for end in ENDS for it in glob.glob(f"{TOP}/examples/*{end}")):
        beside, end = os.path.splitext(file)
        status = int(content(f"{beside}.status")) if os.path.exists(f"{beside}.status") else 0
        yield os.path.basename(file), ENDS[end], content(file), content(f"{beside}.out"), status
    played = layout.tool("dev/transcripts")
    for file in sorted(glob.glob(f"{TOP}/tests/*/*.transcript")):
        verb = os.path.basename(os.path.dirname(file))
        for name, lines in played.cases(content(file)):
            case = played.Case(verb, lines)
            yield f"{os.path.basename(file)}: {name}", verb, case.typed, case.answered, case.status
    for file in sorted(glob.glob(f"{TOP}/tests/decode/*.pcap")):
        case = played.Capture(file)
        yield os.path.basename(file), "decode", case.typed, case.answered, case.status


def coded(content_of):
    return base64.b64encode(content_of).decode()


def many():
    """A capture of 210 packets, each between two others."""
    whole = content(f"{TOP}/examples/nearest-server.pcap")[:24]
    for number in range(210):
        frame = bytes.fromhex("FFFFFFFFFFFF0000000000018137FFFF001E0004") + bytes.fromhex("00000010FFFFFFFFFFFF4003")
        frame += struct.pack(">IHIH", 0x10, 0, number + 1, 0x4003)
        whole += struct.pack("<IIII", number, 0, len(frame), len(frame)) + frame
    return whole


def batches():
    """The kept cases as the page takes them, in lists that aren't too long for a driver."""
    batch, size = [], 0
    for name, verb, typed, answered, status in kept():
        coded = [base64.b64encode(it).decode() for it in (typed, answered)]
        batch.append([name, verb, *coded, status])
        size += sum(map(len, coded))
        if size > PIECE:
            yield batch
            batch, size = [], 0
    yield batch


def large(folder):
    """A capture of 45 MB: the records of an example, again and again. Returns the file, and how many records it has."""
    whole = content(f"{TOP}/examples/nearest-server.pcap")
    records = whole[24:]
    times = LARGE // len(records)
    file = os.path.join(folder, "large.pcap")
    with open(file, "wb") as it:
        it.write(whole[:24] + records * times)
    return file, 5 * times


def long_script(folder):
    """A script of 10,000 lines."""
    head = content(f"{TOP}/examples/ring.internet").decode().splitlines()
    lines = head + ["second 1" if k % 2 else "settle 1000" for k in range(LONG - len(head))]
    return written(folder, "long.internet", "\n".join(lines).encode() + b"\n")


def endless(folder):
    """A script that takes minutes."""
    head = [it for it in content(f"{TOP}/examples/storm.internet").decode().splitlines() if it.split()[:1] in (["router"], ["port"])]
    return written(folder, "endless.internet", "\n".join(head + [f"start {k}" for k in range(30)] + ["second 86400"] * 2000).encode())


def written(folder, name, bytes_of):
    file = os.path.join(folder, name)
    with open(file, "wb") as it:
        it.write(bytes_of)
    return file


def block(kind, body):
    body += bytes(-len(body) % 4)
    size = struct.pack("<I", 12 + len(body))
    return struct.pack("<I", kind) + size + body + size


def pcapng():
    """The records of an example as pcapng, with an interface of another link type, a packet of it, and blocks that aren't packets."""
    whole = content(f"{TOP}/examples/nearest-server.pcap")
    made = block(0x0A0D0D0A, struct.pack("<IHHq", 0x1A2B3C4D, 1, 0, -1))
    made += block(1, struct.pack("<HHI", 1, 0, 0)) + block(1, struct.pack("<HHI", 6, 0, 0)) + block(4, bytes(4))
    at = 24
    while at < len(whole):
        second, part, count, wire = struct.unpack_from("<IIII", whole, at)
        ticks = second * 1_000_000 + part
        made += block(6, struct.pack("<IIIII", 0, ticks >> 32, ticks & 0xFFFFFFFF, count, wire) + whole[at + 16 : at + 16 + count])
        at += 16 + count
    return made + block(6, struct.pack("<IIIII", 1, 0, 0, 4, 4) + bytes(4)) + block(5, bytes(12))

"""What programs and libraries say of themselves: for which processor they are, and what they ask of a system."""
import re
import struct
import subprocess
from typing import NamedTuple

ELF, PE = b"\x7fELF", b"MZ"
MACHINES = {40: "armhf", 62: "x86_64", 183: "aarch64", 0x8664: "x86_64"}
# Kinds of segments of an ELF file, and what asks for another library.
LOADED, DYNAMIC = 1, 2
NEEDED = 1
# A note that names the oldest Linux: lengths, kind, owner, and behind them the system (0) and three numbers.
OLDEST_LINUX = re.compile(rb"\x04\0\0\0\x10\0\0\0\x01\0\0\0GNU\0\0\0\0\0(.{12})", re.S)
PE_TIME, PE_MACHINE = 8, 4


class Layout(NamedTuple):
    """Where an ELF file of 32 or of 64 bits has what is looked at: the place of the table of segments, how long its entries are and how many;
    what names its sections, by place and length; a segment, and where in it kind, offset, address, length and room stand; and an entry of
    what it asks for."""

    start: str
    start_at: int
    counts_at: int
    of_sections: tuple
    segment: str
    fields: tuple
    entry: str


# By the byte behind an ELF file's first four.
LAYOUTS = {
    1: Layout("<I", 0x1C, 0x2A, ((0x20, 4), (0x2E, 6)), "<IIIIII", (0, 1, 2, 4, 5), "<II"),
    2: Layout("<Q", 0x20, 0x36, ((0x28, 8), (0x3A, 6)), "<IIQQQQQ", (0, 2, 3, 5, 6), "<QQ"),
}


def pe_head(binary):
    """Where the head of a PE file begins."""
    return struct.unpack_from("<I", binary, 0x3C)[0]


def machine(binary):
    """The processor that a program is for, or nothing where it is no program."""
    if binary.startswith(ELF):
        return MACHINES.get(struct.unpack_from("<H", binary, 18)[0])
    if binary.startswith(PE):
        return MACHINES.get(struct.unpack_from("<H", binary, pe_head(binary) + PE_MACHINE)[0])
    return None


def segments(binary):
    """The segments of an ELF file: their kind, their place in memory, the room there, and their bytes. Where its sections stand isn't
    looked at."""
    masked, known = bytearray(binary), LAYOUTS[binary[4]]
    # (where the table of sections begins; the size of its entries, their number, and which has the names)
    for at, length in known.of_sections:
        masked[at : at + length] = bytes(length)
    start, size, count = *struct.unpack_from(known.start, masked, known.start_at), *struct.unpack_from("<HH", masked, known.counts_at)
    for at in range(start, start + size * count, size):
        found = struct.unpack_from(known.segment, masked, at)
        kind, offset, place, length, room = (found[it] for it in known.fields)
        yield kind, place, room, bytes(masked[offset : offset + length])


def is_linked(binary):
    """Whether an ELF file asks for a library; one that is linked statically doesn't."""
    entry = struct.Struct(LAYOUTS[binary[4]].entry)
    tables = (text for kind, _, _, text in segments(binary) if kind == DYNAMIC)
    return any(tag == NEEDED for text in tables for tag, _ in entry.iter_unpack(text[: len(text) // entry.size * entry.size]))


def libc(binaries):
    """The oldest version of the GNU C library that has all that ELF files ask for, or nothing where they ask for none."""
    linked = [it for it in binaries if it.startswith(ELF) and is_linked(it)]
    asked = {tuple(map(int, it.split(b"."))) for text in linked for it in re.findall(rb"GLIBC_(\d+(?:\.\d+)+)", text)}
    return ".".join(map(str, max(asked))) if asked else ""


def linux(binaries):
    """The oldest Linux that ELF files run on, as their notes say; nothing where none says it."""
    found = [struct.unpack("<III", it[1])[:2] for it in map(OLDEST_LINUX.search, binaries) if it]
    return ".".join(map(str, max(found))) if found else ""


def pe_time(binary):
    """The time that a linker wrote into a PE file; none is 0."""
    return struct.unpack_from("<I", binary, pe_head(binary) + PE_TIME)[0]


def pe_libraries(objdump, file):
    """The libraries that a PE file asks for, as the objdump for it tells."""
    text = subprocess.run([objdump, "-p", file], stdout=subprocess.PIPE, check=True).stdout.decode(errors="replace")
    return re.findall(r"DLL Name: (\S+)", text)

#!/usr/bin/env python3
"""Lowers a module of WebAssembly whose memory and tables have 64 bits to one of 32 bits, which every engine takes.

    tools/lib/wasm32.py [--checked] [--tables] IN.wasm OUT.wasm

Numbers that hold an address stay 64 bits wide, and so do the parameters of functions that are imported and exported. An address is cut to
its lower 32 bits where it is used: by a load or a store, by what copies or fills, and by a call through a table. The size of a memory or
table is widened where it is asked for, and so is the -1 of a growth that is refused. Limits and the places of segments are written anew.

What is assumed: an address that is used, or a count of bytes, is below 2^32. A larger one traps with 64 bits, since no memory reaches that
far; here its upper half is cut off. With --checked it traps here too, for which each access pays. An access whose offset, as the
instruction has it, is 2^32 or more always traps, in both; and to grow by so much is refused, in both.

With --tables only the tables are lowered, for engines that know no wide ones. An engine checks all types before it runs a module, and so
refuses one in which an address is left that should have been cut. Custom sections are left out, but for the names. It stops at whatever it
doesn't know.
"""
import sys

sys.dont_write_bytecode = True
from wasm32_code import Body, Shape, Table
from wasm_format import END, I32_CONST, I64_CONST, MOST_32, Reader, Unknown, signed, unsigned, vector

HEAD = b"\0asm\1\0\0\0"
CUSTOM, TYPE, IMPORT, FUNCTION, TABLE, MEMORY, GLOBAL, EXPORT, START, ELEMENT, CODE, DATA, DATA_COUNT = range(13)
NAMES = b"\4name"
FUNCTION_FORM = 0x60
# Flags of limits: there is a most, and what is limited has 64 bits.
HAS_MOST, IS_WIDE = 1, 4
MOST_PAGES = 1 << 16
# What is imported.
IS_FUNCTION, IS_TABLE, IS_MEMORY, IS_GLOBAL = range(4)
# A segment is put in its place before all begins, or is there to be copied; one that is placed may name its table or memory.
IS_PLACED, IS_PASSIVE, IS_PLACED_BY_NUMBER = range(3)


class Lowering:
    """A module while it is rewritten, section after section."""

    def __init__(self, cuts_memory, is_checked):
        self.cuts_memory, self.shape = cuts_memory, Shape(is_checked, [], [], [], [])
        self.imported, self.bodies = 0, 0
        # What comes in behind the entries of a section.
        self.added = {}
        # How each entry of a section is rewritten.
        self.entries = {
            TYPE: self.type,
            IMPORT: self.imports,
            FUNCTION: self.function,
            TABLE: self.table,
            MEMORY: self.memory,
            ELEMENT: self.element,
            CODE: self.code,
            DATA: self.data,
        }

    def section(self, kind, content):
        """What a section is to be."""
        it = Reader(content, f"section {kind}")
        if kind in self.entries:
            made = vector([self.entries[kind](it) for _ in range(it.unsigned())] + self.added.get(kind, []))
            if it.more():
                it.fail("it has more than its entries")
            return made
        if kind not in (GLOBAL, EXPORT, START, DATA_COUNT):
            it.fail("no such section is known")
        return content

    def type(self, it):
        """The type of a function."""
        start = it.at
        if it.byte() != FUNCTION_FORM:
            it.fail("a type that is no function's")
        counts = [len([it.value() for _ in range(it.unsigned())]) for _ in ("parameters", "results")]
        self.shape.types.append(counts[0])
        return it.since(start)

    def function(self, it):
        """The number of a function's type."""
        start = it.at
        if (kind := it.unsigned()) >= len(self.shape.types):
            it.fail(f"a type {kind}")
        self.shape.functions.append(self.shape.types[kind])
        return it.since(start)

    def imports(self, it):
        start = it.at
        it.bytes(), it.bytes()
        kind = it.byte()
        head = it.since(start)
        if kind == IS_GLOBAL:
            it.value(), it.byte()
            return it.since(start)
        if kind not in (IS_FUNCTION, IS_TABLE, IS_MEMORY):
            it.fail(f"an import of kind {kind}")
        self.imported += kind == IS_FUNCTION
        return head + (self.function, self.table, self.memory)[kind](it)

    def table(self, it):
        kind = it.value()
        found, is_wide = limits(it, MOST_32, True)
        self.shape.tables.append(Table(kind, is_wide))
        return bytes([kind]) + found

    def memory(self, it):
        if self.shape.memories:
            it.fail("a second memory")
        found, is_cut = limits(it, MOST_PAGES, self.cuts_memory)
        self.shape.memories.append(is_cut)
        return found

    def element(self, it):
        """A segment of functions, for a table."""
        head, place, kind = self.segment(it, [table.is_cut for table in self.shape.tables])
        start = it.at
        if kind != IS_PLACED and it.byte() != IS_FUNCTION:
            it.fail("a segment that isn't of functions")
        for _ in range(it.unsigned()):
            it.unsigned()
        return head + place + it.since(start)

    def data(self, it):
        """A segment of bytes, for the memory."""
        head, place, _ = self.segment(it, self.shape.memories)
        start = it.at
        it.bytes()
        return head + place + it.since(start)

    def segment(self, it, cuts):
        """How a segment begins: its kind and what it is for, its place, and its kind alone. `cuts` tells what it may be for, and whether
        that is cut."""
        start, number = it.at, 0
        if (kind := it.unsigned()) > IS_PLACED_BY_NUMBER:
            it.fail(f"a segment of kind {kind}")
        if kind == IS_PLACED_BY_NUMBER:
            number = it.unsigned()
        if kind != IS_PASSIVE and number >= len(cuts):
            it.fail(f"a segment for {number}, which isn't there")
        head = it.since(start)
        return head, place_of(it, cuts[number]) if kind != IS_PASSIVE else b"", kind

    def code(self, it):
        """The code of the next function that isn't imported."""
        self.bodies += 1
        return self.body(it.bytes(), self.imported + self.bodies - 1).lowered()

    def body(self, content, function):
        return Body(content, self.shape, function)


def limits(it, most, cuts):
    """Limits as they are to be, and whether they were cut."""
    flags = it.byte()
    if flags & ~(HAS_MOST | IS_WIDE):
        it.fail(f"limits' flags {flags:#04x}")
    least, end = it.unsigned(), it.unsigned() if flags & HAS_MOST else most
    is_cut = cuts and flags & IS_WIDE != 0
    if not is_cut:
        return bytes([flags]) + unsigned(least) + (unsigned(end) if flags & HAS_MOST else b""), False
    if least > most:
        it.fail(f"at least {least}, which 32 bits don't reach")
    return bytes([flags & HAS_MOST]) + unsigned(least) + (unsigned(min(end, most)) if flags & HAS_MOST else b""), True


def place_of(it, is_cut):
    """Where a segment begins: a constant."""
    start, code = it.at, it.byte()
    place = it.signed() if code in (I32_CONST, I64_CONST) else it.fail("a segment that doesn't begin at a constant")
    if it.byte() != END:
        it.fail("a segment that doesn't begin at one constant")
    if not is_cut:
        return it.since(start)
    if not 0 <= place <= MOST_32:
        it.fail(f"a segment at {place}, which 32 bits don't reach")
    # (the format's constants have a sign)
    return bytes([I32_CONST]) + signed(place - (place >> 31 << 32)) + bytes([END])


def lowered(module, cuts_memory=True, is_checked=False):
    """The module with 32 bits of memory and tables, or of tables alone."""
    return rewritten(module, Lowering(cuts_memory, is_checked))


def rewritten(module, rewriting):
    """The module with each section as it is to be."""
    it, found = Reader(module, "the module"), [HEAD]
    if it.take(len(HEAD)) != HEAD:
        it.fail("this is no module")
    while it.more():
        kind, content = it.byte(), it.bytes()
        if kind != CUSTOM:
            content = rewriting.section(kind, content)
        if kind != CUSTOM or content.startswith(NAMES):
            found.append(bytes([kind]) + unsigned(len(content)) + content)
    return b"".join(found)


def main(words):
    flags, names = {it for it in words if it.startswith("--")}, [it for it in words if not it.startswith("--")]
    if len(names) != 2 or flags - {"--checked", "--tables"}:
        return "usage: tools/lib/wasm32.py [--checked] [--tables] IN.wasm OUT.wasm"
    try:
        with open(names[0], "rb") as it:
            made = lowered(it.read(), "--tables" not in flags, "--checked" in flags)
        with open(names[1], "wb") as it:
            it.write(made)
    except (Unknown, OSError) as why:
        return f"tools/lib/wasm32.py: {why}"
    return 0


if __name__ == "__main__":
    sys.exit(main(sys.argv[1:]))

"""A module of WebAssembly as it is read: its types, calls, functions with their instructions, and data. It stops at whatever isn't known
here: floats of 32 bits, vectors, calls through a table, a second memory. A float of 64 bits is read as the number that its bits are.

A module that is linked twice, with its data at another place, tells which of its numbers are addresses of data (`placed`): they differ by
as much as the places do, and nothing else differs at all. So do the words of the data that are addresses of data.
"""
from typing import NamedTuple

from wasm32 import (CODE, CUSTOM, DATA, ELEMENT, EXPORT, FUNCTION, FUNCTION_FORM, GLOBAL, HEAD, IMPORT, IS_FUNCTION, MEMORY, TABLE, TYPE,
                    limits, place_of)
from wasm_format import END, F64, I32, I64, I64_CONST, MOST_32, Reader, Unknown

BLOCK, LOOP, IF, ELSE, BRANCH, BRANCH_IF, BRANCH_TABLE, RETURN, CALL = 0x02, 0x03, 0x04, 0x05, 0x0C, 0x0D, 0x0E, 0x0F, 0x10
UNREACHABLE, NOTHING, DROP, SELECT = 0x00, 0x01, 0x1A, 0x1B
LOCAL_GET, LOCAL_SET, LOCAL_TEE, GLOBAL_GET, GLOBAL_SET, I32_CONST = 0x20, 0x21, 0x22, 0x23, 0x24, 0x41
BULK, COPY, FILL = 0xFC, 10, 11
MEMORY_COPY, MEMORY_FILL = BULK << 8 | COPY, BULK << 8 | FILL
LOADS, STORES = [0x28, 0x29, *range(0x2C, 0x36)], [0x36, 0x37, *range(0x3A, 0x3F)]
# Of floats: less, less or equal, sum, product, quotient, and what a number without a sign is; a constant, and what goes to memory and back as
# a number does. A float whose bits are a number, and a number whose bits are a float, are no work.
OF_FLOATS = [0x63, 0x65, 0xA0, 0xA2, 0xA3, 0xBA]
FLOAT_CONST, FLOAT_BYTES = 0x44, 8
AS_NUMBERS = {0x2B: 0x29, 0x39: 0x37}
SAME_BITS = (0xBD, 0xBF)
WORKS = [*range(0x45, 0x5B), *range(0x67, 0x8B), 0xA7, 0xAC, 0xAD, *range(0xC0, 0xC5), *OF_FLOATS]
ALONE = {UNREACHABLE, NOTHING, ELSE, END, RETURN, DROP, SELECT, *WORKS}
NUMBERED = {BRANCH, BRANCH_IF, CALL, LOCAL_GET, LOCAL_SET, LOCAL_TEE, GLOBAL_GET, GLOBAL_SET}
# What has a number that may be an address, or an offset from one.
ADDRESSED = {I64_CONST, *LOADS, *STORES}
NO_RESULT, RESULTS = -0x40, {I32 - 0x80: I32, I64 - 0x80: I64, F64 - 0x80: I64}
MOST_ALIGNMENT = 3
# How long an address is, and what divides its place.
WORD = 8


class Instruction(NamedTuple):
    """An instruction: its number, and what stands in it."""

    code: int
    number: object = None


def number_of(kind):
    """The type of the numbers by which values of a type are had."""
    return I64 if kind == F64 else kind


class Place(NamedTuple):
    """An address of the data: how far behind its beginning."""

    offset: int


class Type(NamedTuple):
    """What a function takes and gives."""

    takes: list
    gives: list


class Function(NamedTuple):
    """A function that is no import: its type, the types of its further locals, and its instructions."""

    type: Type
    locals: list
    code: list


class Module:
    """A module, section after section."""

    def __init__(self, content):
        self.types, self.imported, self.kinds, self.functions, self.exported = [], [], [], [], {}
        # Of the data, where addresses stand in it, once that is known, and where each leads to.
        self.data, self.addresses, self.globals = [], [], 0
        it = Reader(content, "the module")
        if it.take(len(HEAD)) != HEAD:
            it.fail("this is no module")
        while it.more():
            kind, part = it.byte(), Reader(it.bytes(), "a section")
            if kind != CUSTOM:
                self.section(kind, part)

    def section(self, kind, it):
        entries = {TYPE: self.type, IMPORT: self.one_import, FUNCTION: self.kind, TABLE: self.table, MEMORY: self.memory,
                   GLOBAL: self.one_global, EXPORT: self.export, ELEMENT: self.element, CODE: self.body, DATA: self.segment}
        if kind not in entries:
            it.fail(f"a section {kind}")
        for _ in range(it.unsigned()):
            entries[kind](it)
        if it.more():
            it.fail("it has more than its entries")

    def type(self, it):
        if it.byte() != FUNCTION_FORM:
            it.fail("a type that is no function's")
        self.types.append(Type(*([number_of(it.value()) for _ in range(it.unsigned())] for _ in ("takes", "gives"))))

    def one_import(self, it):
        it.bytes()
        name, kind = it.bytes().decode(), it.byte()
        if kind != IS_FUNCTION:
            it.fail(f"an import {name} of kind {kind}")
        self.imported.append((name, self.types[it.unsigned()]))

    def kind(self, it):
        self.kinds.append(self.types[it.unsigned()])

    def table(self, it):
        it.value(), limits(it, MOST_32, False)

    def memory(self, it):
        limits(it, MOST_32, False)

    def one_global(self, it):
        # (the stack's place, which C has in its own way)
        if it.value() != I64 or it.byte() != 1 or it.byte() != I64_CONST:
            it.fail("a global that isn't the stack's")
        it.signed()
        self.globals += 1
        if it.byte() != END or self.globals > 1:
            it.fail("a second global, or one that isn't a number")

    def export(self, it):
        name, kind, number = it.bytes().decode(), it.byte(), it.unsigned()
        if kind == IS_FUNCTION:
            self.exported[name] = number

    def element(self, it):
        it.fail("functions in a table")

    def segment(self, it):
        if it.unsigned() != 0:
            it.fail("data that is there to be copied")
        place = Reader(place_of(it, False)[1:], "a place").signed()
        self.data.append((place, it.bytes()))

    def body(self, it):
        number = len(self.functions)
        self.functions.append(Reading(it.bytes(), number).function(self.kinds[number]))

    def type_of(self, number):
        """The type of a function, imported or not."""
        here = number - len(self.imported)
        return self.imported[number][1] if here < 0 else self.functions[here].type


class Reading:
    """The code of a function while it is read."""

    def __init__(self, content, number):
        self.it = Reader(content, f"function {number}")

    def whole(self):
        """A type of numbers."""
        if (kind := self.it.value()) not in (I32, I64, F64):
            self.it.fail("a float of 32 bits, a vector or a reference")
        return number_of(kind)

    def function(self, kind):
        found = []
        for _ in range(self.it.unsigned()):
            count, each = self.it.unsigned(), self.whole()
            found += [each] * count
        code = []
        while self.it.more():
            code.append(self.instruction())
        return Function(kind, found, code)

    def instruction(self):
        code = self.it.byte()
        code = NOTHING if code in SAME_BITS else AS_NUMBERS.get(code, code)
        if code in ALONE:
            return Instruction(code)
        if code in NUMBERED:
            return Instruction(code, self.it.unsigned())
        if code in (BLOCK, LOOP, IF):
            if (kind := self.it.signed()) != NO_RESULT and kind not in RESULTS:
                self.it.fail(f"a block of type {kind}")
            return Instruction(code, RESULTS.get(kind))
        if code in (I32_CONST, I64_CONST):
            return Instruction(code, self.it.signed())
        if code == FLOAT_CONST:
            return Instruction(I64_CONST, int.from_bytes(self.it.take(FLOAT_BYTES), "little"))
        if code in LOADS or code in STORES:
            if self.it.unsigned() > MOST_ALIGNMENT:
                self.it.fail("an alignment, or another memory")
            return Instruction(code, self.it.unsigned())
        if code == BRANCH_TABLE:
            return Instruction(code, [self.it.unsigned() for _ in range(self.it.unsigned() + 1)])
        return self.bulk(code)

    def bulk(self, code):
        kind = self.it.unsigned() if code == BULK else None
        if kind not in (COPY, FILL) or any(self.it.take(2 if kind == COPY else 1)):
            self.it.fail(f"an instruction {code:#x}")
        return Instruction(code << 8 | kind)


def whole(data, place):
    """The data as one text of bytes."""
    made = bytearray(max((at + len(content) for at, content in data), default=place) - place)
    for at, content in data:
        made[at - place : at - place + len(content)] = content
    return made


def addresses(one, other, places):
    """Where addresses stand in data that was linked at two places, with what each leads to. The data has 0 there then."""
    found = []
    for at in range(0, len(one) - WORD + 1, WORD):
        first, second = (int.from_bytes(it[at : at + WORD], "little") for it in (one, other))
        if second - first == places[1] - places[0] and 0 <= first - places[0] <= len(one):
            found.append((at, first - places[0]))
            one[at : at + WORD] = other[at : at + WORD] = bytes(WORD)
    return found


def placed(first, second, places):
    """The first of two modules that differ in the place of their data alone, with what is an address as a place in the data."""
    apart = places[1] - places[0]
    alike = [(it.types, it.imported, it.exported, [len(code.code) for code in it.functions]) for it in (first, second)]
    data = [whole(it.data, place) for it, place in zip((first, second), places)]
    first.addresses = addresses(*data, places)
    if alike[0] != alike[1] or data[0] != data[1]:
        raise Unknown("data at another place makes another module")

    def settled(one, other):
        if one == other:
            return one
        if one.code != other.code or one.code not in ADDRESSED or other.number - one.number != apart:
            raise Unknown(f"data at another place makes {other} of {one}")
        if one.number - places[0] > len(data[0]):
            raise Unknown(f"{one} leads behind the data")
        return Instruction(one.code, Place(one.number - places[0]))

    first.functions = [it._replace(code=[*map(settled, it.code, other.code)]) for it, other in zip(first.functions, second.functions)]
    first.data = [(0, bytes(data[0]))] if data[0] else []
    return first

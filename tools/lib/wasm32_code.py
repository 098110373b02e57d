"""The code of a function of WebAssembly, rewritten for a memory and tables of 32 bits: tools/lib/wasm32.py tells what comes of it."""
from typing import NamedTuple

from wasm_format import END, F32, F64, I32, I32_CONST, I64, I64_CONST, MOST_32, V128, Reader, signed, unsigned, vector

# In lists of operands: an address, an index or a count of 64 bits.
WIDE = None
# Instructions that are written here.
UNREACHABLE, IF, NO_RESULT, LOCAL_GET, LOCAL_SET, LOCAL_TEE = 0x00, 0x04, 0x40, 0x20, 0x21, 0x22
SELECT, I32_EQZ, I64_EQZ, I64_LT_U, I64_SHR_U = b"\x1b", b"\x45", b"\x50", b"\x54", b"\x88"
WRAP, EXTEND_SIGNED, EXTEND = b"\xa7", b"\xac", b"\xad"


def nothing(_):
    """The rest of an instruction that has none."""


def number(it):
    it.unsigned()


def block_type(it):
    it.signed()


def branch_table(it):
    for _ in range(it.unsigned() + 1):
        it.unsigned()


def typed_select(it):
    for _ in range(it.unsigned()):
        it.value()


def bytes_of(count):
    return lambda it: it.take(count)


# What puts one value on the stack and takes none, whatever stands there.
PUSHES = {LOCAL_GET, I32_CONST, I64_CONST, 0x43, 0x44}
# How the rest of an instruction is read that stays as it is, by its number.
KEPT = {
    **dict.fromkeys([0x00, 0x01, 0x05, END, 0x0F, 0x1A, 0x1B, 0xD1, *range(0x45, 0xC5)], nothing),
    **dict.fromkeys([0x02, 0x03, 0x04], block_type),
    **dict.fromkeys([0x0C, 0x0D, 0x10, *range(0x20, 0x25), 0xD2], number),
    0x0E: branch_table,
    0x1C: typed_select,
    **dict.fromkeys([I32_CONST, I64_CONST], Reader.signed),
    0x43: bytes_of(4),
    0x44: bytes_of(8),
    0xD0: Reader.value,
}
# Those with two numbers. Of the first kind stay: rounding to what fits, and segments that are dropped; of the second: constants, shuffles,
# lanes, and all without a rest.
BULK, SIMD = 0xFC, 0xFD
KEPT_BULK = {**dict.fromkeys(range(8), nothing), **dict.fromkeys([9, 13], number)}
NO_SIMD = {154, 162, 165, 166, 175, 176, 178, 179, 180, 187, 194, 197, 198, 207, 208, 210, 211, 212, 226, 238}
KEPT_SIMD = {
    **dict.fromkeys({*range(14, 21), *range(35, 84), *range(94, 256)} - NO_SIMD, nothing),
    **dict.fromkeys([12, 13], bytes_of(16)),
    **dict.fromkeys(range(21, 35), bytes_of(1)),
}
# What stands on the stack for an access to memory, the address first.
ACCESSES = {
    **dict.fromkeys(range(0x28, 0x36), [WIDE]),
    **dict.fromkeys([0x36, 0x3A, 0x3B], [WIDE, I32]),
    **dict.fromkeys([0x37, 0x3C, 0x3D, 0x3E], [WIDE, I64]),
    0x38: [WIDE, F32],
    0x39: [WIDE, F64],
}
SIMD_ACCESSES = {**dict.fromkeys([*range(11), 92, 93], [WIDE]), **dict.fromkeys([11, *range(84, 92)], [WIDE, V128])}
WITH_LANE = range(84, 92)
# The most alignment, as a power of two; a larger number says that another memory is meant.
MOST_ALIGNMENT = 4
CALL_INDIRECT, TABLE_GET, TABLE_SET, MEMORY_SIZE, MEMORY_GROW = 0x11, 0x25, 0x26, 0x3F, 0x40
MEMORY_INIT, MEMORY_COPY, MEMORY_FILL, TABLE_INIT, TABLE_COPY, TABLE_GROW, TABLE_SIZE, TABLE_FILL = 8, 10, 11, 12, 14, 15, 16, 17


class Table(NamedTuple):
    """The type of what a table holds, and whether its indices are to be cut."""

    kind: int
    is_cut: bool


class Shape(NamedTuple):
    """What the code of a module stands on: for each memory whether its addresses are to be cut, each table, how many parameters each type
    and each function has, and whether a cut is checked."""

    is_checked: bool
    memories: list
    tables: list
    types: list
    functions: list


class Body:
    """The code of a function while it is rewritten."""

    def __init__(self, content, shape, function):
        self.read, self.shape = Reader(content, f"function {function}"), shape
        self.locals, self.count = [], shape.functions[function]
        # The locals that come in, by their type and what they are for, and these types in order.
        self.places, self.new = {}, []
        # What was written, instruction by instruction.
        self.code = []

    def lowered(self):
        """The function, behind its length."""
        for _ in range(self.read.unsigned()):
            count, kind = self.read.unsigned(), self.read.value()
            self.count += count
            self.locals.append(unsigned(count) + bytes([self.kind(kind)]))
        while self.read.more():
            self.code.append(self.instruction())
        body = vector(self.locals + [bytes([1, kind]) for kind in self.new]) + b"".join(self.code)
        return unsigned(len(body)) + body

    def kind(self, kind):
        """The type that a local of a type is to have."""
        return kind

    def place(self, kind, what):
        """The number of a local of that type which the original hasn't."""
        if (kind, what) not in self.places:
            self.places[kind, what] = unsigned(self.count + len(self.new))
            self.new.append(kind)
        return self.places[kind, what]

    def cut(self):
        """Makes an address of 32 bits of the one of 64 on the stack."""
        if not self.shape.is_checked:
            return WRAP
        whole = self.place(I64, "whole")
        upper = bytes([LOCAL_GET]) + whole + bytes([I64_CONST, 32]) + I64_SHR_U
        return bytes([LOCAL_TEE]) + whole + WRAP + upper + I64_EQZ + I32_EQZ + bytes([IF, NO_RESULT, UNREACHABLE, END])

    def growth(self):
        """Makes 32 bits of how much is to grow. Of what they don't hold they become the most, which is always refused."""
        whole, most = self.place(I64, "whole"), bytes([I64_CONST]) + signed(MOST_32)
        return bytes([LOCAL_TEE]) + whole + most + bytes([LOCAL_GET]) + whole + most + I64_LT_U + SELECT + WRAP

    def narrow(self, operands):
        """Cuts what is wide among the operands, of which the last is on top. Those above the lowest of these step aside for it; where that
        is one, and the instruction before did nothing but to put it there, this comes first."""
        if WIDE not in operands:
            return b""
        above = operands[operands.index(WIDE) + 1 :]
        if len(above) == 1 and above[0] is not WIDE and self.code and self.code[-1][0] in PUSHES:
            self.code.insert(-1, self.cut())
            return b""
        places = [self.place(I32 if kind is WIDE else kind, at) for at, kind in enumerate(above)]
        aside = [(self.cut() if kind is WIDE else b"") + bytes([LOCAL_SET]) + to for kind, to in zip(above, places)]
        return b"".join(reversed(aside)) + self.cut() + b"".join(bytes([LOCAL_GET]) + it for it in places)

    def instruction(self):
        """The next instruction, with what it needs before and behind it."""
        start, code = self.read.at, self.read.byte()
        if code in KEPT:
            KEPT[code](self.read)
            return self.read.since(start)
        if code in ACCESSES:
            return self.access(ACCESSES[code], start)
        if code == BULK:
            return self.bulk(start)
        if code == SIMD:
            return self.simd(start)
        if code in (MEMORY_SIZE, MEMORY_GROW):
            return self.sized(self.memory(), code == MEMORY_GROW, start)
        if code == CALL_INDIRECT:
            self.read.unsigned()
            return self.narrow([self.index(self.table())]) + self.read.since(start)
        if code in (TABLE_GET, TABLE_SET):
            table = self.table()
            return self.narrow([self.index(table), table.kind][: 1 + (code == TABLE_SET)]) + self.read.since(start)
        return self.read.fail(f"an instruction {code:#04x}")

    def access(self, operands, start, lane=0):
        """A load or a store; where a lane is loaded or stored, its number follows."""
        align = self.read.unsigned()
        if align > MOST_ALIGNMENT or not self.shape.memories:
            self.read.fail(f"an alignment {align}, or no memory")
        offset = self.read.unsigned()
        self.read.take(lane)
        if not self.shape.memories[0]:
            return self.read.since(start)
        return self.narrow(operands) + self.read.since(start) if offset <= MOST_32 else bytes([UNREACHABLE])

    def simd(self, start):
        """An instruction of vectors."""
        code = self.read.unsigned()
        if code in SIMD_ACCESSES:
            return self.access(SIMD_ACCESSES[code], start, int(code in WITH_LANE))
        if code not in KEPT_SIMD:
            self.read.fail(f"an instruction of vectors {code}")
        KEPT_SIMD[code](self.read)
        return self.read.since(start)

    def bulk(self, start):
        """An instruction that rounds, copies, fills or grows."""
        code = self.read.unsigned()
        if code in KEPT_BULK:
            KEPT_BULK[code](self.read)
            return self.read.since(start)
        if code in (TABLE_GROW, TABLE_SIZE):
            return self.sized(self.table().is_cut, code == TABLE_GROW, start)
        operands = self.moved(code)
        return self.narrow(operands) + self.read.since(start)

    def moved(self, code):
        """The operands of what copies or fills: where to, from where or what, and how much."""
        if code in (MEMORY_INIT, TABLE_INIT):
            self.read.unsigned()
            return [self.address() if code == MEMORY_INIT else self.index(self.table()), I32, I32]
        if code == MEMORY_FILL:
            return [to := self.address(), I32, to]
        if code == MEMORY_COPY:
            return [self.address(), to := self.address(), to]
        if code == TABLE_FILL:
            return [self.index(table := self.table()), table.kind, self.index(table)]
        if code == TABLE_COPY:
            ends = [self.index(self.table()), self.index(self.table())]
            return [*ends, I32 if I32 in ends else WIDE]
        return self.read.fail(f"an instruction of bulk memory {code}")

    def sized(self, is_cut, grows, start):
        """What asks for a size, or grows and tells the size before."""
        if not is_cut:
            return self.read.since(start)
        return (self.growth() if grows else b"") + self.read.since(start) + (EXTEND_SIGNED if grows else EXTEND)

    def memory(self):
        """Whether the addresses of the memory whose number is next are to be cut."""
        if self.read.unsigned() != 0 or not self.shape.memories:
            self.read.fail("a second memory, or none")
        return self.shape.memories[0]

    def address(self):
        return WIDE if self.memory() else I32

    def table(self):
        """The table whose number is next."""
        if (at := self.read.unsigned()) >= len(self.shape.tables):
            self.read.fail(f"a table {at}")
        return self.shape.tables[at]

    def index(self, table):
        return WIDE if table.is_cut else I32

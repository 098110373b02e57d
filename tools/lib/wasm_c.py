"""What each instruction of WebAssembly that works on whole numbers is in C: as an expression of unsigned numbers of 32 and 64 bits, which C
defines in full, so that no compiler may make anything else of it. What takes more than an operator is a function of
host/library/operations.h.
"""
from typing import NamedTuple

from wasm_format import I32, I64, Unknown
from wasm_read import Place

C_TYPES = {I32: "uint32_t", I64: "uint64_t"}
BITS = {I32: 32, I64: 64}
PREFIX = "ipxri_"
# The address where the data begins.
DATA = f"{PREFIX}address({PREFIX}data)"
MOST_SHORT = (1 << 32) - 1
LARGE = 1 << 16
NEGATED = {"==": "!=", "!=": "==", "<": ">=", ">=": "<", ">": "<=", "<=": ">"}
# By the number behind the first of its kind: an operator, or the name of a function.
COMPARISONS = ["==", "!=", "lt_s", "<", "gt_s", ">", "le_s", "<=", "ge_s", ">="]
SIGNED = {"lt_s": "<", "gt_s": ">", "le_s": "<=", "ge_s": ">="}
UNARY = ["clz", "ctz", "popcnt"]
BINARY = ["+", "-", "*", "div_s", "div_u", "rem_s", "rem_u", "&", "|", "^", "<<", "shr_s", ">>", "rotl", "rotr"]
SHIFTS = ("<<", ">>", "shr_s", "rotl", "rotr")
# Where a wrong operand traps, so that it is worked out in its place among what has effects.
TRAPS = ("div_s", "div_u", "rem_s", "rem_u")
EQZ = {0x45: I32, 0x50: I64}
# Of floats, which are had as their bits: what each work gives.
FLOATS = {"f64_lt": I32, "f64_le": I32, "f64_add": I64, "f64_mul": I64, "f64_div": I64}
OF_TWO = {
    **{0x46 + at: (I32, name) for at, name in enumerate(COMPARISONS)},
    **{0x51 + at: (I64, name) for at, name in enumerate(COMPARISONS)},
    **{0x6A + at: (I32, name) for at, name in enumerate(BINARY)},
    **{0x7C + at: (I64, name) for at, name in enumerate(BINARY)},
    **{code: (I64, name) for code, name in zip((0x63, 0x65, 0xA0, 0xA2, 0xA3), FLOATS)},
}
OF_ONE = {**{0x67 + at: (I32, name) for at, name in enumerate(UNARY)}, **{0x79 + at: (I64, name) for at, name in enumerate(UNARY)},
          0xC0: (I32, "extend1_"), 0xC1: (I32, "extend2_"), 0xC2: (I64, "extend1_"), 0xC3: (I64, "extend2_"), 0xC4: (I64, "extend4_")}
WRAP, EXTEND_SIGNED, EXTEND, FLOAT = 0xA7, 0xAC, 0xAD, 0xBA
# Of each load and store: the type of the number, how many bytes lie in memory, and for a load whether their highest bit is a sign.
LOADS = {
    0x28: (I32, 4, False), 0x29: (I64, 8, False), 0x2C: (I32, 1, True), 0x2D: (I32, 1, False), 0x2E: (I32, 2, True), 0x2F: (I32, 2, False),
    0x30: (I64, 1, True), 0x31: (I64, 1, False), 0x32: (I64, 2, True), 0x33: (I64, 2, False), 0x34: (I64, 4, True), 0x35: (I64, 4, False),
}
STORES = {0x36: (I32, 4), 0x37: (I64, 8), 0x3A: (I32, 1), 0x3B: (I32, 2), 0x3C: (I64, 1), 0x3D: (I64, 2), 0x3E: (I64, 4)}


class Value(NamedTuple):
    """An expression that stands on the stack: its text, its type, the variables that it reads, and whether it reads memory. A flag is a
    comparison, which C makes an int, with the text that says the opposite. A number is known. What the stack's place is made of has a
    shape, and no text as long as C has nothing like it."""

    text: str
    kind: int
    uses: frozenset = frozenset()
    reads: bool = False
    is_atom: bool = False
    negated: str = ""
    number: int = None
    shape: tuple = ()

    def __str__(self):
        """As an operand whose type may be an int's, where it is a flag."""
        return self.whole() if self.is_atom else f"({self.whole()})"

    def whole(self):
        if not self.text:
            raise Unknown("the stack's place is used otherwise than for a frame")
        return self.text

    def typed(self):
        """As a whole expression whose type C finds out, or widens to that of its kind."""
        return f"({C_TYPES[self.kind]}){self}" if self.negated else self.whole()

    def operand(self):
        """As an operand that has the type of its kind."""
        return f"({C_TYPES[self.kind]}){self}" if self.negated or self.number is not None and self.kind == I64 else str(self)

    def beside(self):
        """As an operand beside one that has its type."""
        return str(self) if self.number is not None else self.operand()

    def condition(self):
        return self.text if self.negated else f"{self} != 0"

    def opposite(self):
        return self.negated or f"{self} == 0"


def digits(number):
    """A number as C has it, in hexadecimal digits where it is large."""
    return (hex(number) if number >= LARGE else str(number)) + ("u" if number <= MOST_SHORT else "ull")


def constant(kind, number):
    if isinstance(number, Place):
        return Value(f"{DATA} + {digits(number.offset)}" if number.offset else DATA, I64, is_atom=not number.offset)
    whole = number % (1 << BITS[kind])
    return Value(digits(whole), kind, is_atom=True, number=whole)


def joined(kind, text, *values, **how):
    """An expression that is made of others."""
    return Value(text, kind, frozenset().union(*(it.uses for it in values)), any(it.reads for it in values), **how)


def called(kind, name, *values):
    return joined(kind, f"{PREFIX}{name}({', '.join(it.typed() for it in values)})", *values, is_atom=True)


def compared(one, sign, other):
    texts = [f"{one.operand()} {it} {other.beside()}" for it in (sign, NEGATED[sign])]
    return joined(I32, texts[0], one, other, negated=texts[1])


def shifted(kind, name, one, by):
    """A shift: by no more bits than the number has, however many are asked for."""
    most = BITS[kind] - 1
    if by.number is not None:
        by = constant(I32, by.number & most)
    elif name in ("<<", ">>"):
        by = joined(kind, f"{by.operand()} & {most}u", by)
    if name in ("<<", ">>"):
        return joined(kind, f"{one.operand()} {name} {by}", one, by)
    return called(kind, f"{name}{BITS[kind] // 8}", one, by._replace(kind=kind))


def of_two(kind, name, one, other):
    """What an instruction of two operands makes of them."""
    if name in FLOATS:
        return called(FLOATS[name], name, one, other)
    if name in SIGNED:
        flipped = [called(kind, f"flip{BITS[kind] // 8}", it) for it in (one, other)]
        return compared(flipped[0], SIGNED[name], flipped[1])
    if name in NEGATED:
        return compared(one, name, other)
    if name in SHIFTS:
        return shifted(kind, name, one, other)
    if name in ("div_u", "rem_u") and other.number:
        return joined(kind, f"{one.operand()} {'/' if name == 'div_u' else '%'} {other.beside()}", one, other)
    if name in TRAPS:
        return called(kind, f"{name}{BITS[kind] // 8}", one, other)
    if name == "+" and other.number is not None and other.number >> BITS[kind] - 1:
        return joined(kind, f"{one.operand()} - {digits((1 << BITS[kind]) - other.number)}", one)
    return joined(kind, f"{one.operand()} {name} {other.beside()}", one, other)


def of_one(code, value):
    """What an instruction of one operand makes of it."""
    if code in EQZ:
        return joined(I32, value.opposite(), value, negated=value.condition())
    if code == WRAP:
        return joined(I32, f"(uint32_t){value}", value, is_atom=True)
    if code == EXTEND:
        return joined(I64, f"(uint64_t){value}", value, is_atom=True)
    if code == EXTEND_SIGNED:
        return called(I64, "extend4_8", joined(I64, f"(uint64_t){value}", value, is_atom=True))
    if code == FLOAT:
        return called(I64, "f64_of", value)
    kind, name = OF_ONE[code]
    return called(kind, f"{name}{BITS[kind] // 8}", value)


def address(value, offset):
    """Where an access goes: some bytes behind an address."""
    if isinstance(offset, Place):
        return of_two(I64, "+", constant(I64, offset), value) if value.number != 0 else constant(I64, offset)
    return of_two(I64, "+", value, constant(I64, offset)) if offset else value


def load(code, value, offset):
    kind, width, has_sign = LOADS[code]
    read = called(I64 if width == 8 else I32, f"load{width}", address(value, offset))._replace(reads=True)
    if kind == I64 and width < 8:
        read = joined(I64, f"(uint64_t){read}", read, is_atom=True)
    return called(kind, f"extend{width}_{BITS[kind] // 8}", read) if has_sign else read


def store(code, value, offset, number):
    """The statement of a store."""
    kind, width = STORES[code]
    if kind == I64 and width < 8:
        number = joined(I32, f"(uint32_t){number}", number, is_atom=True)
    return joined(kind, f"{PREFIX}store{width}({address(value, offset).typed()}, {number.typed()})", value, number)

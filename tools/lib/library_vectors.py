"""What the translator makes of WebAssembly (tools/lib/wasm_c*.py), beside what an engine of WebAssembly makes of it: each operation on
numbers of all kinds, each load and store, and functions that are made up at random of all instructions that are known.
"""
import hashlib
import json
import os
import subprocess
import sys

import wasm_c_file
import wasm_cases
from library_c import PARTS, PLACES, TARGET, linked, tool
from library_programs import POKE, programs

SECONDS = 300
# By how many numbers the second ones are apart that stand beside a first one.
APART = 5
FLAGS = ["-mcpu=lime1", "-Wa,--no-type-check"]
COMPARISONS = ["eq", "ne", "lt_s", "lt_u", "gt_s", "gt_u", "le_s", "le_u", "ge_s", "ge_u"]
BINARY = ["add", "sub", "mul", "div_s", "div_u", "rem_s", "rem_u", "and", "or", "xor", "shl", "shr_s", "shr_u", "rotl", "rotr"]
UNARY = ["eqz", "clz", "ctz", "popcnt", "extend8_s", "extend16_s"]
OF_64 = ["extend32_s", "extend_i32_s", "extend_i32_u"]
LOADS = {"i32": ["load", "load8_s", "load8_u", "load16_s", "load16_u"],
         "i64": ["load", "load8_s", "load8_u", "load16_s", "load16_u", "load32_s", "load32_u"]}
STORES = {"i32": ["store", "store8", "store16"], "i64": ["store", "store8", "store16", "store32"]}
BITS = {"i32": 32, "i64": 64}
CONSTANTS = {"i32": [0, 1, 31, 33, -1, -5, 1 << 31, 10], "i64": [0, 1, 63, 65, -1, -5, 1 << 63, 10, 1 << 32, 0x5A5A0000]}
NUMBERS = [0, 1, 2, 3, 7, 31, 32, 33, 63, 64, 127, 128, 255, 0x7FFF, 0x8000, 0xFFFF, 0x12345678, 0x7FFFFFFF, 0x80000000, 0xFFFFFFFF,
           0x100000000, 0x5A5A0010, 0x0123456789ABCDEF, 0x7FFFFFFFFFFFFFFF, 0x8000000000000000, 0xFEDCBA9876543210, 0xFFFFFFFF80000000,
           0xFFFFFFFFFFFFFFFE, 0xFFFFFFFFFFFFFFFF, 0x7FF0000000000000, 0xFFF0000000000000]
# What floats are made to, with what it gives; and floats by their bits: the least and the largest of each sort, some between, and one whose
# products with others show what is lost of the lower half.
FLOAT_WORKS = {"lt": "i32", "le": "i32", "add": "f64", "mul": "f64", "div": "f64"}
FLOATS = [0, 1 << 63, 1, 0x000FFFFFFFFFFFFF, 0x0010000000000000, 0x0010000000000001, 0x7FEFFFFFFFFFFFFF, 0x7FF0000000000000,
          0xFFF0000000000000, 0x7FF8000000000000, 0x3FF0000000000000, 0x3FF0000000000001, 0x3FEFFFFFFFFFFFFF, 0xBFF0000000000000,
          0x4340000000000000, 0x3CA0000000000000, 0x3CA0000000000001, 0x4008000000000000, 0x3FE6666666666666, 0xBFF8000000000001,
          0x41F0000000000000, 0x2000000000000001, 0x3FF6BD8C56D050CD]
NO_NUMBER = 0x7FF8000000000000
# Where the data is put for an engine: behind the stack.
ENGINES = 9 << 20
BEGIN = """\
#include <setjmp.h>
#include <stdbool.h>
#include <stddef.h>
#include <stdint.h>
#include <stdio.h>
#include <stdlib.h>
#include <string.h>
static jmp_buf trapped;
#define abort() longjmp(trapped, 1)
"""
# A function by numbers of 64 bits, of which it takes one or two.
MAIN = """
static void once(call *call, uint64_t one, uint64_t other)
{
    if (setjmp(trapped) == 0) {
        uint64_t number = call(one, other);
        printf("%lx%08lx\\n", (unsigned long)(number >> 32), (unsigned long)(number & 0xFFFFFFFFu));
    } else {
        printf("trap\\n");
    }
}

int main(void)
{
    size_t at, first, second;
    ipxri_begin();
    for (at = 0; at < sizeof functions / sizeof *functions; at++)
        for (first = 0; first < COUNT; first++)
            for (second = functions[at].takes == 2 ? first % APART : COUNT - 1; second < COUNT; second += APART)
                once(functions[at].call, numbers[first], numbers[second]);
    return 0;
}
"""


def function(name, takes, gives, *code, locals_=()):
    kind = f".functype {name} ({', '.join(takes)}) -> ({gives})"
    own = [f".local {', '.join(locals_)}"] if locals_ else []
    return "\n".join([f".globl {name}", kind, f"{name}:", kind, *own, *code, "end_function", ""])


def get(*numbers):
    return [f"local.get {it}" for it in numbers]


def signed(kind, number):
    """A number as the assembler has it."""
    bits = BITS[kind]
    return (number + (1 << bits - 1)) % (1 << bits) - (1 << bits - 1)


# What changes the beginning of the frame whose place stands on the stack.
CHANGED = {"store": ["i64.const 9", "i64.store 0"], "fill": ["i32.const 7", "i64.const 8", "memory.fill 0"],
           "copy": ["i64.const numbers", "i64.const 8", "memory.copy 0, 0"], "call": ["i64.const 9", "call poke"]}


def works():
    """Each operation: of what it takes, and with constants in the place of one operand; its name, what it takes and gives, and its code."""
    for kind in BITS:
        for name in [*COMPARISONS, *BINARY]:
            work, gives = f"{kind}.{name}", kind if name in BINARY else "i32"
            yield f"{kind}_{name}", [kind, kind], gives, [*get(0, 1), work]
            for at, it in enumerate(CONSTANTS[kind]):
                number = f"{kind}.const {signed(kind, it)}"
                yield f"{kind}_{name}_by_{at}", [kind], gives, [*get(0), number, work]
                yield f"{kind}_{name}_of_{at}", [kind], gives, [number, *get(0), work]
            yield f"{kind}_{name}_of_flags", [kind, kind], gives, flags(kind, work)
        for name in UNARY:
            yield f"{kind}_{name}", [kind], "i32" if name == "eqz" else kind, [*get(0), f"{kind}.{name}"]
            yield f"{kind}_{name}_eqz", [kind], "i32", [*get(0), f"{kind}.{name}", f"{'i32' if name == 'eqz' else kind}.eqz"]
    for name in OF_64:
        yield f"i64_{name}", ["i64" if name == "extend32_s" else "i32"], "i64", [*get(0), f"i64.{name}"]
    yield "i32_wrap", ["i64"], "i32", [*get(0), "i32.wrap_i64"]


def as_float(number):
    """Code that leaves the float of these bits."""
    return [f"i64.const {signed('i64', number)}", "f64.reinterpret_i64"]


def near_one(local):
    """Code that makes a local a float whose fraction and sign look made up, and which is no further from 1 than some digits."""
    fraction = [*get(local), f"i64.const {signed('i64', 0x9E3779B97F4A7C15)}", "i64.mul", f"i64.const {signed('i64', 0x800FFFFFFFFFFFFF)}"]
    exponent = [*get(local), "i64.const 63", "i64.and", "i64.const 990", "i64.add", "i64.const 52", "i64.shl"]
    return [*fraction, "i64.and", *exponent, "i64.or", "f64.reinterpret_i64"]


def bits_of_float(local):
    """Code that leaves the bits of the float that stands on the stack; those of what is no number are always the same."""
    return [f"local.tee {local}", "i64.reinterpret_f64", f"i64.const {NO_NUMBER}", *get(local, local), "f64.le", "i64.select"]


def float_works():
    """Each work of floats, in the same form as others have in `works`, with a local for its result behind."""
    bits = [[*get(it), "f64.reinterpret_i64"] for it in (0, 1)]
    for name, gives in FLOAT_WORKS.items():
        work, end = f"f64.{name}", (lambda local: [] if gives == "i32" else bits_of_float(local))
        kind = "i32" if gives == "i32" else "i64"
        yield f"f64_{name}", ["i64", "i64"], kind, [*bits[0], *bits[1], work, *end(2)], ["f64"]
        yield f"f64_{name}_near", ["i64", "i64"], kind, [*near_one(0), *near_one(1), work, *end(2)], ["f64"]
        for at, it in enumerate(FLOATS):
            yield f"f64_{name}_by_{at}", ["i64"], kind, [*bits[0], *as_float(it), work, *end(1)], ["f64"]
            yield f"f64_{name}_of_{at}", ["i64"], kind, [*as_float(it), *near_one(0), work, *end(1)], ["f64"]
    yield "f64_of", ["i64"], "i64", [*get(0), "f64.convert_i64_u", "i64.reinterpret_f64"], []
    constants = ["f64.const 0x1.8000000000001p-1022", "f64.const -0x1.4p+70"]
    chosen = ["block f64", constants[0], *get(0), "i64.eqz", "br_if 0", "drop", constants[1], "end_block", "local.set 1"]
    yield "f64_chosen", ["i64"], "i64", [*chosen, *get(1), constants[0], *get(0), "i32.wrap_i64", "f64.select", "i64.reinterpret_f64"], ["f64"]


def flags(kind, work):
    """An operation on two comparisons."""
    widened = ["i64.extend_i32_u"] if kind == "i64" else []
    return [*get(0, 1), f"{kind}.lt_u", *widened, *get(0), f"{kind}.eqz", *widened, work]


def framed(*code):
    """Code with a frame, whose place is in local 1, of bytes that are local 0 over and over."""
    filled = [line for at in range(0, 32, 8) for line in ("local.get 1", "local.get 0", f"i64.store {at}")]
    return ["global.get __stack_pointer", "i64.const 32", "i64.sub", "local.tee 1", "global.set __stack_pointer", *filled, *code,
            "local.get 1", "i64.const 32", "i64.add", "global.set __stack_pointer"]


def accesses():
    """Each load and store in a frame, where no address divides; and loads of constants, by an address and by an offset."""
    for kind in BITS:
        for name in LOADS[kind]:
            widened = ["i64.extend_i32_u"] if kind == "i32" else []
            loaded = [*get(1), f"{kind}.{name} 3:p2align=0", *widened]
            yield f"{kind}_{name}", ["i64"], "i64", framed(*loaded), ["i64"]
            yield f"{kind}_{name}_of_data", ["i64"], "i64", ["i64.const numbers+1", f"{kind}.{name} 2:p2align=0", *widened], []
            at = [*get(0), "i64.const 7", "i64.and", f"{kind}.{name} numbers+3:p2align=0", *widened]
            yield f"{kind}_{name}_at", ["i64"], "i64", at, []
        for name in STORES[kind]:
            number = [*get(1), *get(0), "i64.const -1", "i64.xor", *(["i32.wrap_i64"] if kind == "i32" else [])]
            read = [*get(1), "i64.load 0", *get(1), "i64.load 8", "i64.const 5", "i64.mul", "i64.add"]
            yield f"{kind}_{name}", ["i64"], "i64", framed(*number, f"{kind}.{name} 5:p2align=0", *read), ["i64"]
    for name, more in (("copy", "i64.const 9"), ("fill", "i32.const 0x1C7")):
        to, source = [*get(1), "i64.const 3", "i64.add"], [*get(1), "i64.const 5", "i64.add"] if name == "copy" else []
        code = [*to, *source, *([] if name == "copy" else [more]), "i64.const 9", f"memory.{name} {'0, 0' if name == 'copy' else '0'}"]
        yield f"memory_{name}", ["i64"], "i64", framed(*code, *get(1), "i64.load 2", *get(1), "i64.load 8", "i64.sub"), ["i64"]
    number = [*get(1), *get(0), "f64.reinterpret_i64", "f64.store 5:p2align=0"]
    read = [*get(1), "f64.load 3:p2align=0", "i64.reinterpret_f64", *get(1), "i64.load 8", "i64.xor"]
    yield "f64_store_and_load", ["i64"], "i64", framed(*number, *read), ["i64"]
    for at in (0, 16):
        # (an address among the data, which leads to data)
        yield f"address_at_{at}", ["i64"], "i64", ["i64.const places", f"i64.load {at}", "i64.load 1:p2align=0", *get(0), "i64.xor"], []
    for name, changed in CHANGED.items():
        # (read before the change, and once more behind it)
        code = [*get(1), "i64.load 0", *get(1), *changed, *get(1), "i64.load 0", "i64.const 5", "i64.mul", "i64.add"]
        yield f"read_before_{name}", ["i64"], "i64", framed(*code), ["i64"]
    beyond = ["if", "i64.const 0", "i32.load 0xFFFFFFFFFFFFFFE0", "return", "end_if"]
    yield "beyond", ["i64"], "i32", [*get(0), "i64.eqz", *beyond, "i32.const 3"], []


DATA = """\
.section .data.numbers,"",@
.p2align 3
numbers:
""" + "".join(f".int8 {(it * 37 + 129) % 256}\n" for it in range(32)) + """\
.size numbers, 32
.section .data.places,"",@
.p2align 3
places:
.int64 numbers+5
.int64 9
.int64 numbers+17
.size places, 24
"""


class Vectors:
    """Functions, and the numbers that each is given."""

    def __init__(self):
        self.texts, self.calls = [".globaltype __stack_pointer, i64\n", POKE], []
        for name, takes, gives, code in works():
            self.add(name, takes, gives, function(name, takes, gives, *code))
        for name, takes, gives, code, locals_ in [*float_works(), *accesses()]:
            self.add(name, takes, gives, function(name, takes, gives, *code, locals_=locals_))
        for name, takes, gives, text in programs():
            self.add(name, takes, gives, text)

    def add(self, name, takes, gives, text):
        self.texts.append(text)
        for at, first in enumerate(NUMBERS):
            seconds = NUMBERS[at % APART :: APART] if len(takes) == 2 else NUMBERS[-1:]
            for second in seconds:
                given = [it % (1 << BITS[kind]) for it, kind in zip((first, second), takes)]
                self.calls.append((name, takes, gives, given))

    def text(self):
        return ".text\n" + "\n".join(self.texts) + DATA

    def names(self):
        return sorted({call[0] for call in self.calls})

    def as_javascript(self):
        for name, takes, _, given in self.calls:
            words = [f"{signed(kind, it)}" + ("n" if kind == "i64" else "") for it, kind in zip(given, takes)]
            yield f"{name} {' '.join(words)}"

    def as_c(self):
        """The table of all functions, and the numbers."""
        known = {name: takes for name, takes, _, _ in self.calls}
        for name, takes in known.items():
            given = ", ".join("one" if kind == "i64" else "(uint32_t)one" for kind in takes)
            given = given.replace("one", "other").replace("other", "one", 1) if len(takes) == 2 else given
            yield f"static uint64_t of_{name}(uint64_t one, uint64_t other)\n{{\n(void)other;\nreturn ipxri_c_{name}({given});\n}}\n"
        numbers = ", ".join(f"{it}ull" for it in NUMBERS)
        yield f"enum {{ COUNT = {len(NUMBERS)}, APART = {APART} }};\nstatic const uint64_t numbers[] = {{{numbers}}};\n"
        yield f"typedef uint64_t call(uint64_t, uint64_t);\nstatic const struct {{ call *call; int takes; }} functions[] = {{\n"
        yield "".join(f"{{of_{name}, {len(takes)}}},\n" for name, takes in known.items()) + "};\n"


def assembled(text, folder):
    """The object of a text."""
    with open(f"{folder}/vectors.s", "w", encoding="ascii") as it:
        it.write(text)
    tool("clang", f"--target={TARGET.triple}", *FLAGS, "-c", f"{folder}/vectors.s", "-o", f"{folder}/vectors.o")
    return f"{folder}/vectors.o"


def plain(said, gives):
    """What JavaScript said, as C says it."""
    if not said.rstrip("n").lstrip("-").isdigit():
        return said
    whole = int(said.rstrip("n")) % (1 << BITS[gives])
    return f"{whole >> 32:x}{whole & 0xFFFFFFFF:08x}"


def answers_of(vectors, folder):
    """What an engine makes of all calls, which is kept in a file; nothing where there is no engine."""
    if not (node := wasm_cases.engine()):
        return None
    words, kept = vectors.text() + "\n".join(vectors.as_javascript()), f"{PARTS}/answers"
    of = hashlib.sha256(words.encode()).hexdigest()
    assembled(vectors.text(), folder)
    if not os.path.isfile(kept) or (told := json_of(kept))[0] != of:
        told = of, wanted(vectors, node, folder)
        os.makedirs(PARTS, exist_ok=True)
        with open(kept, "w", encoding="ascii") as it:
            json.dump(told, it)
    return told[1]


def json_of(file):
    with open(file, encoding="ascii") as it:
        return json.load(it)


def wanted(vectors, node, folder):
    """What an engine makes of all calls."""
    made = linked([f"{folder}/vectors.o"], vectors.names(), ENGINES, f"{folder}/engine.wasm")
    found = wasm_cases.played(node, wasm_cases.lowered(made), [*vectors.as_javascript()], folder, SECONDS)
    if len(found) != len(vectors.calls):
        return found[:3]
    return [plain(it, gives) for it, (_, _, gives, _) in zip(found, vectors.calls)]


def program(vectors, folder):
    """The program in C that prints what it makes of them."""
    made = [linked([f"{folder}/vectors.o"], vectors.names(), place, f"{folder}/placed.wasm") for place in PLACES]
    _, written = wasm_c_file.translated(made, PLACES, begins=True)
    return f"{BEGIN}{wasm_c_file.operations(written)}\n{written}{''.join(vectors.as_c())}{MAIN}"


def differences(text, right, vectors, how, folder):
    """What a compiler's program makes otherwise; `how` has the compiler's words and what runs the program."""
    compiler, runner = how
    source, made = f"{folder}/vectors.c", f"{folder}/vectors.exe"
    with open(source, "w", encoding="ascii") as it:
        it.write(text)
    done = subprocess.run([*compiler, source, "-o", made], capture_output=True, text=True, check=False)
    if done.returncode:
        return [done.stderr]
    run = subprocess.run([*runner, made], capture_output=True, text=True, timeout=SECONDS, check=False)
    found = run.stdout.split()
    if len(found) != len(right):
        return [f"{len(found)} answers, not {len(right)}; {run.stderr}"]
    pairs = zip(vectors.calls, found, right)
    return [f"{name}({', '.join(map(hex, given))}): {it}, not {other}" for (name, _, _, given), it, other in pairs if it != other]


def main(answers, folder, *compiler):
    """Whether this translator makes what is right, by answers that are kept, in a folder."""
    vectors = Vectors()
    assembled(vectors.text(), folder)
    return 1 if differences(program(vectors, folder), json_of(answers)[1], vectors, (compiler, []), folder) else 0


if __name__ == "__main__":
    sys.exit(main(*sys.argv[1:]))

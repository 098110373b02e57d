"""Wrong translations: each is a change of the translator, or of what stands around what it makes, that the tests must see. Of those of the
first list the operations on vectors must differ, or the made-up functions; of those of the second, where structs are copied, what every
call takes and gives, or what comes of made-up events.
"""
import concurrent.futures
import functools
import os
import shutil
import subprocess
import sys
import tempfile

import library_c
import library_vectors
from libraries import TOP

OPERATIONS, VALUES, BODY = "host/library/operations.h", "tools/lib/wasm_c.py", "tools/lib/wasm_c_body.py"
READ, FILE, HEADER = "tools/lib/wasm_read.py", "tools/lib/wasm_c_file.py", "tools/lib/library_header.py"
AT_ONCE, SECONDS, ROUNDS = 2, 300, "3"
ANSWERS = f"{library_c.PARTS}/answers"
# (the one that is quick, if it is there)
COMPILER = [*(["tcc"] if shutil.which("tcc") else ["cc", "-O0"]), "-w", "-DIPXR_COPIES"]
OF_INSTRUCTIONS = [
    (OPERATIONS, "(uint32_t)at[1] << 8", "(uint32_t)at[1] << 7"),
    (OPERATIONS, "ipxri_load2(address + 2u) << 16", "ipxri_load2(address + 1u) << 16"),
    (OPERATIONS, "(uint64_t)ipxri_load4(address + 4u) << 32", "(uint64_t)ipxri_load4(address) << 32"),
    (OPERATIONS, "at[1] = (uint8_t)(number >> 8)", "at[1] = (uint8_t)number"),
    (OPERATIONS, "ipxri_store2(address + 2u, number >> 16)", "ipxri_store2(address + 2u, number)"),
    (OPERATIONS, "(uint32_t)(number >> 32)", "(uint32_t)(number >> 31)"),
    (OPERATIONS, "memset(ipxri_at(to), (int)(byte & 0xFFu), (size_t)count)", "memset(ipxri_at(to), 0, (size_t)count)"),
    (OPERATIONS, "memmove(ipxri_at(to), ipxri_at(from), (size_t)count)", "memmove(ipxri_at(to), ipxri_at(from), (size_t)count - 1)"),
    (OPERATIONS, "number ^ 0x80000000u", "number"),
    (OPERATIONS, "number ^ (uint64_t)1u << 63", "number ^ (uint64_t)1u << 62"),
    (OPERATIONS, "((number & 0xFFu) ^ 0x80u) - 0x80u", "number & 0xFFu"),
    (OPERATIONS, "((number & 0xFFFFu) ^ 0x8000u) - 0x8000u", "number & 0xFFFFu"),
    (OPERATIONS, "((number & 0xFFFFFFFFu) ^ 0x80000000u) - 0x80000000u", "number"),
    (OPERATIONS, "number >> 31 ? ~(~number >> by)", "number >> 31 ? number >> by"),
    (OPERATIONS, "number >> 63 ? ~(~number >> by)", "number >> 63 ? number >> by"),
    (OPERATIONS, "number << (by & 31u) | number >> ((0u - by) & 31u)", "number << (by & 31u)"),
    (OPERATIONS, "number >> (by & 63u) | number << ((0u - by) & 63u)", "number >> (by & 63u) | number << ((0u - by) & 31u)"),
    (OPERATIONS, "number &= number - 1u", "number >>= 1"),
    (OPERATIONS, "(uint32_t)ipxri_clz8(number) - 32u", "(uint32_t)ipxri_clz8(number)"),
    (OPERATIONS, "ipxri_popcnt8((number & (~number + 1u)) - 1u)", "ipxri_popcnt8(number & (~number + 1u))"),
    (OPERATIONS, "ipxri_trap();\n    return one % other", "return one;\n    return one % other"),
    (OPERATIONS, "(one ^ other) >> 63 ? 0u - plain : plain", "one >> 63 ? 0u - plain : plain"),
    (OPERATIONS, "return one >> 63 ? 0u - plain : plain", "return plain"),
    (OPERATIONS, "if (other == ~0u && one == 0x80000000u)\n        ipxri_trap();", ""),
    (OPERATIONS, "else\n        biased = 1;", "else\n        biased = 0;"),
    (OPERATIONS, "| ((digits & (((uint64_t)1u << by) - 1u)) != 0)", ""),
    (OPERATIONS, "exponent - by + 63 + 1023", "exponent - by + 63 + 1022"),
    (OPERATIONS, "if (biased >= 2047)", "if (biased > 2047)"),
    (OPERATIONS, "ipxri_f64_fewer(digits, 1 - biased)", "ipxri_f64_fewer(digits, 2 - biased)"),
    (OPERATIONS, "(digits & 0x7FFu) + (kept & 1u) > 0x400u", "(digits & 0x7FFu) > 0x400u"),
    (OPERATIONS, "(digits & 0x7FFu) + (kept & 1u) > 0x400u", "(digits & 0x7FFu) >= 0x400u"),
    (OPERATIONS, "ipxri_f64_made(0, number, 0)", "ipxri_f64_made(0, number, 1)"),
    (OPERATIONS, "more = 0u - more", "more = ~more"),
    (OPERATIONS, "return digits == 0 ? 0 : ipxri_f64_made", "return digits == 0 ? one & IPXRI_SIGN : ipxri_f64_made"),
    (OPERATIONS, "IPXRI_SIGN, digits, exponent + 1)", "IPXRI_SIGN, digits, exponent)"),
    (OPERATIONS, "return ipxri_f64_add(other, one)", "return ipxri_f64_sum(one, other)"),
    (OPERATIONS, "&& one != other ? IPXRI_NO_NUMBER : one", "? IPXRI_NO_NUMBER : one"),
    (OPERATIONS, "one & other : one", "one | other : one"),
    (OPERATIONS, "(second >> 32) + (middle >> 32)", "(second >> 32)"),
    (OPERATIONS, "upper | (((lowest | middle) & half) != 0)", "upper"),
    (OPERATIONS, "return size == 0 || by == 0 ? IPXRI_NO_NUMBER : sign | IPXRI_INFINITY", "return sign | IPXRI_INFINITY"),
    (OPERATIONS, "exponent + more + 64", "exponent + more + 63"),
    (OPERATIONS, "return quotient | (one != 0)", "return quotient"),
    (OPERATIONS, "size == by && (size == 0 || size == IPXRI_INFINITY)", "size == by && size == 0"),
    (OPERATIONS, "if (size == 0 || by == IPXRI_INFINITY)\n        return sign;", "if (size == 0 || by == IPXRI_INFINITY)\n        return 0;"),
    (OPERATIONS, "exponent - less - 63", "exponent - less - 64"),
    (OPERATIONS, "ipxri_f64_size(it) == 0 ? IPXRI_SIGN : it >> 63", "it >> 63"),
    (OPERATIONS, "it >> 63 ? ~it", "it >> 63 ? it"),
    (OPERATIONS, "ipxri_f64_size(one) <= IPXRI_INFINITY && ", ""),
    (OPERATIONS, "ipxri_f64_rank(one) <= ipxri_f64_rank(other)", "ipxri_f64_rank(one) < ipxri_f64_rank(other)"),
    (VALUES, "zip((0x63, 0x65, 0xA0, 0xA2, 0xA3), FLOATS)", "zip((0x65, 0x63, 0xA0, 0xA2, 0xA3), FLOATS)"),
    (READ, "0x39: 0x37}", "0x39: 0x36}"),
    (READ, 'int.from_bytes(self.it.take(FLOAT_BYTES), "little")', 'int.from_bytes(self.it.take(FLOAT_BYTES), "big")'),
    (READ, "found.append((at, first - places[0]))", "found.append((at, first - places[0] + 1))"),
    (FILE, "{DATA} + {PREFIX}places[k][1]", "{DATA} + {PREFIX}places[k][0]"),
    (VALUES, '"<": ">=", ">=": "<"', '"<": ">", ">": "<="'),
    (VALUES, '"lt_s": "<", "gt_s": ">"', '"lt_s": "<=", "gt_s": ">"'),
    (VALUES, '"<<", "shr_s", ">>"', '"<<", ">>", "shr_s"'),
    (VALUES, "most = BITS[kind] - 1", "most = 31"),
    (VALUES, "(1 << BITS[kind]) - other.number", "(1 << BITS[kind]) - 1 - other.number"),
    (VALUES, "joined(I32, value.opposite(), value, ", "joined(I32, value.condition(), value, "),
    (VALUES, "0x2C: (I32, 1, True)", "0x2C: (I32, 1, False)"),
    (VALUES, "0x33: (I64, 2, False)", "0x33: (I64, 4, False)"),
    (VALUES, "0x3D: (I64, 2)", "0x3D: (I64, 4)"),
    (VALUES, 'constant(I64, offset)) if offset else value', 'constant(I64, offset)) if offset and offset != 3 else value'),
    (VALUES, "._replace(reads=True)", ""),
    (VALUES, "frozenset().union(*(it.uses for it in values))", "values[0].uses"),
    (BODY, "self.settle(lambda it: name in it.uses, value)", "pass"),
    (BODY, "self.settle_memory(*values)\n        self.lines", "self.lines"),
    (BODY, "self.settle_memory(*values)\n        text", "text"),
    (BODY, "value.number is None and value.text not in self.variables", "value.number is None"),
    (BODY, "        self.held = held\n", ""),
    (BODY, "for it in (*self.stack, *self.held)", "for it in self.stack[:1]"),
    (BODY, "{one.operand()} : {other.operand()}", "{other.operand()} : {one.operand()}"),
    (BODY, "if block.code != read.LOOP:\n            self.give(block)", "pass"),
    (BODY, 'f"case {number}:"', 'f"case {number + 1}:"'),
    (BODY, "is_beyond = not", "is_beyond = False and not"),
    (BODY, "if name in TRAPS and (not other.number", "if False and (not other.number"),
    (BODY, "elif block.is_aimed_at and self.blocks:", "elif block.is_aimed_at and self.blocks and block.code != read.IF:"),
    (READ, "Place(one.number - places[0])", "Place(one.number - places[0] + 1)"),
    (READ, "made[at - place : at - place + len(content)] = content", "made[at - place : at - place + len(content)] = content[::-1]"),
]
OF_CALLS = [
    (HEADER, "place, alignment, has_order = up_to(place, it.alignment)", "place, alignment, has_order = place"),
    (HEADER, "place += it.size * int(count or 1)", "place += it.size"),
    (HEADER, "up_to(place, alignment), alignment", "place, alignment"),
    (HEADER, 'PREFIX}store{SIZES[kind]}({to}', 'PREFIX}store{min(SIZES[kind], 4)}({to}'),
    (HEADER, '({kind}){PREFIX}load{SIZES[kind]}({of});', '({kind}){PREFIX}load{min(SIZES[kind], 2)}({of});'),
    (HEADER, "ends[not is_put]}, {ends[is_put]}", "ends[is_put]}, {ends[not is_put]}"),
    (HEADER, '{place} + {size}u * k", f"{value}[k]"', '{place} + {size}u * k", f"{value}[0]"'),
    (HEADER, "k < {field.count}; k++", "k < {field.count} - 1; k++"),
    (HEADER, "or self.part or not is_put and self.it.is_read:", "or self.part or not is_put:"),
    (HEADER, ": {self.most} + 1;", ": {self.most};"),
    (HEADER, "k < most_{self.name}; k++", "k + 1 < most_{self.name}; k++"),
    (HEADER, "if ((answer & 0xFFu) != 0)\n            return", "return"),
    (HEADER, "{name} += k;\n", "\n"),
    (HEADER, '"({text} & 1u) != 0"', '"({text} & 1u) == 0"'),
    (HEADER, 'return f"{PREFIX}address({self.name})"', 'return f"{PREFIX}address({self.name}) + 1u"'),
    (OPERATIONS, "ipxri_store8(to, block != NULL)", "ipxri_store8(to, 1u)"),
    (OPERATIONS, "size == 0 ? alignment : size", "alignment"),
]


def changed(change, folder):
    """Copies what makes the file, with a change."""
    for part in ("tools/lib", "host/library", "tests/wasm"):
        shutil.copytree(f"{TOP}/{part}", f"{folder}/{part}", ignore=shutil.ignore_patterns("__pycache__"))
    os.mkdir(f"{folder}/build")
    for name in os.listdir(f"{TOP}/build"):
        if name.endswith(".h"):
            shutil.copy(f"{TOP}/build/{name}", f"{folder}/build")
    shutil.copy(f"{TOP}/VERSION", folder)
    file, before, after = change
    with open(f"{folder}/{file}", encoding="utf-8") as it:
        text = it.read()
    if before not in text:
        sys.exit(f"tools/library: {file} has no {before}")
    with open(f"{folder}/{file}", "w", encoding="utf-8") as it:
        it.write(text.replace(before, after))


def is_well(*words, **how):
    try:
        return subprocess.run(words, stdout=subprocess.PIPE, stderr=subprocess.STDOUT, timeout=SECONDS, check=False, **how).returncode == 0
    except subprocess.TimeoutExpired:
        return False


def passes_vectors(change):
    """Whether the operations on vectors come out right with a change."""
    with tempfile.TemporaryDirectory() as folder:
        changed(change, folder)
        own = f"{folder}/own"
        os.mkdir(own)
        return is_well(sys.executable, f"{folder}/tools/lib/library_vectors.py", ANSWERS, own, *COMPILER, cwd=folder)


def passes_calls(change):
    """Whether the calls come out right with a change, where all structs are copied."""
    with tempfile.TemporaryDirectory() as folder:
        changed(change, folder)
        parts, made = f"{folder}/parts", f"{folder}/libipxr.c"
        shutil.copytree(library_c.PARTS, parts)
        words = [sys.executable, f"{folder}/tools/lib/library_c.py", parts]
        with open(made, "w", encoding="ascii") as it:
            if subprocess.run(words, stdout=it, stderr=subprocess.DEVNULL, cwd=folder, check=False).returncode:
                return False
        how = [*COMPILER, f"-I{folder}/build", made]
        if not refuses(folder, made):
            return False
        if not is_well(*how, f"{TOP}/tests/embed/exports.c", "-o", f"{folder}/exports") or not is_well(f"{folder}/exports"):
            return False
        return is_well(*how, f"{TOP}/tests/library/play.c", "-o", f"{folder}/play") and is_right(f"{folder}/play")


def refuses(folder, made):
    """Whether the library answers where an allocator refuses."""
    parts, kept = [f"{folder}/library.o", f"{folder}/refusals.o"], f"{TOP}/examples/embed/c/refusals"
    sources = [["-include", f"{TOP}/tests/library/heap.h", made], [f"{kept}.c"]]
    if not all(is_well(*COMPILER, f"-I{folder}/build", "-c", *it, "-o", part) for it, part in zip(sources, parts)):
        return False
    if not is_well(*COMPILER, *parts, "-o", f"{folder}/refusals"):
        return False
    run = subprocess.run([f"{folder}/refusals"], stdout=subprocess.PIPE, text=True, timeout=SECONDS, check=False)
    with open(f"{kept}.out", encoding="utf-8") as it:
        return run.stdout == it.read()


@functools.lru_cache(None)
def native():
    """What comes of made-up events in the library of this machine."""
    with tempfile.TemporaryDirectory() as folder:
        words = ["cc", "-std=c99", "-O1", f"-I{TOP}/build", f"{TOP}/tests/library/play.c", f"{TOP}/build/libipxr.a", "-o", f"{folder}/play"]
        subprocess.run(words, check=True)
        return subprocess.run([f"{folder}/play", ROUNDS], stdout=subprocess.PIPE, check=True).stdout


def is_right(play):
    return subprocess.run([play, ROUNDS], stdout=subprocess.PIPE, timeout=SECONDS, check=False).stdout == native()


def outcomes():
    """Each wrong translation, and whether it passes."""
    with tempfile.TemporaryDirectory() as folder:
        library_vectors.answers_of(library_vectors.Vectors(), folder)
    with concurrent.futures.ThreadPoolExecutor(AT_ONCE) as pool:
        nothing = (OPERATIONS, "abort();", "abort(); ")
        runs = [(it, pool.submit(passes_vectors, it)) for it in [nothing, *OF_INSTRUCTIONS]]
        runs += [(it, pool.submit(passes_calls, it)) for it in [nothing, *OF_CALLS]]
        for change, run in runs:
            yield change, change is nothing, run.result()


def main():
    refused = failed = 0
    for (file, before, after), is_nothing, passes in outcomes():
        if is_nothing:
            failed += not passes
            continue
        refused, failed = refused + (not passes), failed + passes
        if passes:
            print(f"NOT REFUSED  {file}: {before!r} became {after!r}", flush=True)
    print(f"{refused} refused, {failed} not refused")
    return 1 if failed else 0

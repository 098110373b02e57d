"""The small modules of tests/wasm, which tools/wasm lowers and plays.

Each is text for the toolchain's assembler. A line `#> NAME ARGUMENT.. = RESULT` in it is a call of a function, and what it returns as
JavaScript writes it; `trap` where it traps, and nothing where it returns nothing. Where 64 bits trap and an address that is cut doesn't,
`= trap, cut RESULT` tells both.
A line `#! FLAG..` has flags for the linker. The calls of a module are made one after the other.
"""
import os
import re
import shutil
import subprocess

import libraries
from wasm32 import HEAD, lowered
from wasm_format import Unknown, unsigned, vector

FOLDER = "tests/wasm"
ASSEMBLER = ["--target=wasm64-unknown-unknown", "-mcpu=lime1", "-msimd128", "-mreference-types", "-Wa,--no-type-check", "-c"]
LINKER = ["-flavor", "wasm", "-mwasm64", "--no-entry", "--export-all", "--no-gc-sections", "--no-check-features", "-z", "stack-size=1024"]
CALL = re.compile(r"(?m)^#> (\S+(?: \S+)*) =(?: (trap|\S+))?(?:, (cut)(?: (\S+))?)?$")
FLAGS = re.compile(r"(?m)^#! (.*)$")
WIDE = "--experimental-wasm-memory64"
# How a module is played: how it is lowered for that, and whether an upper half is cut off. (Few engines know wide tables.)
WAYS = {
    "64 bits": ({"cuts_memory": False, "is_checked": True}, False),
    "32 bits": ({}, True),
    "32 bits, checked": ({"is_checked": True}, False),
}
SECONDS = 60


def assembled(file, folder):
    """The module of a text, and the text."""
    with open(file, encoding="utf-8") as it:
        text = it.read()
    flags = [word for line in FLAGS.findall(text) for word in line.split()]
    tools, made = f"{libraries.kit()}/toolchain/bin", f"{folder}/{os.path.basename(file)}"
    subprocess.run([f"{tools}/clang", *ASSEMBLER, file, "-o", f"{made}.o"], check=True)
    subprocess.run([f"{tools}/ld.lld", *LINKER, *flags, f"{made}.o", "-o", f"{made}.wasm"], check=True)
    with open(f"{made}.wasm", "rb") as it:
        return it.read(), text


def cases(text, cuts):
    """The calls of a text, and what each is to return."""
    found = [(call, cut if both and cuts else wanted) for call, wanted, both, cut in CALL.findall(text)]
    if len(found) != text.count("\n#>"):
        raise Unknown("a line of no form")
    return found


def played(node, module, calls, folder, seconds=SECONDS):
    """What the calls of a module return, one after the other; where the engine refuses it, what it said."""
    with open(f"{folder}/played.wasm", "wb") as it:
        it.write(module)
    words = [*node, f"{FOLDER}/play.mjs", f"{folder}/played.wasm"]
    run = subprocess.run(words, input="\n".join(calls), capture_output=True, text=True, timeout=seconds)
    return run.stdout.split("\n")[:-1] if run.returncode == 0 else [run.stderr]


def differences(node, module, text, way, folder):
    """What is wrong with how a module is played in a way."""
    how, cuts = WAYS[way]
    wanted = cases(text, cuts)
    found = played(node, lowered(module, **how), [call for call, _ in wanted], folder)
    if len(found) != len(wanted):
        return found
    return [f"{call} gave {it}, not {result}" for it, (call, result) in zip(found, wanted) if it != result]


def engine():
    """The words by which node plays modules with wide addresses, or nothing where there is none that does."""
    for words in (["node", WIDE], ["node"]):
        # (a module that has only a memory, of one page and wide)
        asked = f"process.exit(WebAssembly.validate(new Uint8Array([{','.join(map(str, HEAD + bytes([5, 3, 1, 4, 1])))}])) ? 0 : 1)"
        if shutil.which("node") and subprocess.run([*words, "-e", asked], capture_output=True).returncode == 0:
            return words
    return None


def section(kind, *entries):
    content = vector(entries)
    return bytes([kind]) + unsigned(len(content)) + content


def code(*content):
    """The code of a function without locals."""
    body = bytes([0, *content, 0x0B])
    return unsigned(len(body)) + body


def segments():
    """A module with what the linker doesn't make: segments that are there to be copied, and one that names its memory."""
    names = ("init", "drop", "word", "put", "forget", "call")
    three, data = (0x20, 0, 0x20, 1, 0x20, 2), b"SEGMENTS"
    exports = [bytes([len(it)]) + it.encode() + bytes([0, at]) for at, it in enumerate(names)]
    codes = [code(*three, 0xFC, 8, 0, 0), code(0xFC, 9, 0), code(0x20, 0, 0x29, 0, 0), code(*three, 0xFC, 12, 0, 0), code(0xFC, 13, 0),
             code(0x42, 20, 0x20, 0, 0x11, 2, 0), code(0x20, 0, 0x42, 1, 0x7C)]
    return b"".join([
        HEAD, section(1, b"\x60\3\x7e\x7f\x7f\0", b"\x60\0\0", b"\x60\1\x7e\1\x7e"), section(3, *map(bytes, zip([0, 1, 2, 0, 1, 2, 2]))),
        section(4, b"\x70\4\4"), section(5, b"\4\1"), section(7, *exports), section(9, b"\1\0\1\6"), b"\x0c\1\2", section(10, *codes),
        section(11, bytes([1, len(data)]) + data, bytes([2, 0, 0x42, 24, 0x0B, len(data)]) + data),
    ])


OF_SEGMENTS = """
#> word 24n = 6004510262747940179n
#> init 8n 2 6 =
#> word 8n = 91621555522887n
#> init 65531n 0 5 =
#> init 65532n 0 5 = trap
#> init 4294967295n 0 1 = trap
#> init 4294967304n 0 8 = trap, cut
#> init 8n 4 5 = trap
#> put 3n 0 1 =
#> put 4n 0 1 = trap
#> put 4294967295n 0 1 = trap
#> call 3n = 21n
#> call 2n = trap
#> drop =
#> init 8n 0 1 = trap
#> forget =
#> put 2n 0 1 = trap
"""


def function(*content):
    """A module with a wide memory, and a function of no type but this code."""
    return HEAD + section(1, b"\x60\0\0") + section(3, b"\0") + section(5, b"\4\1") + section(10, code(*content))


# Modules that are refused, and what is said of each.
REFUSED = {
    b"": "the module, byte 0: it ends too early",
    b"\0asm\2\0\0\0": "the module, byte 8: this is no module",
    HEAD + b"\5\4\1": "the module, byte 10: it ends too early",
    HEAD + section(13, b"\0\0"): "section 13, byte 0: no such section is known",
    HEAD + section(1, b"\x5f\0"): "section 1, byte 2: a type that is no function's",
    HEAD + section(1, b"\x60\1\x64\0"): "section 1, byte 4: a type of values 0x64",
    HEAD + section(2, b"\0\0\4\0\0"): "section 2, byte 4: an import of kind 4",
    HEAD + section(5, b"\7\1\2"): "section 5, byte 2: limits' flags 0x07",
    HEAD + section(5, b"\4" + unsigned(65537)): "section 5, byte 5: at least 65537, which 32 bits don't reach",
    HEAD + section(5, b"\4\1", b"\4\1"): "section 5, byte 3: a second memory",
    HEAD + section(5, b"\4\1") + section(11, b"\0\x23\0\x0b\0"): "section 11, byte 3: a segment that doesn't begin at a constant",
    HEAD + section(5, b"\4\1") + section(11, b"\0\x42\1\x42\1\x7c\x0b\0"):
        "section 11, byte 5: a segment that doesn't begin at one constant",
    HEAD + section(5, b"\4\1") + section(11, b"\0\x42\x7f\x0b\0"): "section 11, byte 5: a segment at -1, which 32 bits don't reach",
    HEAD + section(4, b"\x70\4\1") + section(9, b"\5\x70\0"): "section 9, byte 2: a segment of kind 5",
    function(0x12, 0): "function 0, byte 2: an instruction 0x12",
    function(0xFE, 0x03, 0): "function 0, byte 2: an instruction 0xfe",
    function(0xFC, 18): "function 0, byte 3: an instruction of bulk memory 18",
    function(0xFD, 0x80, 2): "function 0, byte 4: an instruction of vectors 256",
    function(0xFD, 154, 1): "function 0, byte 4: an instruction of vectors 154",
    function(0x3F, 1): "function 0, byte 3: a second memory, or none",
    function(0x42, 0, 0x28, 0x42, 0): "function 0, byte 5: an alignment 66, or no memory",
    function(0x25, 0): "function 0, byte 3: a table 0",
}


def refusals():
    """What is wrong with how modules are refused."""
    for module, wanted in REFUSED.items():
        try:
            lowered(module)
            found = "nothing"
        except Unknown as why:
            found = f"{why}"
        if found != wanted:
            yield f"{module.hex()}: it said {found}, not {wanted}"

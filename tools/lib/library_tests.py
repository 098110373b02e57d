"""What is tried of the library as one file of C, by each compiler that is there: examples, every call, made-up events beside the library of
this machine, and what the translator makes of each instruction."""
import glob
import os
import re
import shutil
import subprocess
import tempfile
from typing import NamedTuple

import c_examples
import library_c
import library_pages
import library_vectors
import wasm_c_file
import wasm_cases
import wasm_format
import wine
from c_library import put, text_of
from telling import ends, has, left_out, prints, quietly, say, succeeds, tell

FOLDER, LIBRARY, NATIVE = "build/library", "build/library/libipxr.c", "build/libipxr.a"
TRIED = "build/library/tried"
STRICT = ["-Wall", "-Wextra", "-pedantic", "-Wconversion"]
SANITIZERS = ["-fsanitize=address,undefined", "-fno-sanitize-recover=all", "-g"]
OWN_HEAP = ["-include", "tests/library/heap.h"]
ROUNDS = "30"
# What is printed where somebody else's allocator, or a thread, is left out.
KNOWN = "build/library/tried/wanted"


class Kind(NamedTuple):
    """A compiler with its words, what runs its programs, the words by which it compiles the library, where these differ, and whether it
    takes no more than a moment for what the translator makes of each instruction."""

    compiler: list
    runner: list = []
    of_library: list = []
    is_quick: bool = True


KINDS = {
    "gcc": Kind(["gcc", "-O2", "-std=c99"]),
    "gcc -O3": Kind(["gcc", "-O3", "-std=c11"]),
    "clang": Kind(["clang", "-O2", "-std=c99"]),
    "C++": Kind(["gcc", "-O2"], [], ["g++", "-O2", "-std=c++11", "-x", "c++"]),
    "clang++": Kind(["clang", "-O2"], [], ["clang++", "-O2", "-std=c++17", "-x", "c++"]),
    "copies": Kind(["gcc", "-O1", "-DIPXR_COPIES"]),
    "sanitizers": Kind(["gcc", "-O0", *SANITIZERS], is_quick=False),
    "copies, sanitizers": Kind(["gcc", "-O0", "-DIPXR_COPIES", *SANITIZERS], is_quick=False),
    "tcc": Kind(["tcc"]),
    "musl": Kind(["musl-gcc", "-O1", "-static"]),
    "i686": Kind(["i686-linux-gnu-gcc", "-O1", "-static"]),
    "arm": Kind(["arm-linux-gnueabihf-gcc", "-O1", "-static"], ["qemu-arm"]),
    "aarch64": Kind(["aarch64-linux-gnu-gcc", "-O1", "-static"], ["qemu-aarch64"]),
    "riscv64": Kind(["riscv64-linux-gnu-gcc", "-O1", "-static"], ["qemu-riscv64"]),
    "mips": Kind(["mips-linux-gnu-gcc", "-O1", "-static"], ["qemu-mips"]),
    "s390x": Kind(["s390x-linux-gnu-gcc", "-O1", "-static"], ["qemu-s390x"]),
    "windows": Kind(["x86_64-w64-mingw32-gcc", "-O1"], ["wine"]),
}
# Where real DOSBox' come to the server: one of 64 bits, one of 32, and one with the highest byte first.
WITH_DOSBOX = ("gcc", "arm", "mips")


class Right:
    """What is right, worked out once: the answers of an engine of WebAssembly, and those of the library of this machine."""

    def __init__(self):
        os.makedirs(TRIED, exist_ok=True)
        self.vectors = library_vectors.Vectors()
        with tempfile.TemporaryDirectory() as folder:
            self.answers = library_vectors.answers_of(self.vectors, folder)
            self.text = library_vectors.program(self.vectors, folder)
        native = f"{TRIED}/play"
        self.is_played = succeeds("cc", "-std=c99", "-O2", "-Ibuild", "tests/library/play.c", NATIVE, "-o", native)
        put(KNOWN, subprocess.run([native, ROUNDS], stdout=subprocess.PIPE, text=True, check=True).stdout)


def says_nothing(*words):
    """Whether a compiler has nothing to say."""
    run = subprocess.run(words, capture_output=True, text=True, check=False)
    if said := run.stdout + run.stderr:
        print(said[:2000])
    return run.returncode == 0 and not said


def compiles(words, source, made, *more):
    """Whether a compiler takes a source and says nothing."""
    return says_nothing(*words, *more, "-c", source, "-o", made)


def play(name, kind, folder, right):
    """Made-up events, and every call with values of its own."""
    made = f"{folder}/play.exe"
    is_built = succeeds(*kind.compiler, f"-I{FOLDER}", "tests/library/play.c", f"{folder}/libipxr.o", "-o", made)
    tell(f"{name}: made-up events come out as in the library of this machine", is_built and right.is_played
         and prints(KNOWN, *kind.runner, made, ROUNDS))
    made = f"{folder}/exports.exe"
    is_built = succeeds(*kind.compiler, f"-I{FOLDER}", "tests/embed/exports.c", f"{folder}/libipxr.o", "-o", made)
    tell(f"{name}: every call takes and gives what it should", is_built and ends(*kind.runner, made))


def serve(name, kind, folder):
    """The example of a server, to which two players come."""
    made = f"{folder}/server.exe"
    is_built = succeeds(*kind.compiler, f"-I{FOLDER}", f"{FOLDER}/server.c", f"{folder}/libipxr.o", "-o", made)
    tell(f"{name}: the server serves two players", is_built and ends("python3", "tests/library/server.py", *kind.runner, made))
    if name in WITH_DOSBOX and has("dosbox"):
        tell(f"{name}: two real DOSBox' meet at the server", is_built and ends("python3", "tests/library/boxes.py", *kind.runner, made))
    elif name in WITH_DOSBOX:
        left_out(f"{name}: two real DOSBox'", "dosbox")


def vectors(name, kind, right):
    """The translator's operations."""
    if right.answers is None:
        left_out(f"{name}: operations on vectors", "node that knows wide memories")
        return
    with tempfile.TemporaryDirectory() as folder:
        how = [*(kind.of_library or kind.compiler), *(["-x", "none"] if "-x" in kind.of_library else [])], kind.runner
        wrong = library_vectors.differences(right.text, right.answers, right.vectors, how, folder)
    print("\n".join(wrong[:5]), end="\n" if wrong else "")
    tell(f"{name}: {len(right.answers)} operations on vectors, and functions made up at random, as an engine has them", not wrong)


def try_kind(name, kind, right):
    words, folder = kind.of_library or kind.compiler, f"{TRIED}/{name.replace(' ', '').replace(',', '-')}"
    if missing := [it for it in {words[0], kind.compiler[0], *kind.runner[:1]} if not has(it)]:
        left_out(name, " and no ".join(missing))
        return
    shutil.rmtree(folder, ignore_errors=True)
    os.makedirs(folder)
    if kind.is_quick:
        vectors(name, kind, right)
    objects = f"{folder}/libipxr.o", f"{folder}/libipx_c.o"
    strict = STRICT if "gcc" in words[0] or "clang" in words[0] or "g++" in words[0] else []
    tell(f"{name}: the file is compiled without a warning", compiles(words, LIBRARY, objects[0], *strict))
    tell(f"{name}: it is, with an allocator of one's own", compiles(words, LIBRARY, objects[1], *OWN_HEAP))
    # (what the library needs of C++ is nothing)
    compiler = kind.compiler
    c_examples.examples(name, compiler, folder, kind.runner, "libipxr.o")
    c_examples.counted_examples(name, compiler, folder, (), kind.runner, "libipx_c.o")
    play(name, kind, folder, right)
    if name == "windows":
        left_out("windows: a thread's stack, and the server", "what POSIX has for them")
    else:
        c_examples.thread(name, compiler, folder, kind.runner, "libipxr.o")
        serve(name, kind, folder)


def by_wine(name, kind, right):
    """The same with Wine, which has a folder of its own there."""
    if not has("wine"):
        left_out(name, "wine")
        return
    with wine.begun() as is_begun:
        if is_begun:
            try_kind(name, kind, right)
        else:
            left_out(name, wine.lacks())


# ---- The file itself ----

STATIC = """\
#define IPXR_STATIC
#define IPXR_MALLOC(size) malloc(size)
#define IPXR_REALLOC(block, size) realloc(block, size)
#define IPXR_FREE(block) free(block)
#include <stdlib.h>
#include "libipxr.c"

int main(void)
{
    return ipxr_version() != IPXR_VERSION;
}
"""


def static():
    """The file inside another one, by C and C++, where no name is seen from outside."""
    put(f"{TRIED}/static.c", STATIC)
    for compiler in ("gcc", "clang", "g++", "clang++"):
        if not has(compiler):
            left_out(f"the file inside another by {compiler}", compiler)
            continue
        made, words = f"{TRIED}/static.o", [compiler, "-O1", *(["-x", "c++"] if "+" in compiler else ["-std=c99"])]
        tell(f"{compiler}: the file inside another has no warning", compiles(words, f"{TRIED}/static.c", made, f"-I{FOLDER}", *STRICT))
        seen = subprocess.run(["nm", "-g", "--defined-only", made], stdout=subprocess.PIPE, text=True, check=False).stdout.split()[2::3]
        tell(f"{compiler}: and shows no name", seen == ["main"])
    part = "#define IPXR_MALLOC(size) malloc(size)\n#include \"libipxr.c\"\n"
    put(f"{TRIED}/part.c", part)
    tell("an allocator without its end is refused", not quietly("gcc", f"-I{FOLDER}", "-fsyntax-only", f"{TRIED}/part.c"))


GET, SET_STACK, NUMBER, SUB, ADD, DROP = (0x20, 0), (0x24, 0), 0x42, 0x7D, 0x7C, 0x1A
STACK, FRAME = (0x23, 0), (0x23, 0, 0x42, 16, 0x7D)
# What the translator doesn't know, as the code of a function of one number.
REFUSED = {
    "a float of 32 bits": (0x43, 0, 0, 0, 0, DROP, *GET),
    "the root of a float": (0x44, *range(8), 0x9F, DROP, *GET),
    "a vector": (0xFD, 12, *range(16), DROP, *GET),
    "a call through a table": (*GET, *GET, 0x11, 0, 0),
    "the size of the memory": (0x3F, 0),
    "an element of a table": (*GET, 0x25, 0, DROP, *GET),
    "the stack's place as a number": STACK,
    "the stack's place twice": (*STACK, DROP, *STACK, DROP, *GET),
    "a place above the stack's": (*STACK, NUMBER, 16, ADD),
    "a frame that 16 doesn't divide": (*STACK, NUMBER, 8, SUB, 0x21, 0, *GET),
    "a frame of some size": (*STACK, *GET, SUB),
    "a frame that is made in a block": (0x02, 0x40, *FRAME, 0x21, 0, 0x0B, *GET),
    "a frame's place that is lost": (*FRAME, 0x21, 0, NUMBER, 3, 0x21, 0, *GET, *SET_STACK, *GET),
    "another place for the stack": (*GET, *SET_STACK, *GET),
    "the stack's place that is kept": (*STACK, 0x21, 0, *GET, NUMBER, 16, SUB, 0x1A, *GET),
    "the stack's place that is kept in a block": (*STACK, 0x21, 0, 0x02, 0x40, 0x0B, *GET),
}
KNOWN_CODE = (*FRAME, 0x22, 0, *SET_STACK, *GET, NUMBER, 16, ADD, *SET_STACK, *GET)


def module(*content, data=()):
    """A module of one function of a number, with a memory, the stack's place, and data."""
    parts = [(1, b"\x60\1\x7e\1\x7e"), (3, b"\0"), (5, b"\4\1"), (6, b"\x7e\1\x42\0\x0b"), (10, wasm_cases.code(*content)), (11, *data)]
    return wasm_cases.HEAD + b"".join(wasm_cases.section(*it) for it in parts)


def word_at(place, word):
    """Data at a place, which is a word and as many bytes more."""
    return bytes([0, NUMBER]) + wasm_format.signed(place) + bytes([wasm_format.END, 16]) + word.to_bytes(8, "little") + bytes(8)


def is_refused(one, other, places=(0, 16), begins=False):
    try:
        wasm_c_file.translated([one, other], places, begins=begins)
    except wasm_format.Unknown:
        return True
    return False


def refusals():
    """What is refused, beside something that isn't."""
    tell("a frame is translated", not is_refused(module(*KNOWN_CODE), module(*KNOWN_CODE)))
    for what, content in REFUSED.items():
        tell(f"{what} is refused", is_refused(module(*content), module(*content)))
    placed = [module(NUMBER, it) for it in (0, 16, 17)]
    tell("an address of data is translated", not is_refused(placed[0], placed[1]))
    tell("a number that isn't moved with the data is refused", is_refused(placed[0], placed[2]))
    tell("an address behind the data is refused", is_refused(module(NUMBER, 1), module(NUMBER, 17)))
    words = [module(*GET, data=[word_at(*it)]) for it in ((0, 8), (16, 24), (16, 25), (0, 17), (16, 33))]
    tell("an address among the data is refused where nothing begins", is_refused(words[0], words[1]))
    tell("and translated where something does", not is_refused(words[0], words[1], begins=True))
    tell("a word that isn't moved with the data is refused", is_refused(words[0], words[2], begins=True))
    tell("a word that leads behind the data is refused", is_refused(words[3], words[4], begins=True))


LINKED = re.compile(r"\]\(([^)#\s]+)(?:#[^)]*)?\)")


def leading_nowhere():
    """The links of the pages beside the file that lead to no file."""
    for page in sorted(glob.glob(f"{FOLDER}/docs/*.md")):
        targets = [it for it in LINKED.findall(text_of(page)) if "://" not in it]
        yield from (f"{page}: {it}" for it in targets if not os.path.exists(f"{FOLDER}/docs/{it}"))


def pages():
    """The pages beside the file."""
    missing = library_pages.missing()
    print("".join(f"{it} isn't there\n" for it in missing), end="")
    tell(f"the {len(library_pages.PAGES)} pages beside the file are all that a header names", not missing)
    wrong = [*leading_nowhere()]
    print("".join(f"{it}\n" for it in wrong), end="")
    tell("and each of their links leads to a file", not wrong and os.path.isfile(f"{FOLDER}/docs/EMBED.md"))


def again():
    """Another build, from the kept module on."""
    with tempfile.TemporaryDirectory() as folder:
        library_c.compiled(library_c.CRATE, folder)
        tell("a second build gives the same bytes", library_c.written(folder) == text_of(LIBRARY))


def test(names):
    """All of it, or what some compilers make of it."""
    for file, makes in ((NATIVE, "make embed"), (LIBRARY, "make library")):
        if not os.path.isfile(file):
            say(f"{file} is missing: {makes}")
            return
    right = Right()
    for name in names or KINDS:
        (by_wine if name == "windows" else try_kind)(name, KINDS[name], right)
    if not names:
        refusals()
        static()
        pages()
        again()

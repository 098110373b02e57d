"""What is tried of the program as one file of C, by each compiler that is there: all that is played with the program of this machine, how
it ends, and what it says where it is refused memory, reads and writes."""
import os
import shutil
import subprocess
import tempfile

import library_tests
import portable_c
from c_library import text_of
from library_tests import SANITIZERS, STRICT, Kind
from platform_tests import counted, plays_of
from systems import PROGRAM
from telling import has, left_out, say, tell

TRIED = "build/portable/tried"
# (the optimizer takes minutes: it is at work for what others play, and for what an emulator makes slow)
KINDS = {
    "gcc": Kind(["gcc", "-O2", "-std=c99"]),
    "clang": Kind(["clang", "-O2", "-std=c99"]),
    "copies": Kind(["gcc", "-O0", "-DIPXR_COPIES"]),
    "sanitizers": Kind(["gcc", "-O0", *SANITIZERS]),
    "tcc": Kind(["tcc"]),
    "musl": Kind(["musl-gcc", "-O0", "-static"]),
    "i686": Kind(["i686-linux-gnu-gcc", "-O0", "-static"]),
    "arm": Kind(["arm-linux-gnueabihf-gcc", "-O2", "-static"], ["qemu-arm"]),
    "aarch64": Kind(["aarch64-linux-gnu-gcc", "-O1", "-static"], ["qemu-aarch64"]),
    "riscv64": Kind(["riscv64-linux-gnu-gcc", "-O1", "-static"], ["qemu-riscv64"]),
    "mips": Kind(["mips-linux-gnu-gcc", "-O1", "-static"], ["qemu-mips"]),
    "s390x": Kind(["s390x-linux-gnu-gcc", "-O1", "-static"], ["qemu-s390x"]),
    "windows": Kind(["x86_64-w64-mingw32-gcc", "-O0"], ["wine"]),
}
# By whose programs a library is preloaded that refuses what they ask for.
PRELOADED = ("gcc", "tcc")
SANITIZED = "sanitizers"
SECONDS = 60
# Ends that are compared, by a line for the shell in which P is the program.
ENDS = {
    "no words": "$P",
    "words that are none": "$P replay a b",
    "no such file": "$P replay nowhere",
    "a folder": "$P replay .",
    "a full device": "$P decode examples/nearest-server.pcap >/dev/full",
    "no standard output": "$P decode examples/nearest-server.pcap >&-",
    "no standard input": "$P replay <&-",
    "a reader that is gone": "{ sleep 1; $P decode examples/nearest-server.pcap; echo $? >&2; } | true",
    "bad input": "echo x | $P replay",
}
# Kilobytes of memory: enough for a small script and not for a storm.
LITTLE = 4_000
STORM, SMALL = "$P internet examples/storm.internet", "$P replay examples/two-segments.script"


def end(line, program):
    """The status of a line for the shell, what it prints, and what it complains of."""
    asked = {**os.environ, "P": program}
    run = subprocess.run(["sh", "-c", line], env=asked, stdin=subprocess.DEVNULL, capture_output=True, timeout=SECONDS, check=False)
    return run.returncode, run.stdout, run.stderr


def ends_alike(name, program):
    """How a program ends, beside this machine's."""
    for what, line in ENDS.items():
        ours, native = end(line, program), end(line, PROGRAM)
        if ours != native:
            print(f"{ours}, and this machine's program {native}")
        tell(f"{name}: {what}", ours == native)


def with_little(name, program):
    """How it ends where the system has little memory."""
    limit = f"ulimit -d {LITTLE}; "
    tell(f"{name}: {LITTLE} KB of memory, for a small script", end(limit + SMALL, program) == end(SMALL, PROGRAM))
    status, _, said = end(limit + STORM, program)
    tell(f"{name}: {LITTLE} KB of memory are too little for a storm", (status, said) == (3, b"ipxr: memory\n"))


def try_kind(name, kind):
    if missing := [it for it in (kind.compiler[0], *kind.runner[:1]) if not has(it)]:
        left_out(name, " and no ".join(missing))
        return
    folder = f"{TRIED}/{name.replace(' ', '').replace(',', '-')}"
    shutil.rmtree(folder, ignore_errors=True)
    os.makedirs(folder)
    strict = STRICT if "gcc" in kind.compiler[0] or "clang" in kind.compiler[0] else []
    program = f"{folder}/ipxr.exe"
    is_built = library_tests.says_nothing(*kind.compiler, *strict, portable_c.MADE, "-o", program)
    tell(f"{name}: the file is compiled without a warning", is_built)
    if not os.path.exists(program):
        return
    plays_of(name, folder, program, *kind.runner)
    if name == "windows":
        left_out("windows: names that aren't ASCII's, and how it ends", "words but those of the system's letters")
        return
    counted(f"{name}: words and names of files", "python3", "tests/platforms/called.py", program, *kind.runner)
    if not kind.runner:
        ends_alike(name, program)
        if SANITIZED not in name:
            with_little(name, program)
    if name in PRELOADED:
        counted(f"{name}: dev/refusals", "dev/refusals", IPXR=os.path.abspath(program))


def again():
    """Another build, from the kept module on."""
    with tempfile.TemporaryDirectory() as folder:
        portable_c.compiled(folder)
        tell("a second build gives the same bytes", portable_c.written(folder) == text_of(portable_c.MADE))


def test(names):
    """All of it, or what some compilers make of it."""
    for file, makes in ((PROGRAM, "make build"), (portable_c.MADE, "make portable")):
        if not os.path.isfile(file):
            say(f"{file} is missing: {makes}")
            tell(f"{file} is there", False)
            return
    for name in names or KINDS:
        try_kind(name, KINDS[name])
    if not names:
        again()

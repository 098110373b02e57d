"""What tools/embed tries of the library for C: its sources, what it is made of, its headers (embed_header.py), its sizes, and the examples
of examples/embed by each compiler that is there. All of it works at the top of the repository."""
import glob
import os
import re

import c_examples
import embed_header
from c_library import CC, FLAGS, joins_heap, proves, put, text_of, version
from telling import has, left_out, prints, quietly, say, succeeds, tell

OVER = "build/over"  # over which libraries it was built
LOSES = re.compile(r"forget|leak|ManuallyDrop|(into_raw(_with_allocator|_parts)?|(^|[^A-Za-z_])(Rc|Arc))([^A-Za-z_]|$)")
OWNERS = ("crates/ipx_c/src/cell.rt", "crates/ipx_c/src/handle.rt")
LETS_GO = re.compile(r"derive\(.*Drop|impl.* Drop for|forget|leak|ManuallyDrop")
OTHER_SIZES = {"PORTS": 8, "ROUTES": 256, "SERVICES": 128, "CLIENTS": 64, "LINKS": 4, "STATIONS": 100}
SIZED = "build/sized"
# What the programs that fill tunnels and a segment print of those sizes, in place of what they print as delivered.
OF_OTHER_SIZES = {
    "tunnel": {"4096": "64", "4095": "63"},
    "keyed": {"4096": "64", "4095": "63"},
    "segment": {"8192": "100", "receivers: 31": "receivers: 3", "sends: 32": "sends: 4"},
}
EXAMPLES = "examples/embed"
WORDS = f"{EXAMPLES}/c/header.out"
STORY = f"{EXAMPLES}/two_networks.out"
RUST = ["--quiet", "--release", "--offline", "--manifest-path", f"{EXAMPLES}/rust/Cargo.toml"]


def has_none(pattern, files, is_code=lambda line: line):
    """Whether no line of some files has a word; those that have are shown."""
    found = [f"{file}:{number}: {line}" for file in files for number, line in enumerate(text_of(file).splitlines(), 1)
             if pattern.search(is_code(line))]
    print("".join(f"{it}\n" for it in found), end="", flush=True)
    return not found


def sources():
    """The words by which a block could be let go and not freed: no clause speaks of them, so they stand in no source but one, and C's
    handle and what it owns have no `Drop`."""
    files = sorted(glob.glob("crates/*/src/**/*.rt", recursive=True))
    tell("no source lets a block go without freeing it",
        has_none(LOSES, [it for it in files if it != OWNERS[0]], lambda line: line.partition("//")[0]))
    tell("no handle can be let go", has_none(LETS_GO, OWNERS))


def sums():
    """Whether the library is made over what the gate left only where each sum is the one that the gate left."""
    if os.path.exists(OVER) and "the gate left" in text_of(OVER):
        tell("the archive is made of what the gate passed; another toolchain, source or library is refused",
            succeeds("tools/lib/libraries.py", "ipx_c"))
    else:
        left_out("whether the archive is made of what the gate passed", "libraries of a gate that passed; make test leaves them")


def builds(source, made, *more, folder="build"):
    """Whether a program in C is built with an archive, by the header that lies beside it."""
    before = [] if folder == "build" else [f"-I{folder}"]
    return succeeds(CC, "-std=c99", *before, *FLAGS, source, *more, "-o", made)


def fills(folder, text):
    """Whether a router of a folder's library has that room, and no more."""
    put(f"{folder}/sizes.wanted", f"{text}: full, and no more\n")
    is_built = succeeds(CC, "-std=c99", f"-I{folder}", *FLAGS, "tests/embed/sizes.c", f"{folder}/libipxr.a", "-pthread", "-o",
        f"{folder}/sizes")
    return is_built and prints(f"{folder}/sizes.wanted", f"{folder}/sizes")


def fills_blocks(what, changes):
    """Whether a tunnel or a segment of other sizes has the room that its header says."""
    name = f"{what}_blocks"
    text = text_of(f"{EXAMPLES}/c/{name}.out")
    for before, after in changes.items():
        text = text.replace(before, after)
    put(f"{SIZED}/{name}.wanted", text)
    is_built = builds(f"{EXAMPLES}/c/{name}.c", f"{SIZED}/{name}", f"{SIZED}/libipx_c.a", folder=SIZED)
    return is_built and prints(f"{SIZED}/{name}.wanted", f"{SIZED}/{name}")


def sizes(cpu):
    """A router that is full, of the library as delivered, and of the same for other sizes; and a tunnel and a segment that are."""
    tell("C: a router as delivered has the room that its header says", fills("build", "32 ports, 2048 routes, 1024 services"))
    say("proving and building ipx_c for 8 ports, 256 routes, 128 services, 64 clients, 4 links and 100 stations")
    asked = {**os.environ, **{name: str(number) for name, number in OTHER_SIZES.items()}}
    is_built = proves(SIZED, "--cpu", cpu, env=asked) and succeeds("cp", "build/heap.o", f"{SIZED}/") and joins_heap(SIZED, "ar")
    tell("C: a library of other sizes is built", is_built)
    tell("C: a router of other sizes has the room that its header says", fills(SIZED, "8 ports, 256 routes, 128 services"))
    for what, changes in OF_OTHER_SIZES.items():
        tell(f"C: a {what} of another size has the room that its header says", fills_blocks(what, changes))


def sanitizers():
    """The words for the sanitizers, or none where no program that has them runs, which is told."""
    words, made = ["-fsanitize=address,undefined", "-fno-sanitize-recover=all", "-g"], "build/empty"
    if quietly(CC, *words, "-x", "c", "-", "-o", made, input=b"int main(void) { return 0; }\n") and quietly(made):
        return words
    left_out("the sanitizers", "-fsanitize=address that runs")
    return []


def shown_in_readme(language):
    """The lines of a language that the README shows."""
    return "".join(re.findall(rf"(?ms)^```{language}\n(.*?)^```$", text_of("README.md")))


def readme():
    put("build/readme.inc", shown_in_readme("c"))
    is_built = succeeds(CC, "-std=c99", *FLAGS, "-Ibuild", "tests/embed/readme.c", "build/libipxr.a", "-o", "build/readme")
    tell("C: the lines of README.md print what is kept", is_built and prints("tests/embed/readme.out", "build/readme"))
    shown = [f"    {it}" for it in shown_in_readme("rust").splitlines()]
    tell("Rattle: the lines of README.md stand in embed_example",
        shown and set(shown) <= set(text_of("crates/embed_example/src/main.rt").splitlines()))


def stack():
    """How much stack each call takes: docs/LIBIPXR.md says what they may take, and `build/stack figures` prints what they took."""
    source, kept = f"{EXAMPLES}/c/stack.c", f"{EXAMPLES}/c/stack.out"
    tell("C: stack is built", builds(source, "build/stack", "build/libipxr.a", "-pthread"))
    tell("C: no call takes more stack than docs/LIBIPXR.md says", prints(kept, "build/stack"))
    is_built = builds(source, f"{SIZED}/stack", f"{SIZED}/libipxr.a", "-pthread", folder=SIZED)
    tell("C: nor with tables of other sizes", is_built and prints(kept, f"{SIZED}/stack"))


def in_cpp():
    words = ["c++", "-std=c++11", *FLAGS]
    made = "build/two_networks_cpp"
    tell("C++: two_networks is built", succeeds(*words, f"{EXAMPLES}/cpp/two_networks.cpp", "build/libipxr.a", "-o", made))
    tell("C++: two_networks prints what is kept", prints(STORY, made))
    is_built = succeeds(*words, "tests/embed/words.cpp", "build/libipxr.a", "-o", "build/words_cpp")
    tell("C++: every number has its words", is_built and prints(WORDS, "build/words_cpp", WORDS))


def in_python():
    library = f"build/libipxr.so.{version()}"
    tell("Python: two_networks prints what is kept", prints(STORY, "python3", f"{EXAMPLES}/python/two_networks.py", library))
    tell("Python: every number has its words", prints(WORDS, "python3", "tests/embed/words.py", library, WORDS))


def beside_plain():
    """A plain router is played the events that are measured, and compared packet by packet."""
    tell("C: a plain router sends the same packets for the events that are measured", quietly("dev/plain_speed", "check"))


def in_rust():
    asked = {**os.environ, "CARGO_TARGET_DIR": "build/cargo", "IPXR_LIB": os.path.abspath("build")}
    tell("Rust: two_networks is built", succeeds("cargo", "build", *RUST, env=asked))
    tell("Rust: two_networks prints what is kept", prints(STORY, "build/cargo/release/two_networks"))
    tell("Rust: every number shows itself in its words", quietly("cargo", "test", *RUST, "--test", "words", env=asked))


OTHERS = {"C++": ("c++", in_cpp), "Python": ("python3", in_python), "Rust": ("cargo", in_rust)}


def all_of_it(cpu):
    """All that wants the library."""
    how = sanitizers()
    c_examples.examples("C", [CC], "build")
    embed_header.every_call()
    embed_header.as_the_sources()
    embed_header.by_standards()
    embed_header.of_the_first_standard()
    readme()
    sizes(cpu)
    c_examples.counted_examples("C", [CC], "build", how)
    c_examples.thread("C", [CC], "build")
    stack()
    beside_plain()
    for language, (tool, tries) in OTHERS.items():
        if has(tool):
            tries()
        else:
            left_out(language, tool)

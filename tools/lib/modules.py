#!/usr/bin/env python3
"""The compiler's LLVM module of the program (ipxr) and of the library for C (ipx_c): tools/lib/modules.py CRATE..

The toolchain compiles a crate by the clang of a folder that it is told. Here this is a folder of links to the toolchain's own, and its
clang first copies the module, and the words that it is given. What is built so must be, byte for byte, what was built without it: the
program's object, the library's archive. Else nothing is kept, and it says so.

build/modules/CRATE.bc is the module for Linux on x86-64, before any optimization, and CRATE.words has the words by which clang compiled it,
one a line. They are made anew where the toolchain, a source or the library's archive has changed. tools/lib/targets.py compiles them for
other systems.
"""
import contextlib
import filecmp
import os
import shlex
import subprocess
import sys
import tempfile

sys.dont_write_bytecode = True
import layout
import systems
from libraries import TOP, are_the_gates, below, command, kit, prover, see_toolchain, sources, sum_of

FOLDER = f"{TOP}/build/modules"
# Any x86-64: for later ones the program asks the processor as it starts, which no other system has.
CPU = "x86-64"
OBJECT = f"{TOP}/crates/ipxr/out/ipxr.o"
ARCHIVE = f"{TOP}/build/libipx_c.a"
# The clang that keeps the module is told here where to put it.
CLANG = """#!/bin/sh
printf '%s\\n' "$@" >{0}.words && cp module.bc {0}.bc && exec {1} "$@"
"""


def fail(why):
    sys.exit(f"tools/lib/modules.py: {why}")


@contextlib.contextmanager
def keeping(name):
    """A folder like the toolchain's whose clang leaves the module in NAME.bc, and its words in NAME.words."""
    own = f"{kit()}/toolchain"
    with tempfile.TemporaryDirectory() as folder:
        os.mkdir(f"{folder}/bin")
        os.symlink(f"{own}/lib", f"{folder}/lib")
        for tool in os.listdir(f"{own}/bin"):
            os.symlink(f"{own}/bin/{tool}", f"{folder}/bin/{tool}")
        os.remove(f"{folder}/bin/clang")
        with open(f"{folder}/bin/clang", "w", encoding="utf-8") as it:
            it.write(CLANG.format(shlex.quote(name), shlex.quote(f"{own}/bin/clang")))
        os.chmod(f"{folder}/bin/clang", 0o755)
        yield folder


def compile_program(toolchain, to, target=("--cpu", CPU)):
    """Compiles the program over the libraries that are there."""
    how = ["--toolchain", toolchain, "--backend", "llvm", "--incremental", "out/incremental", "--jobs", "2", *target]
    words = prover("build", "ipxr", *how, "-o", os.path.abspath(to))
    done = subprocess.run(words, cwd=f"{TOP}/crates/ipxr", capture_output=True, text=True, check=False)
    if done.returncode:
        fail(f"ipxr is not built\n{done.stdout}{done.stderr}")


def is_built():
    """Whether the program's object is there that `make run` makes."""
    return layout.tool("tools/build").is_built() and os.path.isfile(OBJECT)


def prove_below():
    """Sees to it that the libraries are there that the program stands on: those that the gate left, or those of `make run`."""
    if not is_built() and not are_the_gates("ipxr"):
        if subprocess.run([f"{TOP}/tools/build"], check=False, env={**os.environ, "CPU": CPU}).returncode:
            fail("ipxr is not built")


def built_program():
    """The program's object: the one of `make run`, or one over the libraries that the gate left."""
    prove_below()
    if is_built():
        return OBJECT
    os.makedirs(FOLDER, exist_ok=True)
    compile_program(f"{kit()}/toolchain", f"{FOLDER}/ipxr.built.o")
    return f"{FOLDER}/ipxr.built.o"


def compile_program_for(target, to):
    """Compiles the program for another target of the toolchain's."""
    prove_below()
    compile_program(f"{kit()}/toolchain", to, ("--target", target))


def keep_program(name):
    """Keeps the program's module; returns what was built with it and what was built without."""
    built = built_program()
    with keeping(name) as toolchain:
        compile_program(toolchain, f"{name}.o")
    return f"{name}.o", built


def sizes():
    """The sizes of the library that is built, by the words of `make embed`."""
    return {name.strip("@"): number for name, number in layout.sizes(systems.LINUX).items()}


def built_library():
    """The archive without an allocator that `make embed` made."""
    if not os.path.isfile(ARCHIVE):
        if subprocess.run([f"{TOP}/tools/embed"], check=False).returncode:
            fail("the library for C is not built")
    return ARCHIVE


def keep_library(name):
    """Keeps the library's module; returns what was built with it and what was built without."""
    built = built_library()
    words = [f"{TOP}/tools/sized", FOLDER, "--keep", name, "--cpu", CPU]
    done = subprocess.run(words, env={**os.environ, **sizes()}, capture_output=True, text=True, check=False)
    if done.returncode:
        fail(f"ipx_c is not built\n{done.stdout}{done.stderr}")
    return f"{FOLDER}/{os.path.basename(built)}", built


KEEPERS = {"ipxr": keep_program, "ipx_c": keep_library}


def stamp(crate):
    """What a module was made of and by, as one text."""
    made_of = sources()
    built = sum_of([ARCHIVE]) if crate == "ipx_c" and os.path.isfile(ARCHIVE) else ""
    return "\n".join([command("rt", "version"), built, *(made_of[it] for it in [*below(crate), crate])])


def is_kept(name, crate):
    """Whether the module is there, of what there is now."""
    try:
        with open(f"{name}.stamp", encoding="utf-8") as it:
            return it.read() == stamp(crate) and all(os.path.isfile(f"{name}.{it}") for it in ("bc", "words"))
    except OSError:
        return False


def kept(crate):
    """The module of a crate and the words by which it was compiled: NAME.bc and NAME.words, of which this returns NAME."""
    see_toolchain()
    name = f"{FOLDER}/{crate}"
    if is_kept(name, crate):
        return name
    os.makedirs(FOLDER, exist_ok=True)
    print(f"compiling {crate} once more, to keep the compiler's module", file=sys.stderr, flush=True)
    with_it, without = KEEPERS[crate](f"{name}.new")
    if not filecmp.cmp(with_it, without, shallow=False):
        files = [os.path.relpath(it, TOP) for it in (with_it, without)]
        how = "Where a source has changed since that was made: make embed, and again"
        fail(f"{files[0]}, built for any x86-64 with its module kept, isn't {files[1]}, byte for byte. {how}")
    with contextlib.suppress(FileNotFoundError):
        os.remove(f"{name}.stamp")  # (a run that ends here leaves no module with the stamp of another)
    for end in ("bc", "words"):
        os.replace(f"{name}.new.{end}", f"{name}.{end}")
    with open(f"{name}.stamp", "w", encoding="utf-8") as it:
        it.write(stamp(crate))
    return name


def main(crates):
    if not crates or any(it not in KEEPERS for it in crates):
        fail(f"{' or '.join(KEEPERS)}")
    for it in crates:
        print(f"{os.path.relpath(kept(it), TOP)}.bc")


if __name__ == "__main__":
    main(sys.argv[1:])

#!/usr/bin/env python3
"""Compiles the program (ipxr) or the library for C (ipx_c) for another system than Linux on x86-64: targets.py CRATE SYSTEM FILE.o

For 64-bit ARM the toolchain has a target of its own, and is given that: it knows faults of LLVM there, and writes around them. For Windows
a kept module (tools/lib/modules.py) is compiled by the toolchain's own clang, by the words that compiled it for Linux, but for the target's
own. Such a system has 64 bits, its lowest byte first, and types that lie in memory as they do on Linux. All that a module knows of its
target is the layout of its types, the attributes of its functions, and how C hands over a small struct. These are written anew in its text;
its code is not. A module with what only Linux on x86-64 has, as assembly, is refused.
"""
import os
import re
import subprocess
import sys
import tempfile
from typing import NamedTuple

sys.dont_write_bytecode = True
import modules
from libraries import kit

LINUX = "x86_64-unknown-linux-gnu"
# Words of the toolchain's call that name the target, a folder of it, or a file.
OF_TARGET = re.compile(r"--target=|--sysroot=|-march=")
OF_FILES = ("-c", "-x", "ir", "module.bc", "-o", "module.o")
# Two words that C gets back from a call, as Linux hands them over.
PAIR = "{ i64, i64 }"
# Each line of a function that C has and the module calls, or the other way round.
CALLED = re.compile(r"(?m)^(?:declare|define) (?!internal |private |.*@llvm\.).*$")
# Values that every system hands over alike, where nothing is said of bits above them; and two words, where C gives them back.
WORD = r"(?:noundef )?(?:i8|i16|i32|i64|ptr)"
# What a call of the module gives back as a bool: the module itself makes it 0 or 1 in as many bits as somebody reads.
FLAG = "(?:noundef )?zeroext i1"
ARGUMENTS = r"\((?:(?:(?:i8|i16|i32|i64|ptr)(?: noundef)?(?: %\w+)?|\.\.\.)(?:, |(?=\))))*\)"
ALIKE = re.compile(rf"(?:declare (?:void|{WORD}|{PAIR})|define (?:void|{WORD}|{FLAG})) @\w+{ARGUMENTS}(?: .*)?")
ONLY_X86 = re.compile(r"(?m)^module asm.*$|^ .*\bcall\b.*\basm\b.*$|@llvm\.x86\.\S+")


class Target(NamedTuple):
    """A system: clang's name for it, the words for it alone, and what of a module is written anew."""

    triple: str
    words: list
    # Attributes of functions that change, each as a pattern and what takes its place.
    attributes: list
    # The names that a host defines in front of which `host_` stands, since the system's C library has its own.
    renamed: list = []
    # Whether C gets two words back through a pointer.
    by_pointer: bool = False
    # Words of the toolchain's call that mean nothing there.
    unknown: tuple = ()


PROBES = (r' "probe-stack"="[^"]*"| "stack-probe-size"="\d+"', "")
CPU = (r' "target-cpu"="[^"]*"', "")
PICS = ("-fPIE", "-fPIC")
HOSTS = ["main", "open", "read", "write", "close", "__sysv_signal"]
# For which the toolchain has a target, by its name.
OWN = {"aarch64": "aarch64-unknown-linux-gnu"}
TARGETS = {
    "windows": Target("x86_64-pc-windows-gnu", ["-march=x86-64", "-mno-red-zone"], [PROBES], HOSTS, by_pointer=True, unknown=PICS),
    # (a division of 128 bits, and what rounds to so many, would be calls)
    "wasm64": Target(
        "wasm64-unknown-unknown",
        ["-mcpu=lime1", "-msimd128", "-mllvm", "-expand-div-rem-bits=64", "-mllvm", "-expand-fp-convert-bits=64"],
        [PROBES, CPU],
        unknown=PICS,
    ),
    # (for what writes a module as C: whole numbers alone, and no address among the data, as a table of places would have)
    "wasm64-plain": Target(
        "wasm64-unknown-unknown",
        ["-mcpu=lime1", "-mllvm", "-expand-div-rem-bits=64", "-mllvm", "-expand-fp-convert-bits=64"],
        [PROBES, CPU, (r"\{ ", '{ "no-jump-tables"="true" ')],
        unknown=PICS,
    ),
}


def fail(why):
    sys.exit(f"tools/lib/targets.py: {why}")


def clang(*words, **how):
    done = subprocess.run([f"{kit()}/toolchain/bin/clang", *words], stdout=subprocess.PIPE, text=True, check=False, **how)
    if done.returncode:
        fail(f"clang ends with {done.returncode}")
    return done.stdout


def text_of(module):
    """The text of a module, as it was made."""
    return clang(f"--target={LINUX}", "-S", "-emit-llvm", "-Xclang", "-disable-llvm-passes", module, "-o", "-")


def layout_of(triple):
    """How types lie in memory there, by clang's own word."""
    return re.search(r'(?m)^target datalayout = "(.*)"$',
        clang(f"--target={triple}", "-S", "-emit-llvm", "-x", "c", os.devnull, "-o", "-"))[1]


def replaced_once(pattern, by, text):
    text, count = re.subn(pattern, lambda _: by, text)
    if count != 1:
        fail(f"{count} lines fit {pattern}")
    return text


def through_pointer(text):
    """A module in which C gives two words back through a pointer, which it is handed first."""

    def declared(found):
        name, types = found[1], [it.split()[0] for it in found[2].split(", ")]
        given = ", ".join(f"{it} %a{k}" for k, it in enumerate(types))
        return (
            f"declare void @{name}({', '.join([f'ptr sret({PAIR})', *types])}){found[3]}\n\n"
            f'define internal {PAIR} @"{name} by pointer"({given}) nounwind {{\n'
            f"  %both = alloca {PAIR}, align 8\n"
            f"  call void @{name}(ptr sret({PAIR}) align 8 %both, {given})\n"
            f"  %words = load {PAIR}, ptr %both, align 8\n"
            f"  ret {PAIR} %words\n}}\n"
        )

    for name in re.findall(rf"(?m)^declare {PAIR} @(\w+)\(", text):
        text = text.replace(f"call {PAIR} @{name}(", f'call {PAIR} @"{name} by pointer"(')
        text = re.sub(rf"(?m)^declare {PAIR} @({name})\((.*)\)(.*)$", declared, text)
        # (what declares it, and what calls it then)
        if len(re.findall(rf"@{name}(?![\w.$-])", text)) != 2:
            fail(f"{name} is used otherwise than by calls")
    return text


def retargeted(text, system):
    """The text of a module for another system."""
    if found := ONLY_X86.search(text):
        fail(f"the module has what only Linux on x86-64 has: {found[0].strip()}")
    for line in CALLED.findall(text):
        if not ALIKE.fullmatch(line):
            fail(f"not every system hands this over as Linux on x86-64 does: {line}")
    text = replaced_once(r"(?m)^target datalayout = .*$", f'target datalayout = "{layout_of(system.triple)}"', text)
    text = replaced_once(r"(?m)^target triple = .*$", f'target triple = "{system.triple}"', text)
    lines = text.split("\n")
    for pattern, by in system.attributes:
        lines = [re.sub(pattern, by, it) if it.startswith("attributes #") else it for it in lines]
    text = "\n".join(lines)
    for name in system.renamed:
        text = re.sub(rf"(?<=@){name}(?![\w.$-])", f"host_{name.strip('_')}", text)
    return through_pointer(text) if system.by_pointer else text


def words_of(name, system):
    """How clang compiles a module for a system."""
    with open(f"{name}.words", encoding="utf-8") as it:
        words = [word for word in it.read().splitlines() if word not in (*OF_FILES, *system.unknown) and not OF_TARGET.match(word)]
    return [f"--target={system.triple}", *words, *system.words]


def compiled(name, system, to):
    """Compiles a kept module for a system: once to what the optimizer made of it, and that to an object, as the toolchain does."""
    with tempfile.TemporaryDirectory() as folder:
        with open(f"{folder}/module.ll", "w", encoding="utf-8") as it:
            it.write(retargeted(text_of(f"{name}.bc"), system))
        words = words_of(name, system)
        optimized = ["-S", "-emit-llvm", "-Xclang", "-emit-llvm-uselists", "-o", "optimized.ll"]
        clang(*words, "-x", "ir", "module.ll", *optimized, cwd=folder)
        clang(*words, "-c", "-x", "ir", "optimized.ll", "-Xclang", "-disable-llvm-passes", "-o", os.path.abspath(to), cwd=folder)


def main(words):
    if len(words) != 3 or words[0] not in modules.KEEPERS or words[1] not in (*OWN, *TARGETS):
        fail(f"{'|'.join(modules.KEEPERS)} {'|'.join([*OWN, *TARGETS])} FILE.o")
    crate, system, to = words
    if system in TARGETS:
        compiled(modules.kept(crate), TARGETS[system], to)
    elif crate == "ipxr":
        modules.compile_program_for(OWN[system], to)
    else:
        fail("tools/sized compiles the library for a target of the toolchain")


if __name__ == "__main__":
    main(sys.argv[1:])

"""The package for Rust: a crate that compiles the library as one file of C."""
import glob
import os
import re
import shutil
import subprocess

import package_layers
import packages
import rust_sys
from c_library import CC, put, text_of
from libraries import TOP
from systems import HEADERS
from telling import has, left_out, say, tell

# Numbers that the safe types don't name, and why. All are in the raw layer.
LEFT_OUT = {
    r"IPXR_(MOST_(PORTS|ROUTES|SERVICES|CLIENTS|LINKS|STATIONS|PLANNED|STEPS|RULES|TIME|PEERS)|(PLAN_)?STACK|LIFETIME|SPEAKERS|ALL_\w+|"
    r"PACKET_(ROUTES|SERVICES)|SHORTEST_FRAME)":
        "sizes, which a program names where it needs them",
    r"IPXR_(LAST_DROP|DROPS|NO_FRAME|NO_REASON)": "what stands for none, or for how many there are: enums and lists say it",
    r"IPXR_(SAID_NOTHING|TOO_MUCH_FOR_STRANGERS|PROBE_NOTHING|FATE_ELSEWHERE)": "what an enum means where it means nothing else",
    r"IPXR_(NO_ONE|CARRIER_\w+|TUNNEL_(ABSENT|STAYS|AGAIN|NEW))": "a plan's links are given as C has them",
    r"IPXR_(EXPECTED|SETTING|OVER|CARDS)_\w+|IPXR_FRAME_ANY": "what a line of a configuration says, and on which system, is told as C has it",
    r"ipxr_peers_\w+|IPXR_PEERS_\w+": "gateways that share a network call it from C",
    r"IPXR_(NEXT|LOST)_\w+": "whoever answers what is next names it",
}
C_KINDS = {rust: c for c, rust in rust_sys.KINDS.items()} | {"c_void": "void"}
ARGUMENT = re.compile(r"(?:r#)?(\w+): (?:\*(const|mut) )?(\w+)")
FUNCTION = re.compile(r"(?m)^    pub fn (\w+)\((.*)\)(?: -> (\w+))?;$")
NUMBER = re.compile(r"(?m)^pub const (IPXR_\w+): (\w+) = (.*);$")
PROGRAM = """\
[package]
name = "{}"
version = "1.0.0"
edition = "2021"

[dependencies]
ipxr = {{ path = "{}" }}
"""
TESTS = f"{TOP}/tests/packages"

# Targets of Rust, each with the compiler that the crate takes for it.
TARGETS = {
    "aarch64-unknown-linux-gnu": "aarch64-linux-gnu-gcc",
    "armv7-unknown-linux-gnueabihf": "arm-linux-gnueabihf-gcc",
    "i686-unknown-linux-gnu": "i686-linux-gnu-gcc",
    "riscv64gc-unknown-linux-gnu": "riscv64-linux-gnu-gcc",
    "s390x-unknown-linux-gnu": "s390x-linux-gnu-gcc",
    "x86_64-pc-windows-gnu": "x86_64-w64-mingw32-gcc",
    "x86_64-unknown-linux-musl": "musl-gcc",
}


def make(folder):
    """Puts the package into a folder."""
    packages.copy_sources("rust", folder)
    if os.path.exists(f"{folder}/.gitignore"):
        os.remove(f"{folder}/.gitignore")
    packages.copy_library(f"{folder}/libipxr")
    rust_sys.make(packages.LIBRARY, folder)
    text = text_of(f"{folder}/Cargo.toml")
    put(f"{folder}/Cargo.toml", text.replace('version = "0.0.0"', f'version = "{packages.release()}"', 1))


# ---- The layers ----


def upper():
    """The text of the safe types, without comments."""
    text = "".join(text_of(it) for it in sorted(glob.glob(f"{rust_sys.CRATE}/src/*.rs")) if not it.endswith("/sys.rs"))
    return "".join(f"{line}\n" for line in text.splitlines() if not line.lstrip().startswith("//"))


def raw():
    return "".join(text_of(it) for it in sorted(glob.glob(f"{rust_sys.CRATE}/src/sys/*.rs")))


def kind_in_c(kind):
    return C_KINDS.get(kind, kind)


def argument_in_c(it):
    name, pointer, kind = it
    return {"": kind_in_c(kind), "const": f"const {kind_in_c(kind)} *", "mut": f"{kind_in_c(kind)} *"}[pointer] + f" {name}"


def in_c(text):
    """The raw layer as C: each of its calls declared once more, and each number compared."""
    lines = [f'#include "{it}"\n' for it in HEADERS]
    for name, given, answer in FUNCTION.findall(text):
        arguments = ", ".join(map(argument_in_c, ARGUMENT.findall(given))) or "void"
        lines.append(f"{kind_in_c(answer) if answer else 'void'} {name}({arguments});\n")
    for name, kind, value in NUMBER.findall(text):
        lines.append(f'_Static_assert({name} == ({kind_in_c(kind)}){value}, "{name}");\n')
    return "".join(lines)


def is_c(text):
    """Whether a compiler of C takes it beside the headers."""
    words = [CC, "-std=c11", f"-I{package_layers.INCLUDE}", "-Werror", "-fsyntax-only", "-x", "c", "-"]
    return subprocess.run(words, input=text, text=True, capture_output=True, check=False).returncode == 0


# What is altered in the raw layer, each of which a compiler of C must refuse.
ALTERED = (("ipxr_port_up(router: *mut ipxr, port: u8)", "ipxr_port_up(router: *mut ipxr)"),
           ("IPXR_NO_PORT: i32 = -2", "IPXR_NO_PORT: i32 = -3"),
           ("ipxr_sent(router: *mut ipxr) -> usize", "ipxr_sent(router: *mut ipxr) -> u32"),
           ("ipxr_kinds_of(kinds: *const ipxr_kinds", "ipxr_kinds_of(kinds: *mut ipxr_kinds"))


def layers():
    """Whether the raw layer is what the headers say, and the upper one has it all."""
    text, count = raw(), sum(text_of(f"{package_layers.INCLUDE}/{it}").count("\nIPXR_CALL ") for it in HEADERS)
    tell("rust: the raw layer is made of the headers", not rust_sys.differing(package_layers.INCLUDE))
    tell(f"rust: a compiler of C finds {count} calls and all numbers of the raw layer in the headers",
         len(FUNCTION.findall(text)) == count and is_c(in_c(text)))
    tell("rust: it refuses each that is altered", all(old in text and not is_c(in_c(text.replace(old, new))) for old, new in ALTERED))
    with package_layers.grown() as folder:
        tell("rust: what a header gains isn't in the raw layer", {*rust_sys.differing(folder)} == {"src/sys/router.rs"})
    package_layers.see("rust", upper(), LEFT_OUT)


# ---- The package, away from here ----


def packed(folder, to):
    """The folder that comes out of the crate's archive."""
    target = f"{to}/packing"
    if not packages.runs("cargo", "package", "--offline", "--allow-dirty", "--no-verify", "--quiet", "--target-dir", target, cwd=folder):
        return None
    archive, = glob.glob(f"{target}/package/*.crate")
    shutil.unpack_archive(archive, to, "gztar")
    return f"{to}/{os.path.basename(archive).removesuffix('.crate')}"


class Program:
    """A program of its own that has the crate."""

    def __init__(self, name, crate, to, environment, more=""):
        self.folder, self.environment = f"{to}/{name}", environment
        self.made = f"{environment['CARGO_TARGET_DIR']}/debug/{name}"
        os.makedirs(f"{self.folder}/src")
        put(f"{self.folder}/Cargo.toml", PROGRAM.format(name, crate) + more)

    def copy(self, *files):
        """Its sources, of which the first is its main one."""
        for it in files:
            shutil.copy(it, f"{self.folder}/src/{'main.rs' if it == files[0] else os.path.basename(it)}")
        return self

    def is_built(self, **more):
        return packages.runs("cargo", "build", "--offline", "--quiet", cwd=self.folder, env={**self.environment, **more})


def story(crate, to, environment):
    """A program that has the crate, and by other compilers too."""
    program = Program("story", crate, to, environment).copy(f"{crate}/examples/story.rs")
    for compiler, words in (("cc", ""), ("clang", "-O1 -g"), ("tcc", "")):
        if not has(compiler):
            left_out(f"rust: the library by {compiler}", compiler)
            continue
        if program.is_built(CC=compiler, CFLAGS=words):
            packages.tells_story(f"rust, the library by {compiler}", program.made)
        else:
            tell(f"rust: a program with the crate is built, the library by {compiler}", False)


def others(crate, to, environment):
    """Made-up events, a server, and a program without Rust's standard library."""
    program = Program("made_up", crate, to, environment)
    program.copy(f"{TESTS}/rust/main.rs", *(f"{TESTS}/rust/{it}.rs" for it in ("cables", "lines", "shares", "tunnels")))
    tell("rust: the program that makes up events is built", program.is_built())
    packages.plays_made_up("rust", program.made)
    program = Program("server", crate, to, environment).copy(f"{crate}/examples/server.rs")
    tell("rust: the server serves two players", program.is_built() and packages.runs("python3", f"{TESTS}/players.py", program.made))
    program = Program("bare", crate, to, environment, '\n[profile.dev]\npanic = "abort"\n').copy(f"{TESTS}/no_std.rs")
    tell("rust: a program without the standard library routes a packet", program.is_built() and packages.runs(program.made))


def targets(crate, to, environment):
    """Whether what builds the library finds a compiler for other targets. (no Rust is needed for them)"""
    program = max(glob.glob(f"{environment['CARGO_TARGET_DIR']}/debug/build/ipxr-*/build-script-build"), key=os.path.getmtime)
    for target, compiler in TARGETS.items():
        if not has(compiler):
            left_out(f"rust: the library for {target}", compiler)
            continue
        made = f"{to}/{target}"
        os.makedirs(made)
        asked = {**environment, "HOST": "x86_64-unknown-linux-gnu", "TARGET": target, "OUT_DIR": made, "CFLAGS": "-O0"}
        asked.update({"CARGO_CFG_WINDOWS": ""} if "windows" in target else {})
        tell(f"rust: the library for {target} is compiled",
             packages.runs(program, cwd=crate, env=asked) and os.path.isfile(f"{made}/libipxr.a"))


def without_file(crate, environment):
    """What is said where the file of C is missing."""
    file = f"{crate}/libipxr/libipxr.c"
    os.rename(file, f"{file}.away")
    run = subprocess.run(["cargo", "build", "--offline"], cwd=crate, env=environment, capture_output=True, text=True, check=False)
    os.rename(f"{file}.away", file)
    tell("rust: without the file of C it isn't built, and says why", run.returncode != 0 and "libipxr.c is missing" in run.stderr)


def try_crate(crate, to):
    environment = {**os.environ, "CARGO_TARGET_DIR": f"{to}/target", "RUSTDOCFLAGS": "-D warnings", "CARGO_TERM_COLOR": "never"}
    for name in ("IPXR_LIB", "CC", "CFLAGS", "AR"):
        environment.pop(name, None)
    tell("rust: its tests pass, each example of its documentation, and structs lie as in C",
         packages.runs("cargo", "test", "--offline", "--quiet", cwd=crate, env=environment))
    words = ["cargo", "doc", "--offline", "--no-deps", "--quiet"]
    tell("rust: its documentation has no warning", packages.runs(*words, cwd=crate, env=environment))
    if has("cargo-clippy"):
        words = ["cargo", "clippy", "--offline", "--quiet", "--all-targets", "--", "-D", "warnings"]
        tell("rust: clippy finds nothing", packages.runs(*words, cwd=crate, env=environment))
    else:
        left_out("rust: clippy", "cargo-clippy")
    story(crate, to, environment)
    others(crate, to, environment)
    targets(crate, to, environment)
    without_file(crate, environment)


def test(folder):
    """Packs the crate, and tries what comes out of the archive."""
    layers()
    if not has("cargo") or not has(CC):
        left_out("rust: the crate", "cargo" if has(CC) else CC)
        return
    with packages.elsewhere() as to:
        crate = packed(folder, to)
        tell("rust: it is packed, and has all that it needs", bool(crate) and os.path.isfile(f"{crate}/libipxr/libipxr.c"))
        if crate:
            try_crate(crate, to)
        else:
            say("the crate wasn't packed")

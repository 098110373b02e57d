"""From what a release is made: the commit, what the gate said of it, the tools, and what the programs ask of a system."""
import os
import re
import shutil
import subprocess

import binaries
import layout
from libraries import kit
from systems import ARM, ARM32, GATEWAY, LIBRARY, LINUX, PORTABLE, WINDOWS

PASSED = "out/gate.passed"
LOG = "out/gate.log"
AS_BUILT = "by the toolchain, which proved it"
OF_A_TARGET = "by the toolchain, from what it proved, by its own target for this system"
OF_THE_MODULE = "from the toolchain's own module of what it proved, compiled for this system"
AS_C = "from the toolchain's own module of what it proved, compiled for WebAssembly and written as C"
OF_C = f"{AS_C}, which was compiled for this system"
OF_SOURCES = {
    PORTABLE: (AS_C, "a compiler for C99, and a system of 32 or 64 bits with files as on Unix or on Windows"),
    LIBRARY: (f"libipxr.c {AS_C}", "a compiler for C99 or C++11, and a system of 32 or 64 bits; server.c, POSIX"),
    GATEWAY: (f"libipxr.c {AS_C}; all else as in the repository", "make, a compiler for C99, and POSIX with threads"),
}
# (with it came QueryUnbiasedInterruptTime, the newest of what the gateway asks for)
OLDEST_WINDOWS = "64-bit Windows 7 or newer"


def said(*words):
    """What a command prints, without its last line end."""
    return subprocess.run(words, cwd=layout.TOP, stdout=subprocess.PIPE, check=True).stdout.decode().strip()


def version_of(tool):
    """The line with which a tool tells its version."""
    return said(tool, "--version").splitlines()[0] if shutil.which(tool) else "none here"


class Commit:
    """The commit that is packed, and what the gate said of it."""

    def __init__(self):
        self.name = said("git", "rev-parse", "HEAD")
        self.time = int(said("git", "log", "-1", "--format=%ct"))
        self.is_changed = bool(said("git", "status", "--porcelain"))
        self.author = said("git", "log", "-1", "--format=%an <%ae>")
        self.verdict = self.gate()

    def gate(self):
        """The gate's count, if it passed on this commit."""
        if self.is_changed or not os.path.isfile(f"{layout.TOP}/{PASSED}"):
            return None
        commit, count = layout.content(PASSED).decode().split("\n")[:2]
        return count if commit == self.name else None


def processors():
    """For which processors the gate built the programs: as its log tells, or where it took them over from an earlier run, as the toolchain
    does it by itself."""
    if not os.path.isfile(f"{layout.TOP}/{LOG}"):
        return "not told: the gate's log isn't here"
    told = set(re.findall(r"\bcpu=(\S+)", layout.content(LOG).decode(errors="replace")))
    if not told and shutil.which("rt"):
        told = set(re.findall(r"For x86-64: .*?`([\w-]+)`, the default", said(f"{kit()}/bin/rattle", "build", "--help")))
    return ", ".join(sorted(told)) or "not told"


def needs(system):
    """What the programs and the library ask of a system, as they say themselves."""
    files = [it for it in system.programs(layout.version()) if layout.is_built(it)]
    if system is WINDOWS:
        objdump = system.tool("objdump")
        asked = sorted({it for file in files for it in libraries(objdump, file)})
        return f"{OLDEST_WINDOWS}; of its libraries {', '.join(asked)}"
    found = {os.path.basename(it): layout.content(it) for it in files}
    alone = [name for name, text in found.items() if not binaries.is_linked(text)]
    libc = binaries.libc(found.values())
    asked = []
    if alone:
        asked.append(f"Linux {binaries.linux(found[it] for it in alone)} or newer, and nothing else, for {' and '.join(alone)}")
    if libc:
        asked.append(f"the GNU C library, {libc} or newer, for {' and '.join(it for it in found if it not in alone)}")
    return "; ".join(asked)


def libraries(objdump, file):
    """The system's libraries that a program for Windows asks for."""
    return [it for it in binaries.pe_libraries(objdump, f"{layout.TOP}/{file}") if it != "ipxr.dll"]


def page(commit, version, name, lines):
    """The text of PROVENANCE: what is the same of all, and lines of one system."""
    changed = ", and files that differ from it" if commit.is_changed else ""
    gate = f"rt ci at this commit: {commit.verdict}" if commit.verdict else "not run on this: a draft"
    told = {
        "commit": f"{commit.name}{changed}",
        "toolchain": said("rt", "version") if shutil.which("rt") else "none here: built elsewhere",
        "gate": gate,
        **lines,
    }
    return (f"ipxr {version} for {name}\n\n" + "".join(f"{what:12}{text}\n" for what, text in told.items())).encode()


def of_system(commit, version, system):
    lines = {
        "made": {LINUX: AS_BUILT, ARM: OF_A_TARGET, ARM32: OF_C}.get(system, OF_THE_MODULE),
        "compiler": f"{version_of(system.compiler)} (what is written in C)",
        "processor": system.processor or processors(),
        "needs": needs(system),
    }
    return page(commit, version, system.name, lines)


def of_sources(commit, version, sources):
    made, needs_of = OF_SOURCES[sources]
    return page(commit, version, sources.name, {"made": made, "needs": needs_of})

"""What tools/platforms tries of what is built for other systems: the library by its examples, and the program by all that is played with
this machine's own; each by what runs such programs. All of it works at the top of the repository."""
import os
import shlex

import c_examples
import wine
from c_library import CC, FLAGS, put
from platform_builds import GCC, STACK, aarch64_library, aarch64_program, windows_library, windows_program
from systems import ARM, WINDOWS
from telling import ends, has, left_out, prints, quietly, succeeds, tell

PLAYED = "build/played"
NOTHING = "0 passed, 0 failed"
SECONDS = 60  # that a program may take
# A processor with nothing that came after the first of its kind but SSE3.
OLD = "Opteron_G1"
STORY = "examples/embed/two_networks.out"
ON_WASM = {"32": ["node"], "64": ["node", "--experimental-wasm-memory64"]}
# What is refused for a program that runs, by the names that the host of each system gives the calls.
HOST = "dev/refuse_linked.c"


def played(name, compiler, folder, *runner):
    """The examples in C, by what runs such programs."""
    c_examples.examples(name, compiler, folder, runner)
    c_examples.counted_examples(name, compiler, folder, runner=runner)
    made = f"{folder}/every_standard.exe"
    is_built = succeeds(*compiler, "-std=c89", *FLAGS, "tests/embed/every_standard.c", f"{folder}/libipxr.a", "-o", made)
    tell(f"{name}: an empty handle, a text and a router of one port", is_built and ends(*runner, made))


def counted(name, *words, **environment):
    """A tool that counts, judged by its status and told by its last line; what it left out and what failed is shown."""
    os.makedirs("build", exist_ok=True)
    with open(PLAYED, "wb") as it:
        is_well = succeeds(*words, stdout=it, env={**os.environ, **environment})
    with open(PLAYED, encoding="utf-8", errors="replace") as it:
        last = it.read().rstrip("\n").rpartition("\n")[2]
    if not last.startswith(NOTHING):
        tell(f"{name}: {last}", is_well)
    succeeds("grep", "-E", "-A1", "^(left out|FAILED)", PLAYED)


def plays_of(name, folder, program, *runner):
    """The examples, the transcripts and the altered inputs."""
    words, play = [*runner, os.path.abspath(program)], os.path.abspath(f"{folder}/play")
    os.makedirs(folder, exist_ok=True)
    put(play, f'#!/bin/bash\nexec {shlex.join(words)} "$@"\n')
    os.chmod(play, 0o755)
    for what in ("examples", "transcripts"):
        counted(f"{name}: dev/{what}", f"dev/{what}", IPXR=play)
    counted(f"{name}: dev/altered", "dev/altered", *words)


def whole(name, folder, program, *runner):
    """All that is played with the program of this machine."""
    plays_of(name, folder, program, *runner)
    counted(f"{name}: words and names of files", "python3", "tests/platforms/called.py", program, *runner)


# ---- What is refused ----


def builds_windows_refused():
    """The program linked with what refuses, which stands in front of what it asks of the system."""
    folder = WINDOWS.folder
    renamed = ["-Dhost_read=real_read", "-Dhost_write=real_write"]
    return succeeds(GCC[WINDOWS], "-std=c99", *FLAGS, *renamed, "-c", "host/windows.c", "-o", f"{folder}/real.o") and \
        succeeds(GCC[WINDOWS], "-std=c99", *FLAGS, "-municode", f"{folder}/ipxr.o", f"{folder}/real.o", HOST, STACK, "-o",
            f"{folder}/refused.exe")


def builds_aarch64_refused():
    folder = ARM.folder
    renamed = ["--redefine-sym", "read=host_read", "--redefine-sym", "write=host_write"]
    own = ["-Dreal_read=read", "-Dreal_write=write"]
    return succeeds(ARM.tool("objcopy"), *renamed, f"{folder}/ipxr.o", f"{folder}/asking.o") and \
        succeeds(GCC[ARM], "-std=c99", *FLAGS, "-static", *own, f"{folder}/asking.o", "host/linux.c", HOST, "-o", f"{folder}/refused.exe")


def refused(name, folder, is_built, *runner):
    """Whether that program ends as it is to end, whatever it is refused."""
    tell(f"{name}: the program that is refused memory, reads and writes is built", is_built)
    counted(f"{name}: dev/refusals", "dev/refusals", f"{folder}/refused.exe", *runner)


# ---- This machine ----


def portable_host():
    """What stands around the portable C."""
    if not has(CC):
        left_out("what the portable C asks of the system", CC)
        return
    made = "build/portable_host"
    tell("portable C: the test of what it asks of the system is built", succeeds(CC, "-O2", "tests/platforms/portable_host.c", "-o", made))
    counted("portable C: arguments, files and calls that are interrupted", "timeout", str(SECONDS), made)


def old_processor():
    if not has(CC) or not has("qemu-x86_64"):
        left_out("old x86-64 processors", "cc, or no qemu-x86_64")
        return
    folder = "build/old"
    os.makedirs(folder, exist_ok=True)
    if not os.path.exists("build/libipx_c.a"):
        succeeds("tools/embed")
    tell("old x86-64: the archive is there", succeeds("cp", "build/libipxr.a", "build/libipx_c.a", f"{folder}/"))
    played("old x86-64", [CC], folder, "qemu-x86_64", "-cpu", OLD)


# ---- Windows ----


def builds_by_microsofts(folder):
    """A program by the ABI and the linker of Microsoft's compiler, as clang and lld have them."""
    put(f"{folder}/kernel32.def", "LIBRARY kernel32.dll\nEXPORTS\nExitProcess\n")
    kernel = f"{folder}/kernel32.lib"
    return succeeds("llvm-dlltool", "-m", "i386:x86-64", "-d", f"{folder}/kernel32.def", "-l", kernel) and \
        succeeds("clang", "--target=x86_64-pc-windows-msvc", "-std=c99", *FLAGS, "-ffreestanding", "-c",
            "tests/platforms/by_microsofts_abi.c", "-o", f"{folder}/program.obj") and \
        succeeds("lld-link", "/entry:begin", "/subsystem:console", "/nodefaultlib", f"/out:{folder}/program.exe", f"{folder}/program.obj",
            "build/windows/ipxr.lib", kernel)


def microsofts():
    if not has("lld-link") or not has("llvm-dlltool"):
        left_out("Windows by Microsoft's ABI", "lld-link, or no llvm-dlltool")
        return
    # (in a folder of its own: mingw's linker would take the library of Windows' kernel for its own)
    folder = "build/microsofts"
    os.makedirs(folder, exist_ok=True)
    succeeds("cp", "build/windows/ipxr.dll", f"{folder}/")
    is_built = builds_by_microsofts(folder)
    tell("Windows: a program by Microsoft's ABI and lld-link runs with the DLL", is_built and ends("wine", f"{folder}/program.exe"))


def python():
    if quietly("wine", "python", "--version"):
        tell("Windows: two_networks by Python prints what is kept",
            prints(STORY, "wine", "python", "examples/embed/python/two_networks.py", "build/windows/ipxr.dll"))
    else:
        left_out("the DLL from Python for Windows", "Python for Windows that runs in Wine")


def by_clang(folder, example):
    triple = WINDOWS.tools.rstrip("-")
    compiled, made = f"{folder}/by_clang.o", f"{folder}/by_clang.exe"
    with open("build/log", "wb") as log:
        is_compiled = succeeds("clang", f"--target={triple}", "-std=c99", *FLAGS, "-c", example, "-o", compiled, stderr=log)
    if not is_compiled:
        left_out("Windows by clang", f"clang that compiles for {triple}")
        return False
    # (mingw's own gcc knows where the parts for linking lie)
    is_linked = succeeds(GCC[WINDOWS], compiled, f"{folder}/libipxr.a", "-o", made)
    tell("Windows: two_networks by clang prints what is kept", is_linked and prints(STORY, "wine", made))
    return True


def dll():
    """The DLL, by compilers that know nothing of how it was made."""
    folder, example = WINDOWS.folder, "examples/embed/c/two_networks.c"
    made = f"{folder}/by_dll.exe"
    is_built = succeeds(GCC[WINDOWS], "-std=c99", *FLAGS, example, f"{folder}/libipxr.dll.a", "-o", made)
    tell("Windows: two_networks by the DLL prints what is kept", is_built and prints(STORY, "wine", made))
    python()
    if by_clang(folder, example):
        microsofts()


def library_by_wine(is_begun):
    """What the library is tried with where Wine starts. Returns whether it does."""
    if not is_begun:
        left_out("the examples for Windows", wine.lacks())
        return False
    played("Windows", [GCC[WINDOWS]], WINDOWS.folder, "wine")
    dll()
    return True


def windows_program_by_wine(runs):
    tell("Windows: the program is built", windows_program())
    if runs:
        whole("Windows", WINDOWS.folder, WINDOWS.program, "wine")
        refused("Windows", WINDOWS.folder, builds_windows_refused(), "wine")
        counted("Windows: keys at a console", "python3", "tests/platforms/console.py", GCC[WINDOWS], WINDOWS.program)
    counted("Windows: the gateway", "tools/gateway", "test-windows")


def windows(has_program=True):
    """The library for Windows, and the program unless it is left out."""
    compiler = GCC[WINDOWS]
    if not has(compiler):
        left_out("Windows", compiler)
        return
    tell("Windows: the library is built", windows_library())
    if not has("wine"):
        left_out("the examples for Windows", "wine")
        if has_program:
            windows_program_by_wine(False)
        return
    with wine.begun() as is_begun:
        runs = library_by_wine(is_begun)
        if has_program:
            windows_program_by_wine(runs)


# ---- Other systems ----


def aarch64():
    compiler, runner = GCC[ARM], "qemu-aarch64"
    if not has(compiler):
        left_out("aarch64", compiler)
        return
    tell("aarch64: the library and the program are built", aarch64_library() and aarch64_program())
    if not has(runner):
        left_out("the examples and the program for aarch64", runner)
        return
    static = [compiler, "-static"]
    played("aarch64", static, ARM.folder, runner)
    c_examples.thread("aarch64", static, ARM.folder, [runner])
    whole("aarch64", ARM.folder, ARM.program, runner)
    refused("aarch64", ARM.folder, builds_aarch64_refused(), runner)
    counted("aarch64: the gateway", "tools/gateway", "test-aarch64")


def wasm():
    if not has("node"):
        left_out("WebAssembly", "node")
        return
    with open("build/log", "wb") as log:
        tell("WebAssembly: it is built", succeeds("tools/wasm", stdout=log))
    for bits, words in ON_WASM.items():
        program = f"build/wasm/ipxr{'' if bits == '32' else bits}.wasm"
        whole(f"WebAssembly of {bits} bits", "build/wasm", program, *words, os.path.abspath("host/wasm/ipxr.mjs"))

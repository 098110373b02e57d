"""WebAssembly of the toolchain's own LLVM modules (tools/lib/modules.py)."""
import os
import re
import subprocess

import libraries
import modules
import targets
import wasm32

TOP = libraries.TOP
FOLDER, HOST = f"{TOP}/build/wasm", f"{TOP}/host/wasm"
# The router's own calls: a page needs no others, and loads less.
OF_ROUTER = ("ipxr.h",)
TARGET = targets.TARGETS["wasm64"]
FLAGS = [f"--target={TARGET.triple}", *TARGET.words, "-O3", "-ffunction-sections", "-fdata-sections"]
OF_HOST = ["-std=c99", "-Wall", "-Wextra", "-ffreestanding", "-fno-builtin"]
# The library's calls take no more than IPXR_STACK, which is 384 KB with tables as delivered.
STACKS = {"ipxr": 8 << 20, "ipx_c": 1 << 20}
LINKER = ["-flavor", "wasm", "-mwasm64", "--no-entry", "--stack-first", "--gc-sections", "--compress-relocations"]
# What a page asks for beside the headers' calls: room in the memory for what they take and give.
ROOM = ("rattle_alloc", "rattle_dealloc")


def tool(name, *words):
    subprocess.run([f"{libraries.kit()}/toolchain/bin/{name}", *words], check=True)


def compiled(name):
    """The object of a kept module."""
    made = f"{FOLDER}/{name}.o"
    targets.compiled(modules.kept(name), TARGET, made)
    return made


def host():
    """The objects of what stands around a module."""
    made = []
    for file in sorted(os.listdir(HOST)):
        if file.endswith(".c"):
            made.append(f"{FOLDER}/{file.removesuffix('.c')}.o")
            tool("clang", *FLAGS, *OF_HOST, "-c", f"{HOST}/{file}", "-o", made[-1])
    return made


def exported(name, headers=OF_ROUTER):
    """What is called from outside: the program's beginning, or the calls of some headers."""
    if name == "ipxr":
        return ["main"]
    found = [*ROOM]
    for header in headers:
        with open(f"{TOP}/include/{header}", encoding="utf-8") as it:
            found += re.findall(r"(?m)^IPXR_CALL .*?\b(ipxr_\w+)\(", it.read())
    return sorted(found)


def module(name, keeps_names=False, headers=OF_ROUTER):
    """The module with addresses of 64 bits; with the functions' names for whoever looks where time goes. The library has the calls of some
    headers."""
    os.makedirs(FOLDER, exist_ok=True)
    made, strips = f"{FOLDER}/linked.wasm", "--strip-debug" if keeps_names else "--strip-all"
    exports = [f"--export={it}" for it in exported(name, headers)]
    tool("ld.lld", *LINKER, "-z", f"stack-size={STACKS[name]}", strips, *exports, f"--allow-undefined-file={HOST}/imports", compiled(name),
        *host(), "-o", made)
    with open(made, "rb") as it:
        return it.read()


def build():
    """Puts each module into build/wasm: with 64 bits (but for its tables, since few engines know wide ones) and with 32."""
    made = {}
    for name in ("ipxr", "ipx_c"):
        wide = module(name)
        made[f"{name}64"], made[name] = wasm32.lowered(wide, cuts_memory=False, is_checked=True), wasm32.lowered(wide)
    for name, content in made.items():
        with open(f"{FOLDER}/{name}.wasm", "wb") as it:
            it.write(content)
    return [f"build/wasm/{name}.wasm: {len(content)} bytes" for name, content in made.items()]

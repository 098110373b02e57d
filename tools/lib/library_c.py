"""The library as one file of portable C: build/library, from the compiler's module (tools/lib/modules.py).

The module is compiled for WebAssembly with addresses of 64 bits and without vectors, and written as C (tools/lib/wasm_c*.py). It is no
machine inside another: an address of the module is one of the process, a frame of its stack is an array of a function of C, and it asks
for memory as the library does elsewhere. Its data, which is constant, is an array; it is linked at two places, and what differs in the two
is what is an address (tools/lib/wasm_read.py). Around it stand host/library, and the calls of the headers (tools/lib/library_header.py).
"""
import os
import shutil
import subprocess
import sys

import library_header
import library_pages
import modules
import targets
import wasm_c_file
from c_library import text_of
from libraries import TOP, kit
from systems import HEADERS

CRATE = "ipx_c"
FOLDER = f"{TOP}/build/library"
SOURCES = f"{TOP}/examples/embed/library"
MADE = f"{FOLDER}/libipxr.c"
# Where the module's objects stay, for the tests.
PARTS = f"{TOP}/build/modules/library"
TARGET = targets.TARGETS["wasm64-plain"]
# Where the data is put, once and once more: no number of the module is likely to be one of these, and if one is, nothing is made of it.
PLACES = (0x5A5A0000, 0x5A6B0000)
LINKER = ["-flavor", "wasm", "-mwasm64", "--no-entry", "--gc-sections", "--compress-relocations", "--strip-all", "-z", "stack-size=8388608"]
NUMBERS = f"{TOP}/host/wasm/numbers.c"
OF_HOST = [f"--target={TARGET.triple}", *TARGET.words, "-O3", "-ffunction-sections", "-std=c99", "-ffreestanding", "-fno-builtin"]


def tool(name, *words):
    subprocess.run([f"{kit()}/toolchain/bin/{name}", *words], check=True)


def see_layouts(headers):
    """Sees that the compiler for WebAssembly lays out the structs of the headers as is taken for granted here."""
    words = [f"--target={TARGET.triple}", "-std=c11", "-ffreestanding", f"-I{TOP}/host/library/kit", f"-I{headers}", "-fsyntax-only"]
    text = library_header.layouts(library_header.Headers(headers))
    subprocess.run([f"{kit()}/toolchain/bin/clang", *words, "-x", "c", "-"], input=text, text=True, check=True)


def linked(objects, exports, place, made, asked=wasm_c_file.ASKED):
    """The bytes of the module with its data at a place."""
    folder = os.path.dirname(made)
    with open(f"{folder}/asked", "w", encoding="ascii") as it:
        it.write("".join(f"{name}\n" for name in asked))
    with open(f"{folder}/exported", "w", encoding="ascii") as it:
        it.write("".join(f"--export={name}\n" for name in exports))
    words = [*LINKER, f"--global-base={place}", f"--allow-undefined-file={folder}/asked", f"@{folder}/exported"]
    tool("ld.lld", *words, *objects, "-o", made)
    with open(made, "rb") as it:
        return it.read()


def head():
    """What stands before all, with the headers."""
    text = text_of(f"{TOP}/host/library/head.h").replace("@VERSION@", text_of(f"{TOP}/VERSION").strip())
    return text.replace("@HEADERS@", "\n".join(f'#include "{it}"' for it in HEADERS))


def whole(headers, linkings):
    """The file, of the module as it was linked at each place."""
    module, code = wasm_c_file.translated(linkings, PLACES)
    calls = library_header.calls(headers, module)
    begin, end = ("#ifdef __cplusplus\n" + it + "\n#endif\n" for it in ('extern "C" {', "}"))
    return "\n".join([head(), wasm_c_file.operations(code + calls), "", code, begin, calls, end])


def objects_of(crate, folder):
    """The objects of a crate's module, which are in a folder."""
    return [f"{folder}/{crate}.o", f"{folder}/numbers.o"]


def compiled(crate, folder):
    """Puts the objects of a crate's module into a folder."""
    module, numbers = objects_of(crate, folder)
    targets.compiled(modules.kept(crate), TARGET, module)
    tool("clang", *OF_HOST, "-c", NUMBERS, "-o", numbers)


def written(folder):
    """The file, of the objects in a folder and the headers that are built with the library."""
    see_layouts(f"{TOP}/build")
    headers = library_header.Headers(f"{TOP}/build")
    objects, exports = objects_of(CRATE, folder), [it.name for it in headers.calls]
    return whole(headers, [linked(objects, exports, place, f"{folder}/linked.wasm") for place in PLACES])


def build():
    """Puts the file and what belongs to it into a folder."""
    for folder in (PARTS, FOLDER):
        os.makedirs(folder, exist_ok=True)
    compiled(CRATE, PARTS)
    text = written(PARTS)
    with open(MADE, "w", encoding="ascii") as it:
        it.write(text)
    for file in HEADERS:
        shutil.copy(f"{TOP}/build/{file}", FOLDER)
    for file in os.listdir(SOURCES):
        shutil.copy(f"{SOURCES}/{file}", FOLDER)
    library_pages.put(FOLDER)
    return f"build/library/libipxr.c: {len(text)} bytes"


if __name__ == "__main__":
    print(written(sys.argv[1]), end="")

"""How the library for C is built, at the top of the repository: the archives, the shared library, and the calls that its headers name."""
import os
import re

from systems import HEADERS
from telling import quietly, succeeds

CC = "cc"
# (the header that a library was built with stands before the sources' own)
FLAGS = ["-O2", "-Wall", "-Wextra", "-pedantic", "-Ibuild", "-Iinclude"]
CALL = re.compile(r"(?m)^IPXR_CALL [a-z0-9_]+ (ipxr_[a-z_]+)\(")
SIZES = ("PORTS", "ROUTES", "SERVICES", "CLIENTS", "LINKS", "STATIONS", "LIFETIME")  # words of the environment for a library of other sizes


def text_of(name):
    with open(name, encoding="utf-8") as it:
        return it.read()


def put(name, text):
    with open(name, "w", encoding="utf-8") as it:
        it.write(text)


def version():
    return text_of("VERSION").strip()


def as_delivered():
    """Examples and tests are of the sizes as delivered: those that the environment asks for are forgotten."""
    for name in SIZES:
        os.environ.pop(name, None)


def calls_of_header():
    return sorted(call for header in HEADERS for call in CALL.findall(text_of(f"include/{header}")))


def proves(folder, *flags, **how):
    """Whether the library without an allocator comes about in a folder, with its headers; what was said is shown where it doesn't."""
    os.makedirs(folder, exist_ok=True)
    if quietly("tools/sized", folder, *flags, **how):
        return True
    print(text_of("build/log"), end="", flush=True)
    return False


def joins_heap(folder, archiver):
    """The library with the allocator that was compiled there."""
    archive = f"{folder}/libipxr.a"
    with open("build/log", "wb") as log:
        return succeeds("cp", f"{folder}/libipx_c.a", archive) and succeeds(archiver, "rs", archive, f"{folder}/heap.o", stderr=log)


def gets_own_heap(folder, compiler, archiver):
    """Beside the library without an allocator, one with an allocator."""
    is_compiled = succeeds(compiler, "-std=c99", *FLAGS, "-fPIC", "-c", "include/heap.c", "-o", f"{folder}/heap.o")
    return is_compiled and joins_heap(folder, archiver)


def links_shared(folder, compiler):
    """The shared library, whose name for programs (its soname) has the first number of the release; it shows the calls of the headers
    alone."""
    release = version()
    name = f"libipxr.so.{release.partition('.')[0]}"
    to_linker = (f"-soname,{name}", "--version-script=include/ipxr.map", "--no-undefined", "-z,relro,-z,now", "--whole-archive")
    return succeeds(compiler, "-shared", *(f"-Wl,{it}" for it in to_linker), f"{folder}/libipxr.a", "-Wl,--no-whole-archive",
        "-o", f"{folder}/libipxr.so.{release}")

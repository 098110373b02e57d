"""What there is for other systems than Linux on x86-64: the library for C and the program for 64-bit Linux on ARM and for Windows, as
tools/lib/targets.py compiles them, and both of the portable C for 32-bit Linux on ARM. All of it works at the top of the repository."""
import os

from c_library import FLAGS, calls_of_header, gets_own_heap, links_shared, proves, put
from systems import ARM, ARM32, HEADERS, IMPORTS, LIBRARY, PORTABLE, PROGRAM, WINDOWS
from telling import say, succeeds

GCC = {system: system.compiler for system in (ARM, ARM32, WINDOWS)}
# The same sources give the same bytes.
SAME = "-Wl,--no-insert-timestamp"
# As much stack as Linux gives a program.
STACK = "-Wl,--stack,8388608"


def targets(crate, system, made):
    """Whether a crate is compiled for a system."""
    return succeeds("tools/lib/targets.py", crate, system.target, made)


def aarch64_library():
    folder = ARM.folder
    say("compiling ipx_c for aarch64")
    return proves(folder, "--target", "aarch64-unknown-linux-gnu") and gets_own_heap(folder, GCC[ARM], ARM.tool("ar")) and \
        links_shared(folder, GCC[ARM])


def aarch64_program():
    made = f"{ARM.folder}/ipxr.o"
    os.makedirs(ARM.folder, exist_ok=True)
    say("compiling ipxr for aarch64")
    return targets("ipxr", ARM, made) and succeeds(GCC[ARM], "-std=c99", *FLAGS, "-static", made, "host/linux.c", "include/heap.c", "-o",
        ARM.program)


def windows_shared():
    """The DLL shows the calls of the headers, and nothing else; a program finds them by the library beside it, whichever compiler it is
    by."""
    folder = WINDOWS.folder
    of_mingw, of_microsoft = (f"{folder}/{it}" for it in IMPORTS)
    put(f"{folder}/ipxr.def", "".join(f"{it}\n" for it in ["LIBRARY ipxr.dll", "EXPORTS", *calls_of_header()]))
    is_linked = succeeds(GCC[WINDOWS], "-shared", "-s", f"{folder}/ipx_c.o", f"{folder}/heap.o", f"{folder}/ipxr.def", SAME,
        f"-Wl,--out-implib,{of_mingw}", "-o", f"{folder}/ipxr.dll")
    return is_linked and succeeds("cp", of_mingw, of_microsoft)


def windows_archive():
    """The library without an allocator, of the sizes that build/ has, and its headers."""
    folder = WINDOWS.folder
    archive, compiled = f"{folder}/libipx_c.a", f"{folder}/ipx_c.o"
    if os.path.exists(archive):
        os.remove(archive)
    return targets("ipx_c", WINDOWS, compiled) and succeeds(WINDOWS.tool("ar"), "rcsD", archive, compiled) and \
        succeeds("cp", *(f"build/{it}" for it in HEADERS), f"{folder}/")


def windows_library():
    os.makedirs(WINDOWS.folder, exist_ok=True)
    is_there = os.path.exists("build/libipx_c.a") or succeeds("tools/embed")
    return is_there and windows_archive() and gets_own_heap(WINDOWS.folder, GCC[WINDOWS], WINDOWS.tool("ar")) and windows_shared()


def windows_program():
    made = f"{WINDOWS.folder}/ipxr.o"
    os.makedirs(WINDOWS.folder, exist_ok=True)
    return targets("ipxr", WINDOWS, made) and succeeds(GCC[WINDOWS], "-std=c99", *FLAGS, "-municode", "-s", made, "host/windows.c",
        "include/heap.c", SAME, STACK, "-o", WINDOWS.program)


def has_written(sources, tool):
    """Whether C is there that was written since the program was built, or is written now."""
    is_there = os.path.isfile(sources.file) and os.path.getmtime(sources.file) >= os.path.getmtime(PROGRAM)
    return is_there or succeeds(tool)


def arm_library():
    """Of the library only what the gateway is compiled with."""
    return has_written(LIBRARY, "tools/library")


def arm_program():
    os.makedirs(ARM32.folder, exist_ok=True)
    say("compiling ipxr for arm")
    return has_written(PORTABLE, "tools/portable") and succeeds(GCC[ARM32], "-std=c99", "-O2", "-static", PORTABLE.file, "-o", ARM32.program)


LIBRARIES = {ARM: aarch64_library, ARM32: arm_library, WINDOWS: windows_library}
PROGRAMS = {ARM: aarch64_program, ARM32: arm_program, WINDOWS: windows_program}


def builds_all(system):
    """Whether all that there is for a system is built: the library, the program and the gateway."""
    return LIBRARIES[system]() and PROGRAMS[system]() and succeeds("tools/gateway", system.target)

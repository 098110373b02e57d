"""The program as one file of portable C: build/portable/ipxr.c, from the compiler's module (tools/lib/modules.py).

It is made as the library is (tools/lib/library_c.py): an address of the module is one of the process, and a frame of its stack is an array
of a function of C. Around what is translated stand host/library/operations.h, and host/portable with what the program asks of the system.
"""
import os

import library_c
import wasm_c_file
from c_library import text_of
from libraries import TOP
from takes import begins

CRATE = "ipxr"
MADE = "build/portable/ipxr.c"
# Where the module's objects stay.
PARTS = f"{TOP}/build/modules/portable"
HOST = f"{TOP}/host/portable"
BEGIN = "main"
# What the program asks beside memory, as wasm_c_file.ASKED has it.
ASKED = {
    **wasm_c_file.ASKED,
    "open": "iwi>w", "close": "w>w", "read": "wii>i", "write": "wii>i",
    "rattle_arg": "iii>i", "rattle_errno": ">w", "rattle_set_errno": "w>", "__sysv_signal": "wi>i",
}


def whole(linkings):
    """The file, of the module as it was linked at each place."""
    _, code = wasm_c_file.translated(linkings, library_c.PLACES, ASKED, begins=True)
    head = text_of(f"{HOST}/head.h").replace("@VERSION@", text_of(f"{TOP}/VERSION").strip())
    system = text_of(f"{HOST}/system.h")
    return "\n".join([head, wasm_c_file.operations(code + system), "", system, code])


def compiled(folder):
    """Puts the objects of the module into a folder."""
    library_c.compiled(CRATE, folder)


def written(folder):
    """The file, of the objects in a folder."""
    objects = library_c.objects_of(CRATE, folder)
    return whole([library_c.linked(objects, [BEGIN], place, f"{folder}/linked.wasm", ASKED) for place in library_c.PLACES])


def build():
    begins("portable", "writing the program as one file of C, once it is proved")
    os.makedirs(PARTS, exist_ok=True)
    os.makedirs(os.path.dirname(f"{TOP}/{MADE}"), exist_ok=True)
    compiled(PARTS)
    text = written(PARTS)
    with open(f"{TOP}/{MADE}", "w", encoding="ascii") as it:
        it.write(text)
    return f"{MADE}: {len(text)} bytes"

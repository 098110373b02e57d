"""The archives of C for any other system: the program with its manual pages and stories, the library with a server and the pages that its
headers name, and the gateway's sources. Each is a folder in which a compiler, or make, is all that is needed."""
import os

import contents
import layout
import library_pages
from systems import GATEWAY, HEADERS, LIBRARY, PORTABLE

STORIES = ["examples", ":!examples/embed"]
# What lies beside the library.
BESIDE = "examples/embed/library"
MANUAL = "share/man/"

# (for terminals of 80 columns)
README = """ipxr {version}, as one file of C

    cc -O2 ipxr.c -o ipxr
    ./ipxr decode examples/nearest-server.pcap

The first line takes a minute or two, with tcc a second. The second writes the
same lines as examples/nearest-server.out has. Any compiler for C99 will do, on a
system of 32 or 64 bits, whichever byte of a number comes first there.

The manual pages say what it does and which words it takes:
man -M man ipxr, man -M man ipxr-script. The library for C and the gateway have
archives of their own.

PROVENANCE says from what ipxr.c was made.
"""


def program(version):
    yield layout.Piece("ipxr", "ipxr.c", layout.content(PORTABLE.file))
    yield layout.Piece("ipxr", "README", README.format(version=version).encode())
    yield from contents.files(STORIES)
    for it in layout.manual():
        if it.package == "ipxr":
            yield it._replace(place=it.place.replace(MANUAL, "man/"))


def library(_):
    folder = os.path.dirname(LIBRARY.file)
    for name in [os.path.basename(LIBRARY.file), *HEADERS, *sorted(os.listdir(f"{layout.TOP}/{BESIDE}"))]:
        yield layout.Piece("ipxr", name, layout.content(f"{folder}/{name}"))
    yield from (it._replace(package="ipxr") for it in library_pages.pages())


def gateway(_):
    """All that lies in the folder, which is made anew each time."""
    folder = f"{layout.TOP}/{os.path.dirname(GATEWAY.file)}"
    for at, folders, names in os.walk(folder):
        folders.sort()
        for file in (f"{at}/{it}" for it in sorted(names)):
            mode = 0o755 if os.access(file, os.X_OK) else 0o644
            yield layout.Piece("ipxr", os.path.relpath(file, folder), layout.content(os.path.relpath(file, layout.TOP)), mode)


PIECES = {PORTABLE: program, LIBRARY: library, GATEWAY: gateway}


def pieces(sources, version):
    """All of an archive but PROVENANCE."""
    return [*PIECES[sources](version)]


def lacks(sources):
    """What is still to be done before sources can be packed that are built."""
    if sources is LIBRARY:
        headers = [f"{os.path.dirname(LIBRARY.file)}/{it}" for it in HEADERS]
        return [f"{it} is not the header of the sources, by its sizes or in full: make embed, then {LIBRARY.how}" for it in headers
                if layout.content(it) != layout.content(f"include/{os.path.basename(it)}")]
    made = [it for it in gateway("") if b"\0" in it.content] if sources is GATEWAY else []
    return [f"{os.path.dirname(sources.file)}/{it.place} is no source: {sources.how}" for it in made]

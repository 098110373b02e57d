"""The pages of the library as one file of C: those to which its headers and docs/EMBED.md send a reader, and the programs in C that these
show. They lie as in the repository, below the library's folder, at whose top the headers and the server lie. A link to what isn't there is
only its text."""
import glob
import os
import re

import layout
from systems import HEADERS

PAGES = ("EMBED", "LIBIPXR", "PACKETS", "ROUTER", "TUNNEL", "KEYED", "SEGMENT", "RELOAD", "FAIR", "LIMITS", "CABLE", "FATES", "EDGE",
         "PEERS", "CONFIGURATION", "GATEWAY-REFERENCE", "TERMS")
EXAMPLES = "examples/embed/c"
NAMED = re.compile(r"docs/([\w-]+)\.md")
# What lies at the top, by its place in the repository.
MOVED = {**{f"include/{it}": it for it in HEADERS}, "examples/embed/library/server.c": "server.c"}


def places():
    """What of the repository goes along, by its place there."""
    programs = sorted(it for it in glob.glob(f"{layout.TOP}/{EXAMPLES}/*") if it.endswith((".c", ".h", ".out")))
    return [f"docs/{it}.md" for it in PAGES] + [os.path.relpath(it, layout.TOP) for it in programs]


def pages():
    """The files, with their links as they are in that folder."""
    pieces = [layout.Piece("", it, layout.content(it)) for it in places()] + [layout.Piece("", it) for it in MOVED.values()]
    mended = layout.tool("release/contents.py").linked(pieces, MOVED)
    return [it for it in mended if "/" in it.place]


def put(folder):
    """Puts them into a folder."""
    for it in pages():
        layout.put(it, folder)


def missing():
    """The pages that a header names and that don't go along."""
    texts = [layout.content(f"include/{it}").decode() for it in HEADERS]
    return sorted({name for text in texts for name in NAMED.findall(text)} - {*PAGES})

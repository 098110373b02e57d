"""What of the repository goes along in a release: its pages with what they show, sources, and tools that need nothing but the program."""
import posixpath
import re
import subprocess

import layout

DOCUMENTS = ["README.md", "CHANGELOG.md", "VERSION", "docs/*.md", ":!docs/man", "docs/pictures", "examples", "packages"]
SOURCES = ["gateway", "include/heap.c"]
COMPLETIONS = ["completions"]
# What stands elsewhere than in the repository: include/ has headers alone, since it is copied to where the system looks for them.
MOVED = {"include/heap.c": "examples/embed/heap.c"}
# What is WebAssembly, with where it lies: the library for C, beside what loads it; and the page. Each with the command that builds it.
WEB = {"build/web/libipxr.wasm": "make web", "build/ipxr.html": "make page"}
PLACES = {"build/web/libipxr.wasm": "examples/embed/web/libipxr.wasm", "build/ipxr.html": "ipxr.html"}
# With what of the page tools/picture draws, and reads captures.
DRAWING = "drawing hops internet_map ladder layout moments reasons records script side_by_side timeline traces".split()
READING = "bytes capture conversations filter pcap pcapng unanswered wrong_file".split()
MODULES = [f"page/{it}.mjs" for it in [*DRAWING, *READING, "file_kinds", "wrong_line"]]
# What writes packets for scripts, beside the module over the library, which lies among the examples.
WRITING = ["packet", "packet.mjs", "packet_data.mjs", "packet_scripts.mjs", "packet_words.mjs"]
OTHERS = "explain explain.mjs files.mjs json output_lines.py pcap.py picture picture.mjs program.mjs to-pcap".split()
TOOLS = [f"tools/{it}" for it in [*WRITING, *OTHERS]] + MODULES
# What tries other routers, on Linux alone: with its scenarios.
SUITE = ["tools/conformance", *(f"tools/lib/{it}.py" for it in ("scenarios", "ipx_packets", "conformance_links", "conformance_play")), "tests/conformance"]
LINK = re.compile(r"(?<!!)\[([^]]*)\]\(([^)#\s]+)(#[^)]*)?\)")


def tracked(patterns):
    """The files of the repository that fit, with their modes."""
    listed = subprocess.run(["git", "ls-files", "-s", "--", *patterns], cwd=layout.TOP, stdout=subprocess.PIPE, check=True).stdout
    for line in listed.decode().splitlines():
        mode, _, _, name = line.split(None, 3)
        yield name, 0o755 if mode == "100755" else 0o644


def files(patterns):
    """The files of the repository that fit, where a release has them."""
    return [layout.Piece("ipxr", MOVED.get(name, name), layout.content(name), mode) for name, mode in tracked(patterns)]


def documents():
    """The pages with what they show, and those of the crates."""
    api = [layout.Piece("ipxr", f"docs/api/{place}", text.encode()) for place, text in layout.tool("tools/api").pages()]
    web = [layout.Piece("ipxr", PLACES[it], layout.content(it)) for it in filter(layout.is_built, WEB)]
    return files(DOCUMENTS) + api + web


def parents(place):
    """The folders in which a file lies."""
    while place:
        place = posixpath.dirname(place)
        yield place or "."


def linked(pieces, moved=MOVED):
    """The pieces, where a link of a document to what isn't among them is only its text. `moved` has what lies elsewhere than in the
    repository."""
    there = {it.place for it in pieces}
    folders = {folder for it in there for folder in parents(it)}
    for it in pieces:
        if not it.place.endswith(".md"):
            yield it
            continue
        folder = posixpath.dirname(it.place)

        def mended(found, folder=folder):
            target = posixpath.normpath(posixpath.join(folder, found[2]))
            if target in moved and moved[target] in there:
                return f"[{found[1]}]({posixpath.relpath(moved[target], folder)})"
            is_there = "://" in found[2] or target in there or target in folders
            return found[0] if is_there else found[1]

        yield it._replace(content=LINK.sub(mended, it.content.decode()).encode())

"""What is installed: programs with their release in them, the library, and the gateway, below a DESTDIR that is moved elsewhere."""
import os
import re
import shutil
import tempfile

import binaries
import layout
from systems import ARM, ARM32, HEADERS, LINUX
from trying import TOP, complaint, differs, has, left_out, plays, run, tell, text_of


def loaded(binary):
    """What the system loads of an ELF file."""
    return [(place, room, text) for kind, place, room, text in binaries.segments(binary) if kind == binaries.LOADED]


def try_stamps():
    """Programs for Linux have their release in a section; those for Windows are packed as they were linked."""
    for system in (LINUX, ARM, ARM32):
        for name in system.programs(layout.version()):
            if not layout.is_built(name):
                left_out(f"the section of {name}", "it isn't built")
            elif has(f"the section of {name}", system.tool("objcopy")):
                try_stamp(system, name)


def try_stamp(system, name):
    built, stamped = layout.content(name), layout.stamped(system, name)
    is_same = loaded(built) == loaded(stamped) and len(loaded(built)) > 1
    tell(f"{name} with its release is loaded as it was built", "" if is_same else "    another segment")
    said = f"$Version: {os.path.basename(name).partition('.')[0]} {layout.version()} $".encode()
    tell(f"{name} tells its release", "" if said in stamped else f"    no {said}")


def calls_of_header():
    text = "".join(text_of(f"include/{it}") for it in HEADERS)
    return sorted(re.findall(r"^IPXR_CALL [a-z][a-z0-9_ ]*[ *](ipxr_[a-z_]+)\(", text, re.M))


def try_library(root):
    """The example in C, built against what is installed."""
    version = layout.version()
    asked = {**os.environ, "PKG_CONFIG_PATH": f"{root}/lib/pkgconfig", "LD_LIBRARY_PATH": f"{root}/lib"}
    tell("pkg-config tells the release", differs(run("pkg-config", "--modversion", "ipxr", env=asked)[1].strip(), version))
    flags = run("pkg-config", "--cflags", "--libs", "ipxr", env=asked)[1].split()
    source, wanted = f"{TOP}/examples/embed/c/two_networks.c", text_of("examples/embed/two_networks.out")
    is_taken = {"static": "is taken", "shared": "isn't taken"}
    for kind, more in {"static": flags, "shared": [f"-I{root}/include", f"-L{root}/lib", "-lipxr"]}.items():
        why = complaint("cc", "-std=c99", source, *more, "-o", f"{root}/two_networks")
        why = why or differs(run(f"{root}/two_networks", env=asked), (0, wanted))
        tell(f"the example in C runs with the {kind} library where that was moved to", why)
        why = complaint("cc", "-std=c99", f"{TOP}/examples/embed/c/refusals.c", *more, "-o", f"{root}/refusals")
        said = run(f"{root}/refusals", env=asked)[1] == text_of("examples/embed/c/refusals.out")
        tell(f"an allocator of one's own {is_taken[kind]} by the {kind} library", why or differs(said, kind == "static"))
    name = LINUX.shared(version)[1]
    words = ["-std=c99", source, f"-I{root}/include", f"-L{root}/lib", f"-Wl,-rpath,{root}/lib", "-lipxr", "-o", f"{root}/two_networks"]
    tell("a program finds the shared library by its rpath", complaint("cc", *words) or differs(run(f"{root}/two_networks"), (0, wanted)))
    said = run("python3", f"{TOP}/examples/embed/python/two_networks.py", f"{root}/lib/{name}")
    tell("the example in Python takes the shared library", differs(said, (0, wanted)))
    tell(f"it asks for {name}", "" if f"[{name}]" in run("readelf", "-d", f"{root}/lib/libipxr.so")[1] else "    another name")
    shown = run("nm", "-D", "--defined-only", f"{root}/lib/libipxr.so")[1]
    shows = sorted(re.findall(r" T (\w+)", shown))
    tell("the shared library shows the calls of the header, and nothing else", differs(shows, calls_of_header()))


def try_install():
    with tempfile.TemporaryDirectory() as folder:
        why = complaint("tools/install", "/usr/local", f"{folder}/first")
        tell("make install puts all below a DESTDIR", why)
        if why:
            return
        root = f"{folder}/second"
        shutil.move(f"{folder}/first/usr/local", root)
        tell("the installed program plays the examples", plays([f"{root}/bin/ipxr"], TOP))
        if layout.is_built(LINUX.archive) and has("the installed library", "cc", "pkg-config", "readelf", "nm"):
            try_library(root)
        if layout.is_built(LINUX.gateway):
            why = complaint(f"{root}/sbin/ipxr-gateway", "--check", f"{root}/share/ipxr/ipxr-gateway.conf")
            tell("the installed gateway finds its example right", why)
            try_example(f"{root}/sbin/ipxr-gateway", folder)


def try_example(gateway, folder):
    """The example of a configuration and what of it Windows has, with the lines that are commented out."""
    examples = {"Linux": (text_of("gateway/configuration/example.conf"), 10, 4), "Windows": (layout.windows_configuration().decode(), 8, 1)}
    for system, (text, words_there, kinds_there) in examples.items():
        text = re.sub(r"(?m)^#   (?=network|link|extend|clients|allow|trust|rate|strangers|line|nodes|internal|adopt|permit|deny)", "", text)
        with open(f"{folder}/whole.conf", "w", encoding="utf-8", newline="") as it:
            it.write(text)
        tell(f"with all its lines that for {system} is right as well", complaint(gateway, "--check", f"{folder}/whole.conf"))
        links = "dosbox|qemu-udp|qemu-tcp listen|qemu-tcp connect|tap|interface"
        words = set(re.findall(rf"(?m)^(?:network.* )?(extend|clients|allow|trust|{links}) ", text))
        kinds = set(re.findall(r"(?m)^network.* (raw|ethernet2|llc|snap)\r?$", text))
        tell("they are of each kind that it has", differs((len(words), len(kinds)), (words_there, kinds_there)))

"""Where what is built lies once it is installed: for make install, the archives of a release and Debian's packages."""
import importlib.util
import os
import re
import shutil
import subprocess
import tempfile
from importlib.machinery import SourceFileLoader
from typing import NamedTuple

from systems import IMPORTS, PROGRAM, WINDOWS  # noqa: F401 (tools that play the program ask here where it is)

TOP = os.path.dirname(os.path.dirname(os.path.dirname(os.path.realpath(__file__))))
# Sections that are never in memory: a program without them is the same program.
DEAD_WEIGHT = "--strip-unneeded"
# How a header says a size.
SIZE = re.compile(r"(?m)^#define IPXR_MOST_(PORTS|ROUTES|SERVICES|CLIENTS|LINKS|STATIONS) (\d+)$")


class Piece(NamedTuple):
    """A file, or a link: the package that it belongs to, its place below the prefix, and what it is."""

    package: str
    place: str
    content: bytes = b""
    mode: int = 0o644
    link: str = ""


def content(name):
    with open(f"{TOP}/{name}", "rb") as it:
        return it.read()


def version():
    return content("VERSION").decode().strip()


def is_built(name):
    return os.path.isfile(f"{TOP}/{name}")


def sizes(system):
    """What fills the places of the sizes: how much the library has room for that is built, as its headers say."""
    text = "".join(content(it).decode() for it in filter(is_built, system.headers))
    return {f"@{name}@": number for name, number in SIZE.findall(text)}


def tool(place):
    """A tool as a module, by its place in the repository."""
    name = os.path.basename(place)
    loader = SourceFileLoader(name, f"{TOP}/{place}")
    module = importlib.util.module_from_spec(importlib.util.spec_from_loader(name, loader))
    loader.exec_module(module)
    return module


def filled(name, values):
    """A file with its places filled in."""
    text = content(name).decode()
    for word, value in {"@VERSION@": version(), **values}.items():
        text = text.replace(word, value)
    return text.encode()


def stamped(system, name):
    """A program or a shared library for Linux with its release in a section that `ident` and `readelf -p .ident` show, and without
    symbols. What the system loads is the same. Where there is no objcopy, it is as it was built."""
    objcopy = system.tool("objcopy")
    if not shutil.which(objcopy):
        return content(name)
    with tempfile.TemporaryDirectory() as folder:
        with open(f"{folder}/ident", "w", encoding="ascii") as it:
            it.write(f"$Version: {os.path.basename(name).partition('.')[0]} {version()} $\0")
        added = ["--add-section", f".ident={folder}/ident", "--set-section-flags", ".ident=readonly,contents"]
        subprocess.run([objcopy, DEAD_WEIGHT, *added, f"{TOP}/{name}", f"{folder}/stamped"], check=True)
        with open(f"{folder}/stamped", "rb") as it:
            return it.read()


def manual():
    """The manual pages, each with the package that it belongs to."""
    owners = {"ipxr.1": "ipxr", "ipxr-script.5": "ipxr", "libipxr.3": "libipxr-dev", "ipxr-gateway.8": "ipxr-gateway"}
    for place, text in tool("tools/pages").pages():
        yield Piece(owners[os.path.basename(place)], f"share/man/{place}", text.encode())


# ---- Linux ----


def program(system):
    yield Piece("ipxr", "bin/ipxr", stamped(system, system.program), 0o755)
    yield Piece("ipxr", "share/bash-completion/completions/ipxr", content("completions/ipxr.bash"))
    yield Piece("ipxr", "share/zsh/site-functions/_ipxr", content("completions/_ipxr"))


def library(system, lib, system_prefix):
    """The library for C. Where the system looks for it the pkg-config file names the shared one, elsewhere the static one, with which a
    program runs wherever it is; and there it finds what lies beside it."""
    file, name = system.shared(version())
    beside = "${pcfiledir}" + "/.." * (lib.count("/") + 2)
    libs = "-L${libdir} -lipxr" if system_prefix else "${libdir}/libipxr.a"
    values = {"@PREFIX@": system_prefix or beside, "@LIB@": lib, "@LIBS@": libs, **sizes(system)}
    for header in system.headers:
        yield Piece("libipxr-dev", f"include/{os.path.basename(header)}", content(header))
    yield Piece("libipxr-dev", f"{lib}/libipxr.a", content(system.archive))
    yield Piece("libipxr-dev", f"{lib}/libipxr.so", link=name)
    yield Piece("libipxr-dev", f"{lib}/pkgconfig/ipxr.pc", filled("include/ipxr.pc.in", values))
    yield Piece("libipxr1", f"{lib}/{name}", link=file)
    yield Piece("libipxr1", f"{lib}/{file}", stamped(system, f"{system.folder}/{file}"))


def gateway(system, prefix, units):
    yield Piece("ipxr-gateway", "sbin/ipxr-gateway", stamped(system, system.gateway), 0o755)
    yield Piece("ipxr-gateway", "share/bash-completion/completions/ipxr-gateway", content("completions/ipxr.bash"))
    yield Piece("ipxr-gateway", "share/zsh/site-functions/_ipxr-gateway", content("completions/_ipxr-gateway"))
    yield Piece("ipxr-gateway", "share/ipxr/ipxr-gateway.conf", content("gateway/configuration/example.conf"))
    yield Piece("ipxr-gateway", f"{units}/ipxr-gateway.service", filled("gateway/systems/linux/ipxr-gateway.service.in", {"@PREFIX@": prefix}))


def pieces(system, prefix, lib="lib", units="share/ipxr", is_system=False):
    """All that is built for a Linux, and what belongs to it; where the system looks for it, or below any prefix."""
    found = [*program(system)]
    if system.has_library and is_built(system.archive):
        found += library(system, lib, prefix if is_system else None)
    if is_built(system.gateway):
        found += gateway(system, prefix, units)
    packages = {it.package for it in found}
    return found + [it for it in manual() if it.package in packages]


# ---- Windows ----


def windows_configuration():
    """The example of a configuration with what the gateway has on Windows, its lines ended as editors there end them: each of its
    paragraphs but those whose networks lie on a card or a TAP."""
    paragraphs = content("gateway/configuration/example.conf").decode().split("\n\n")
    kept = [it for it in paragraphs if not re.search(r"(?m)^#?\s*network .* (tap|interface) ", it)]
    return ("\n\n".join(kept).rstrip("\n") + "\n").replace("\n", "\r\n").encode()


def windows():
    """All that is built for Windows, as it was linked: the programs and the library that is loaded with them lie at the top."""
    at = WINDOWS.folder
    for file in WINDOWS.programs(version()):
        yield Piece("ipxr", os.path.basename(file), content(file), 0o755)
    for header in WINDOWS.headers:
        yield Piece("ipxr", f"include/{os.path.basename(header)}", content(header))
    for name in ("libipxr.a", *IMPORTS):
        yield Piece("ipxr", f"lib/{name}", content(f"{at}/{name}"))
    yield Piece("ipxr", "gateway.conf", windows_configuration())


# ---- A folder ----


def put(piece, folder):
    """Puts a piece below a folder."""
    place = f"{folder}/{piece.place}"
    os.makedirs(os.path.dirname(place), exist_ok=True)
    if os.path.lexists(place):
        os.remove(place)
    if piece.link:
        os.symlink(piece.link, place)
        return
    with open(place, "wb") as it:
        it.write(piece.content)
    os.chmod(place, piece.mode)

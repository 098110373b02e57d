"""Debian's packages of a release for one of its processors, by dpkg-deb."""
import email.utils
import gzip
import hashlib
import os
import subprocess
import tempfile
from typing import NamedTuple

import binaries
import layout

UNITS = "lib/systemd/system"
# What the system's owner may change, in etc/: by its name there, the piece of a package that it is at first.
CONFIGURATIONS = {"ipxr-gateway": {"ipxr-gateway.conf": "share/ipxr/ipxr-gateway.conf"}}
NO_LICENCE = "No licence has been named: that is the owner's word, which is still to come.\n"

# What the gateway's package does beside its files. Its configuration stays where it is removed and not purged, and nothing else.
BEGUN = """#!/bin/sh
# A gateway that runs is begun anew by the newer program; one that doesn't is left alone.
set -e
if [ "$1" = configure ] && [ -d /run/systemd/system ]; then
    systemctl --system daemon-reload >/dev/null || true
    if [ -n "$2" ]; then
        deb-systemd-invoke try-restart ipxr-gateway.service >/dev/null || true
    fi
fi
"""
ENDED = """#!/bin/sh
# A gateway that runs ends before its program is removed, and one that was enabled isn't any more.
set -e
if [ "$1" = remove ]; then
    if [ -d /run/systemd/system ]; then
        deb-systemd-invoke stop ipxr-gateway.service >/dev/null || true
    fi
    if command -v deb-systemd-helper >/dev/null; then
        deb-systemd-helper update-state ipxr-gateway.service >/dev/null || true
        deb-systemd-helper purge ipxr-gateway.service >/dev/null || true
    fi
fi
"""
PURGED = """#!/bin/sh
# What the service kept goes when the package is purged. (systemd keeps it below private, and a link to it)
set -e
if [ "$1" = purge ]; then
    rm -rf /var/lib/ipxr-gateway /var/lib/private/ipxr-gateway
fi
"""
# Which packages are of use beside one: the documents are in ipxr, and it reads what the gateway captures.
SUGGESTED = {"ipxr": "ipxr-gateway, libipxr-dev", "libipxr-dev": "ipxr", "ipxr-gateway": "ipxr"}
# What one loads while it runs, if that is there; a program that is linked statically can't.
RECOMMENDED = {"ipxr-gateway": "libsodium23"}

# Of each package its section, what it is in a line and in a paragraph, and what else it depends on.
ABOUT = {
    "ipxr": (
        "net",
        "IPX router for scripts, and reader of IPX captures",
        "Plays scripts to one IPX router (RIP, SAP, forwarding, NetBIOS propagation) or\n"
        " to an internet of them, and shows the packets of a capture. What it writes is\n"
        " proved from its code.",
        "",
    ),
    "libipxr1": (
        "libs",
        "IPX router as a value: shared library",
        "A router takes packets and gives packets, with no socket and no clock. What\n each call does is proved from its code.",
        "",
    ),
    "libipxr-dev": (
        "libdevel",
        "IPX router as a value: header and static library",
        "A router takes packets and gives packets, with no socket and no clock. This\n"
        " package has the header, the static library, the manual page and the pkg-config\n"
        " file.",
        "libipxr1 (= {version})",
    ),
    "ipxr-gateway": (
        "net",
        "IPX router between DOSBox, emulators, TAPs and Ethernet",
        "Joins networks of DOSBox, PCs in QEMU, TAPs and Ethernet by one IPX router,\n and speaks all four kinds of Ethernet frames.",
        "",
    ),
}
# A program that is linked statically runs on every Debian for its processor, whatever C library that has; lintian asks for a word.
STATIC = "# (it is meant to be: it asks for nothing but Linux)\n{name}: statically-linked-binary [{file}]\n"


class Release(NamedTuple):
    version: str
    author: str
    time: int


def control(name, pieces, release, system):
    section, line, paragraph, more = ABOUT[name]
    libc = binaries.libc(it.content for it in pieces)
    depends = ([f"libc6 (>= {libc})"] if libc else []) + ([more.format(version=release.version)] if more else [])
    asks = f"Depends: {', '.join(depends)}\n" if depends else ""
    kilobytes = sum(len(it.content) for it in pieces) // 1024 + 1
    recommends = f"Recommends: {RECOMMENDED[name]}\n" if libc and name in RECOMMENDED else ""
    suggests = f"Suggests: {SUGGESTED[name]}\n" if name in SUGGESTED else ""
    same = "Multi-Arch: same\n" if name.startswith("lib") else ""
    return (
        f"Package: {name}\nVersion: {release.version}\nArchitecture: {system.debian}\nMaintainer: {release.author}\n"
        f"Installed-Size: {kilobytes}\n{asks}{recommends}{suggests}Section: {section}\nPriority: optional\n{same}"
        f"Description: {line}\n {paragraph}\n"
    )


def changes(name, release):
    """The package's own list of changes, in Debian's form."""
    date = email.utils.formatdate(release.time)
    said = "  * CHANGELOG.md of the package ipxr says what changed."
    text = f"{name} ({release.version}) unstable; urgency=medium\n\n{said}\n\n -- {release.author}  {date}\n"
    return gzip.compress(text.encode(), 9, mtime=0)


def of_package(piece):
    """A piece as the package has it: manual pages are compressed, and zsh looks where Debian puts what packages bring."""
    piece = piece._replace(place=piece.place.replace("zsh/site-functions", "zsh/vendor-completions"))
    if not piece.place.startswith("share/man/"):
        return piece
    return piece._replace(place=piece.place + ".gz", content=gzip.compress(piece.content, 9, mtime=0))


def excuses(name, pieces):
    """What lintian is told of programs that are linked statically."""
    programs = [it for it in pieces if it.content.startswith(binaries.ELF) and "bin/" in it.place]
    told = [STATIC.format(name=name, file=f"usr/{it.place}") for it in programs if not binaries.is_linked(it.content)]
    return [layout.Piece(name, f"share/lintian/overrides/{name}", "".join(told).encode())] if told else []


def installed(name, pieces, pages, release):
    """All files of a package below usr/."""
    found = [of_package(it) for it in pieces if it.package == name]
    found += excuses(name, found)
    doc = f"share/doc/{name}"
    texts = {"copyright": NO_LICENCE.encode(), "changelog.gz": changes(name, release)}
    found += [layout.Piece(name, f"{doc}/{it}", text) for it, text in texts.items()]
    if name == "ipxr":
        found += [it._replace(place=f"{doc}/{it.place}") for it in pages]
    return found


def configurations(name, pieces):
    """What a package puts into etc/."""
    contents = {it.place: it.content for it in pieces}
    return [layout.Piece(name, file, contents[place]) for file, place in CONFIGURATIONS.get(name, {}).items()]


def extras(name, release):
    """What else stands beside the control file: what is run at an installation or a removal, what is kept as its owner changed it, and what
    programs that are linked with the library depend on."""
    if name == "ipxr-gateway":
        kept = "".join(f"/etc/{file}\n" for file in CONFIGURATIONS[name])
        return {"postinst": BEGUN, "prerm": ENDED, "postrm": PURGED, "conffiles": kept}
    if name != "libipxr1":
        return {}
    return {"shlibs": f"libipxr 1 libipxr1 (>= {release.version})\n", "triggers": "activate-noawait ldconfig\n"}


def sums(pieces):
    """The sums of a package's files, as dpkg keeps them."""
    files = sorted((it for it in pieces if not it.link), key=lambda it: it.place)
    return "".join(f"{hashlib.md5(it.content).hexdigest()}  usr/{it.place}\n" for it in files)


def package(name, pieces, release, system):
    """The bytes of a package."""
    with tempfile.TemporaryDirectory() as folder:
        os.umask(0o022)
        root = f"{folder}/root"
        for it in pieces:
            layout.put(it, f"{root}/usr")
        for it in configurations(name, pieces):
            layout.put(it, f"{root}/etc")
        os.makedirs(f"{root}/DEBIAN")
        texts = {"control": control(name, pieces, release, system), "md5sums": sums(pieces), **extras(name, release)}
        for file, text in texts.items():
            mode = 0o755 if text.startswith("#!") else 0o644
            layout.put(layout.Piece(name, file, text.encode(), mode), f"{root}/DEBIAN")
        words = ["dpkg-deb", "--root-owner-group", "-Zxz", "--build", root, f"{folder}/made.deb"]
        subprocess.run(words, check=True, stdout=subprocess.DEVNULL, env={**os.environ, "SOURCE_DATE_EPOCH": str(release.time)})
        with open(f"{folder}/made.deb", "rb") as it:
            return it.read()


def packages(system, pages, release):
    """The packages by their file names."""
    pieces = layout.pieces(system, "/usr", f"lib/{system.multiarch}", UNITS, is_system=True)
    names = {it.package for it in pieces}
    found = {}
    for name in ABOUT:
        if name in names:
            file = f"{name}_{release.version}_{system.debian}.deb"
            found[file] = package(name, installed(name, pieces, pages, release), release, system)
    return found

"""The gateway as a folder of sources, which needs make and a C compiler alone: build/gateway-sources. It has what is compiled for Linux and
for POSIX, the library as one file, a Makefile that names all of it, an example of a configuration, and a program that tries what was built."""
import glob
import os
import shutil
import subprocess

import gateway_builds as make
import layout
from c_library import put, text_of
from telling import count, has, left_out, quietly, say, succeeds, tell

FOLDER = "build/gateway-sources"
TEMPLATES = "gateway/alone"
SYSTEMS = {"linux": make.LINUX, "posix": make.POSIX}
# What lies beside the sources, with where it is taken from.
BESIDE = {
    "README.md": f"{TEMPLATES}/README.md",
    "gateway.conf": "gateway/configuration/example.conf",
    "check.c": f"{make.TESTS}/exchange.c",
    "ipxr-gateway.service.in": "gateway/systems/linux/ipxr-gateway.service.in",
}
# How it is built in the tests: a name, the words of make, and what must be there for it.
WAYS = (
    ("GNU make", ["make", "-j2"], ["make", "cc"]),
    ("BSD make", ["bmake"], ["bmake", "cc"]),
    ("clang", ["make", "CC=clang"], ["make", "clang"]),
    ("tcc", ["make", "CC=tcc"], ["make", "tcc"]),
    ("POSIX", ["make", "SYSTEM=posix"], ["make", "cc"]),
    ("musl", ["bmake", "CC=musl-gcc", "SYSTEM=posix"], ["bmake", "musl-gcc"]),
    ("32 bits", ["make", "CC=i686-linux-gnu-gcc -DSTANDS_ALONE", "LDFLAGS=-static"], ["make", "i686-linux-gnu-gcc"]),
)
WARNINGS = "CFLAGS=-O1 -Wall -Wextra -pedantic"


def rows(names):
    """A list of a Makefile's."""
    return " \\\n".join(f"\t{it}" for it in names)


def objects(names):
    return rows(f"{os.path.splitext(it)[0]}.o" for it in names)


def headers():
    return sorted(glob.glob("gateway/**/*.h", recursive=True))


def makefile(library):
    """The Makefile, which names each file."""
    text = text_of(f"{TEMPLATES}/Makefile.in").replace("@HEADERS@", rows([*headers(), *library]))
    text = text.replace("@COMMON@", objects([*make.common_sources(), "library/libipxr.c"]))
    for name, folders in SYSTEMS.items():
        text = text.replace(f"@{name}@", objects(make.system_sources(folders)))
    return text


def manual():
    """The gateway's manual page."""
    return next(it.content.decode() for it in layout.manual() if it.package == "ipxr-gateway")


def put_all():
    """Makes the folder anew."""
    shutil.rmtree(FOLDER, ignore_errors=True)
    sources = {*make.common_sources(), *(it for folders in SYSTEMS.values() for it in make.system_sources(folders)), *headers()}
    library = {f"library/{os.path.basename(it)}": it for it in (make.ONE_FILE, *sorted(glob.glob("build/library/*.h")))}
    for place, file in {**{it: it for it in sources}, **library, **BESIDE}.items():
        os.makedirs(os.path.dirname(f"{FOLDER}/{place}"), exist_ok=True)
        shutil.copyfile(file, f"{FOLDER}/{place}")
    put(f"{FOLDER}/Makefile", makefile([it for it in library if it.endswith(".h")]))
    put(f"{FOLDER}/ipxr-gateway.8", manual())


def build():
    """Puts the folder there. Returns whether it could."""
    if not os.path.exists(make.ONE_FILE):
        say(f"{make.ONE_FILE} is missing: make library")
        return False
    put_all()
    say(f"{FOLDER} has the gateway's sources")
    return True


# ---- How it is tried ----


def runs(words, *targets):
    """Whether make does something in the folder. What it said is in build/log."""
    return quietly(*words, "-C", FOLDER, *targets)


def is_silent():
    """Whether a compiler had nothing to say of all that it compiled. (that a static program finds names by what it loads says the linker)"""
    said = [it for it in text_of("build/log").splitlines() if "warning" in it and "statically linked" not in it]
    if said:
        print("\n".join(said[:5]))
    return not said


def installs(words):
    """Whether the program lies where it was put, and runs there."""
    place = os.path.abspath(f"{FOLDER}/installed")
    if not runs(words, "install", f"PREFIX={place}"):
        return False
    asked = subprocess.run([f"{place}/sbin/ipxr-gateway", "--version"], capture_output=True, text=True, check=False)
    return asked.stdout.startswith("ipxr-gateway ") and all(os.path.getsize(f"{place}/share/{it}") for it in
                                                            ("ipxr/ipxr-gateway.conf", "man/man8/ipxr-gateway.8"))


def try_way(name, words, needed):
    if missing := [it for it in needed if not has(it)]:
        left_out(f"the folder of sources by {name}", " and no ".join(missing))
        return
    put_all()
    tell(f"sources: by {name} it is compiled without a warning", runs([*words, WARNINGS], "all") and is_silent())
    is_well = runs([*words, WARNINGS], "check")
    print("".join(f"        {it}\n" for it in text_of("build/log").splitlines()[-6:]), end="")
    tell(f"sources: by {name} `make check` plays two players", is_well)
    tell(f"sources: by {name} it is installed", installs([*words, WARNINGS]))


def knows_macos():
    """Whether what is written for macOS' names is compiled without a warning."""
    words = [*make.FLAGS, "-D_DARWIN_C_SOURCE", "-Werror", "-Iinclude", "-include", f"{make.TESTS}/macos.h", "-fsyntax-only"]
    return succeeds(make.CC, *words, *make.system_sources(make.POSIX))


def test():
    """Tries each way. The last line is a count."""
    tell("sources: what has macOS' names is compiled without a warning", knows_macos())
    if build():
        for way in WAYS:
            try_way(*way)
        put_all()
    else:
        tell("sources: the library as one file is there", False)
    return count()

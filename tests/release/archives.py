"""The files of a release: packed twice, unpacked, and looked through; and what the page for releases says of their use, done."""
import glob
import hashlib
import os
import re
import shutil
import subprocess
import sys
import tarfile
import tempfile
import zipfile

import binaries
import contents
import layout
import outputs
import pictures
import serving
import systems
from pages import UNRELEASED, broken_links
from systems import ARM, ARM32, GATEWAY, IN_C, LIBRARY, LINUX, PORTABLE, SYSTEMS, WINDOWS
from trying import TOP, complaint, differs, has, left_out, plays, run, tell, text_of

PAGE = "docs/RELEASES.md"
# Under which heading of the page the first commands of each archive stand.
HEADINGS = {
    LINUX.name: "Linux on a PC", ARM.name: "Linux on 64-bit ARM", ARM32.name: "Linux on 32-bit ARM", WINDOWS.name: "Windows",
    PORTABLE.name: "The program on any other system", LIBRARY.name: "A server on any other system",
    GATEWAY.name: "The gateway on any other Unix",
}
# By what the programs for other processors run here.
RUNNERS = {ARM.name: "qemu-aarch64", ARM32.name: "qemu-arm"}
# What somebody looks for in an archive.
PAPERS = "PROVENANCE examples/nearest-server.pcap examples/nearest-server.out"
PAGES = f"{PAPERS} README.md CHANGELOG.md VERSION docs/SCRIPTS.md docs/api/index.html tools/json"
GATEWAYS = "examples/embed/heap.c gateway/configuration/example.conf"
IN_C_HEADERS = " ".join(f"include/{it}" for it in systems.HEADERS)
PROGRAMS = """bin/ipxr sbin/ipxr-gateway share/man/man1/ipxr.1 share/man/man8/ipxr-gateway.8 share/ipxr/ipxr-gateway.conf
    tools/conformance tools/lib/scenarios.py tests/conformance/answers/all-routes.out share/ipxr/ipxr-gateway.service share/bash-completion/completions/ipxr share/zsh/site-functions/_ipxr"""
ON_LINUX = f"""{PROGRAMS} {IN_C_HEADERS} lib/libipxr.a lib/libipxr.so lib/libipxr.so.{{first}} lib/libipxr.so.{{version}}
    lib/pkgconfig/ipxr.pc"""
ON_WINDOWS = f"ipxr.exe ipxr-gateway.exe ipxr.dll {IN_C_HEADERS} lib/libipxr.a lib/libipxr.dll.a lib/ipxr.lib gateway.conf"
HOLDS = {
    LINUX.name: f"{PAGES} {GATEWAYS} {ON_LINUX}",
    ARM.name: f"{PAGES} {GATEWAYS} {ON_LINUX}",
    ARM32.name: f"{PAGES} {PROGRAMS}",
    WINDOWS.name: f"{PAGES} {GATEWAYS} {ON_WINDOWS}",
    PORTABLE.name: f"{PAPERS} ipxr.c README man/man1/ipxr.1 man/man5/ipxr-script.5",
    LIBRARY.name: f"PROVENANCE libipxr.c server.c README.md {IN_C_HEADERS.replace('include/', '')} docs/EMBED.md docs/KEYED.md",
    GATEWAY.name: "PROVENANCE Makefile README.md gateway.conf check.c ipxr-gateway.8 library/libipxr.c",
}


def sums(folder):
    found = {}
    for name in sorted(os.listdir(folder)):
        with open(f"{folder}/{name}", "rb") as it:
            found[name] = hashlib.sha256(it.read()).hexdigest()
    return found


def archive_of(folder, name):
    """The archive for a system, or nothing where it was left out."""
    return next(iter(glob.glob(f"{folder}/ipxr-*-{name}.*")), "")


# ---- Refused ----


def put_empty(file):
    os.makedirs(os.path.dirname(file), exist_ok=True)
    with open(file, "wb"):
        pass


def packed_with(folder, heading):
    """What release/dist says in a folder that has nothing but the tools, where the changes begin with a heading."""
    with open(f"{folder}/CHANGELOG.md", "w", encoding="utf-8") as it:
        it.write(f"# Changes\n\n## {heading}\n\n- What is new.\n\n## {layout.version()}, 2026-01-01\n")
    return run("release/dist", cwd=folder)


def try_headings(folder):
    """What isn't released is packed as no release."""
    version = layout.version()
    for heading in (UNRELEASED, version, "0.0.1, 2026-01-01"):
        status, text = packed_with(folder, heading)
        is_refused = status == 1 and text.startswith(f"CHANGELOG.md begins with '## {heading}'") and text.count("\n") == 1
        tell(f"changes that begin with '{heading}' are packed as no release {version}", "" if is_refused else text)


def try_unbuilt(folder):
    """What isn't built, and what was made before the program, is named with what builds it, where the machine has a compiler for it."""
    put_empty(f"{folder}/{PORTABLE.file}")
    put_empty(f"{folder}/{layout.PROGRAM}")
    os.utime(f"{folder}/{PORTABLE.file}", (0, 0))
    status, text = packed_with(folder, f"{layout.version()}, 2026-01-01")
    wanted = []
    for system in (it for it in SYSTEMS if f"left out: {it.name}" not in text):
        wanted += [f"{file} is not built: {how}" for file, how in system.built(layout.version()).items() if file != layout.PROGRAM]
    wanted.append(f"{PORTABLE.file} is older than {layout.PROGRAM}: {PORTABLE.how}")
    wanted += [f"{it.file} is not built: {it.how}" for it in (LIBRARY, GATEWAY)]
    wanted += [f"{file} is not built: {how}" for file, how in contents.WEB.items()]
    said = [it for it in text.splitlines() if not it.startswith("left out")]
    tell("what isn't built or is older than the program keeps a release from being packed", differs((status, said), (1, wanted)))


def git(folder, *words):
    who = ["-c", "user.name=nobody", "-c", "user.email=nobody@example.org"]
    return subprocess.run(["git", *who, *words], cwd=folder, stdout=subprocess.PIPE, check=True).stdout.decode().strip()


def try_gate(folder):
    """Only the commit on which the gate passed is packed, and only as it is."""
    asked = "no release is packed"
    with open(f"{folder}/.gitignore", "w", encoding="utf-8") as it:
        it.write("/out/\n__pycache__/\n/build/\n/crates/\n")
    with open(f"{folder}/CHANGELOG.md", "w", encoding="utf-8") as it:
        it.write(f"# Changes\n\n## {layout.version()}, 2026-01-01\n")
    git(folder, "init", "-q")
    git(folder, "add", ".")
    git(folder, "commit", "-q", "-m", "A release")
    os.makedirs(f"{folder}/out", exist_ok=True)
    verdict = "import sys; sys.path[:0] = ['release', 'tools/lib']; import provenance; print(provenance.Commit().verdict)"

    def judged(commit):
        with open(f"{folder}/out/gate.passed", "w", encoding="ascii") as it:
            it.write(f"{commit}\n1 passed, 0 failed\n")
        return run(sys.executable, "-B", "-c", verdict, cwd=folder)

    commit = git(folder, "rev-parse", "HEAD")
    tell("the commit on which the gate passed is a release", differs(judged(commit), (0, "1 passed, 0 failed\n")))
    tell("nothing is said of it before it is built", differs(run("release/dist", "--check", cwd=folder), (0, "")))
    tell(f"{asked} of another commit than the gate's", differs(judged("0" * 40), (0, "None\n")))
    status, text = run("release/dist", "--check", cwd=folder)
    tell("that is said before anything is built", differs((status, text.split(" ")[0]), (1, "out/gate.passed")))
    with open(f"{folder}/VERSION", "a", encoding="ascii") as it:
        it.write("\n")
    tell(f"{asked} where a file differs from the commit", differs(judged(commit), (0, "None\n")))


def try_refusals():
    with tempfile.TemporaryDirectory() as folder:
        for room in ("tools", "release"):
            shutil.copytree(f"{TOP}/{room}", f"{folder}/{room}")
        shutil.copy(f"{TOP}/VERSION", folder)
        try_headings(folder)
        try_unbuilt(folder)
        if has("which commits are packed", "git"):
            try_gate(folder)


# ---- Unpacked ----


def unpacked(packed, folder):
    """Unpacks an archive below a folder: its own folder, and what it says of who packed it and when."""
    if packed.endswith(".zip"):
        with zipfile.ZipFile(packed) as it:
            it.extractall(folder)
            owners = {(it.date_time, it.create_system, it.extra) for it in it.infolist()}
    else:
        with tarfile.open(packed) as tar:
            tar.extractall(folder)
            owners = {(it.mtime, it.uid, it.gid, it.uname, it.gname) for it in tar}
    (root,) = glob.glob(f"{folder}/*")
    return root, owners


def strangers(root, processor):
    """The programs below a folder that are for another processor."""
    for at, _, names in os.walk(root):
        for file in (f"{at}/{it}" for it in sorted(names)):
            with open(file, "rb") as it:
                found = binaries.machine(it.read())
            if found not in (None, processor):
                yield f"    {os.path.relpath(file, root)}: {found}\n"


def try_unpacked(packed, name, folder):
    """An archive, unpacked: what it holds, and that all of it is for one system."""
    root, owners = unpacked(packed, folder)
    is_nobody = len(owners) == 1 and next(iter(owners))[1:] in ((3, b""), (0, 0, "", ""))
    tell(f"{name}: nothing of who packed it is in the archive", "" if is_nobody else f"    {owners}")
    held = HOLDS[name].format(first=layout.version().partition(".")[0], version=layout.version()).split()
    tell(f"{name}: it holds what belongs to it", "".join(f"    no {it}\n" for it in held if not os.path.isfile(f"{root}/{it}")))
    tell(f"{name}: every link of its documents leads to a file in it", "".join(broken_links(root)))
    if name == PORTABLE.name:
        with open(f"{root}/README", encoding="utf-8") as it:
            shown = re.findall(r"(?m)^    (.*)$", it.read())
        tell(f"{name}: README and the page say the same commands", differs(shown, first_commands(name, packed)[2:]))
    if name in [it.name for it in SYSTEMS]:
        tell(f"{name}: its programs are for one processor", "".join(strangers(root, name.partition("-")[2])))
    with open(f"{root}/PROVENANCE", encoding="utf-8") as it:
        tell(f"{name}: PROVENANCE names the commit", "" if run("git", "rev-parse", "HEAD")[1].strip() in it.read() else "    it doesn't")
    return root


# Which packages ask for the C library: those in which something is linked with it.
WITH_LIBC = {"amd64": {"ipxr", "libipxr1", "ipxr-gateway"}, "arm64": {"libipxr1"}}


def try_packages(folder):
    """Debian's packages: for which processor each is, and whether it asks for the C library."""
    packages = sorted(glob.glob(f"{folder}/*.deb"))
    if not packages or not has("what Debian's packages say of themselves", "dpkg-deb"):
        return
    wrong = []
    for file in packages:
        name, _, ending = os.path.basename(file).split("_")
        fields = dict(it.split(": ", 1) for it in run("dpkg-deb", "-f", file, "Architecture", "Depends", "Recommends")[1].splitlines())
        has_libc = name in WITH_LIBC[ending.removesuffix(".deb")]
        found = fields["Architecture"], "libc6 (>= " in fields.get("Depends", ""), fields.get("Recommends", "")
        wanted = ending.removesuffix(".deb"), has_libc, "libsodium23" if has_libc and name == "ipxr-gateway" else ""
        wrong += [f"    {os.path.basename(file)}: {found}, wanted {wanted}\n"] if found != wanted else []
    tell(f"{len(packages)} packages name their processor, and the C library where they are linked with it", "".join(wrong))


# ---- As the page says ----


def commands(name, packed):
    """What the page has below the heading of a system: each block of commands as its lines, with the name of an archive that was packed."""
    below = re.search(rf"^### {HEADINGS[name]}\n(.*?)^##", text_of(PAGE), re.M | re.S)[1]
    version = re.search(rf"/ipxr-([^/]*)-{name}", packed)[1]
    below = below.replace(f"ipxr-{layout.version()}-", f"ipxr-{version}-")
    return [re.sub(r"^    ", "", it, flags=re.M).splitlines() for it in re.findall(r"(?:^    .*\n)+", below, re.M)]


def first_commands(name, packed):
    """The first commands of the page for a system."""
    return commands(name, packed)[0]


def run_by(runner, lines):
    """Commands with what runs a program of another processor before those that name one."""
    return [re.sub(r"^(?=s?bin/)", f"{runner} ", it) for it in lines] if runner else lines


def quick(lines):
    """Commands that compile without the optimizer, which takes most of the time."""
    return [it.replace("cc -O2 ", "cc -O0 ") if it != "make" else "make CFLAGS=-O0" for it in lines]


def try_first_commands(name, packed, runner=""):
    """They are run in an empty folder that has only the archive."""
    with tempfile.TemporaryDirectory() as folder:
        shutil.copy(packed, folder)
        said = run("sh", "-eu", "-c", "\n".join(run_by(runner, first_commands(name, packed))), cwd=folder)
        tell(f"{name}: from unpacking to a decoded capture as the page says", differs(said, (0, text_of("examples/nearest-server.out"))))


def try_serving(name, packed, runner=""):
    """The last commands for a system serve players: what goes before is run in an empty folder that has only the archive, and then two
    come."""
    lines = [line for block in commands(name, packed) for line in block]
    with tempfile.TemporaryDirectory() as folder:
        shutil.copy(packed, folder)
        why = serving.differs(quick(run_by(runner, lines)), folder)
    tell(f"{name}: from unpacking to two players who hear each other as the page says", why)


# ---- All ----


def try_packed(folder):
    """Each archive of a folder; what runs here is played. And what the packages say of themselves."""
    try_packages(folder)
    for name in (it.name for it in (*SYSTEMS, *IN_C)):
        packed = archive_of(folder, name)
        if not packed:
            continue
        with tempfile.TemporaryDirectory() as below:
            root = try_unpacked(packed, name, below)
            if name == LINUX.name:
                tell(f"{name}: its program plays its examples", plays([f"{root}/bin/ipxr"], root))
                try_first_commands(name, packed)
                pictures.try_unpacked(name, root)
                outputs.try_unpacked(name, root)
            elif name in RUNNERS and has(f"the programs of {name}", RUNNERS[name]):
                tell(f"{name}: its program plays its examples", plays([RUNNERS[name], f"{root}/bin/ipxr"], root))
        try_use(name, packed)


def try_use(name, packed):
    """The commands of the page that are more than the first."""
    if name == ARM32.name and has(f"the commands for {name}", RUNNERS[name]):
        try_first_commands(name, packed, RUNNERS[name])
        try_serving(name, packed, RUNNERS[name])
    if name in (LIBRARY.name, GATEWAY.name) and has(f"the commands for {name}", "cc", "make"):
        try_serving(name, packed)


def try_archives():
    if not has("packing", "git", LINUX.compiler, LINUX.tool("objcopy")):
        return
    if not os.path.exists(f"{TOP}/.git"):
        left_out("packing", "no repository")
        return
    with tempfile.TemporaryDirectory() as folder:
        said = [run("release/dist", "--draft", f"{folder}/{name}") for name in ("one", "another")]
        tell("two drafts are packed", "".join(text for status, text in said if status))
        if any(status for status, _ in said):
            return
        print("".join(it + "\n" for it in said[0][1].splitlines() if it.startswith("left out")), end="")
        tell("both have the same sums", differs(sums(f"{folder}/one"), sums(f"{folder}/another")))
        tell("SHA256SUMS are the sums", complaint("sha256sum", "--quiet", "-c", "SHA256SUMS", cwd=f"{folder}/one"))
        tell("the archive for this machine is among them", "" if archive_of(f"{folder}/one", LINUX.name) else "    it isn't")
        try_packed(f"{folder}/one")

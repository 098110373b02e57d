"""Fresh systems: for each of Debian's processors a root where the packages and the archive are installed, used and removed, and for
Windows a folder where Wine runs what was unpacked."""
import glob
import os
import re
import shutil
import subprocess
import tempfile

import contents
import layout
from archives import archive_of, commands, first_commands, sums, try_packed, unpacked
from systems import ARM, GATEWAY, IN_C, LIBRARY, LINUX, SYSTEMS, WINDOWS
from trying import TOP, complaint, differs, has, left_out, plays, run, tell, text_of

MINUTE = 60
IN_ROOT = "gcc,libc6-dev,make,pkg-config,man-db"
# Wine's folder is made anew, and it says nothing of itself.
WINE = {"WINEDEBUG": "-all", "WINEDLLOVERRIDES": "winemenubuilder.exe=d"}
PROGRAMS = ("two_networks", "answers", "fields", "services")


# ---- Two copies ----


def copy_of_repository(folder):
    """A clone with the built files of this one, as old as they are."""
    subprocess.run(["git", "clone", "-q", TOP, folder], check=True)
    built = [file for it in SYSTEMS for file in it.built(layout.version())]
    for name in filter(layout.is_built, [*built, *contents.WEB, "out/gate.passed", "out/gate.log"]):
        os.makedirs(os.path.dirname(f"{folder}/{name}"), exist_ok=True)
        shutil.copy2(f"{TOP}/{name}", f"{folder}/{name}")
    for sources in (it for it in IN_C if layout.is_built(it.file)):
        place = os.path.dirname(sources.file)
        shutil.copytree(f"{TOP}/{place}", f"{folder}/{place}", ignore=shutil.ignore_patterns("tried"))


def try_copies(folder):
    """Packs in two copies; returns where the packed files are."""
    is_release = os.path.isfile(f"{TOP}/out/gate.passed") and not layout.tool("release/dist").unreleased()
    for name in ("a", "another/folder/far/below"):
        copy_of_repository(f"{folder}/{name}")
        status, text = run("release/dist", *([] if is_release else ["--draft"]), cwd=f"{folder}/{name}", timeout=10 * MINUTE)
        tell(f"packed in {name}", text if status else "")
        if status:
            return ""
    print("".join(it + "\n" for it in text.splitlines() if it.startswith("left out")), end="")
    one, other = (f"{folder}/{name}/dist" for name in ("a", "another/folder/far/below"))
    tell("two copies give one sum", differs(sums(one), sums(other)))
    return one


def try_lintian(packed):
    packages = sorted(glob.glob(f"{packed}/*.deb"))
    if packages and has("what lintian says", "lintian"):
        status, text = run("lintian", "--allow-root", "--fail-on", "error", *packages, timeout=10 * MINUTE)
        print(text, end="")
        tell("lintian finds nothing serious in the packages", f"    status {status}" if status else "")


# ---- Debian ----


def runs_here(system):
    """Whether this machine runs the programs of a system, by itself or through an emulator; else it says what is left out."""
    what = f"a fresh root for {system.debian}"
    if system is LINUX:
        return has(what, "mmdebstrap")
    if not has(what, "mmdebstrap", "arch-test"):
        return False
    is_run = run("arch-test", system.debian)[0] == 0
    if not is_run:
        left_out(what, "no emulator that the system knows: docs/authors/RELEASING.md")
    return is_run


def carried(packed, system, folder):
    """What a root is given: its packages, its archive and the page's commands for that, the archives of C, and the stories. Of the commands of
    these all but the last, which serves, are run there."""
    os.makedirs(folder)
    # (an emulated compiler would take an hour for the portable C)
    names = [system.name, *(it.name for it in IN_C if system is LINUX)]
    for name in filter(lambda it: archive_of(packed, it), names):
        archive = archive_of(packed, name)
        lines = sum(commands(name, archive), [])[:-1] if name in (LIBRARY.name, GATEWAY.name) else first_commands(name, archive)
        shutil.copy(archive, folder)
        with open(f"{folder}/{name}.commands", "w", encoding="utf-8") as it:
            it.write("\n".join(lines) + "\n")
    for it in [*glob.glob(f"{packed}/*_{system.debian}.deb"), f"{TOP}/tests/release/in-root"]:
        shutil.copy(it, folder)
    shutil.copytree(f"{TOP}/examples", f"{folder}/examples")


def try_root(packed, system):
    """Installs, uses and removes the packages, and uses the archive, in a root that has nothing of this machine."""
    if not glob.glob(f"{packed}/*_{system.debian}.deb"):
        left_out(f"a fresh root for {system.debian}", "no packages for it")
        return
    if not runs_here(system):
        return
    with tempfile.TemporaryDirectory() as folder:
        carried(packed, system, f"{folder}/dist")
        hooks = [f"--customize-hook=copy-in {folder}/dist /", '--customize-hook=chroot "$1" sh /dist/in-root']
        suite = re.search(r"^VERSION_CODENAME=(\w+)", open("/etc/os-release", encoding="utf-8").read(), re.M)[1]
        how = ["--quiet", f"--arch={system.debian}", "--variant=apt", f"--include={IN_ROOT}", "--format=null"]
        status, text = run("mmdebstrap", *how, *hooks, suite, "/dev/null", timeout=90 * MINUTE)
    print(text, end="")
    tell(f"the packages for {system.debian} are installed, used and removed in a fresh root", f"    status {status}" if status else "")


# ---- Windows ----


class Wine:
    """Programs for Windows, run in a folder that Wine has made."""

    def __init__(self, folder):
        self.env = {**os.environ, **WINE, "WINEPREFIX": f"{folder}/wine"}
        self.more = {"env": self.env, "timeout": 5 * MINUTE}
        run("wine", "wineboot", **self.more)

    def said(self, *words, cwd):
        """The status of a program, and what it prints, with C's ends of lines."""
        status, text = run("wine", *words, cwd=cwd, **self.more)
        return status, text.replace("\r\n", "\n")

    def end(self):
        run("wineserver", "-k", **self.more)


def try_windows_commands(packed, wine):
    """The page's commands: Windows' own tar unpacks, and is bsdtar; the last one is typed."""
    unpacks, enters, decodes = first_commands(WINDOWS.name, packed)
    with tempfile.TemporaryDirectory() as folder:
        shutil.copy(packed, folder)
        typed, wanted = {"cwd": f"{folder}/{enters.split()[1]}", **wine.more}, (0, text_of("examples/nearest-server.out"))
        why = complaint("bsdtar", *unpacks.split()[1:], cwd=folder) or differs(run("wine", "cmd", "/c", decodes, **typed), wanted)
        tell(f"{WINDOWS.name}: from unpacking to a decoded capture as the page says", why)


def try_windows_library(root, wine):
    """The examples in C, by the static library and by the one that is loaded with them; and the gateway's sources."""
    compiler = WINDOWS.compiler
    for name in PROGRAMS:
        kept = f"examples/embed/c/{name}.out"
        wanted = text_of(kept if os.path.exists(f"{TOP}/{kept}") else f"examples/embed/{name}.out")
        for kind in ("libipxr.a", "libipxr.dll.a"):
            words = ["-std=c99", f"examples/embed/c/{name}.c", "-Iinclude", f"lib/{kind}", "-o", f"{name}.exe"]
            why = complaint(compiler, *words, cwd=root) or differs(wine.said(f"{name}.exe", cwd=root), (0, wanted))
            tell(f"{WINDOWS.name}: {name}, built with lib/{kind}, prints what is kept", why)
    command = re.search(rf"`({compiler} [^`]* -o )ipxr-gateway.exe`", text_of("docs/RELEASES.md"))
    if not command:
        tell(f"{WINDOWS.name}: the page says how the gateway is built", "    it doesn't")
        return
    why = complaint("sh", "-c", f"{command[1]}built.exe", cwd=root, timeout=5 * MINUTE)
    why = why or complaint("wine", "built.exe", "--check", "gateway.conf", cwd=root, **wine.more)
    tell(f"{WINDOWS.name}: the gateway is built from its sources as the page says", why)


def try_windows(packed):
    """The archive, unpacked into an empty folder: its programs by Wine."""
    archive = archive_of(packed, WINDOWS.name)
    if not archive:
        left_out("Windows", "no archive for it")
        return
    if not has("Windows", "wine"):
        return
    with tempfile.TemporaryDirectory() as folder:
        wine = Wine(folder)
        root, _ = unpacked(archive, f"{folder}/empty")
        tell(f"{WINDOWS.name}: its program plays its examples", plays(["wine", "ipxr.exe"], root, **wine.more))
        why = complaint("wine", "ipxr-gateway.exe", "--check", "gateway.conf", cwd=root, **wine.more)
        tell(f"{WINDOWS.name}: its gateway finds its example right", why)
        if has("the page's commands for Windows", "bsdtar"):
            try_windows_commands(archive, wine)
        if has("programs in C for Windows", WINDOWS.compiler):
            try_windows_library(root, wine)
        wine.end()


def try_all():
    with tempfile.TemporaryDirectory() as folder:
        packed = try_copies(folder)
        if not packed:
            return
        try_packed(packed)
        try_lintian(packed)
        try_windows(packed)
        try_root(packed, LINUX)
        try_root(packed, ARM)

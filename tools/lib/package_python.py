"""The package for Python: the library as one file of C, which is compiled where it is installed, and typed modules over it."""
import glob
import os
import shutil
import subprocess

import package_checks
import package_headers
import packages
import python_raw
from c_library import CC, put
from libraries import TOP
from telling import has, left_out, tell

TESTS = f"{TOP}/tests/packages"
WRITTEN = ("raw.py", "numbers.py")
# What builds a package for Python: Debian's packages python3-setuptools, python3-wheel and python3-pip have it. (The first wants to be the
# first.)
NEEDED = ("setuptools", "wheel", "pip")
PYTHONS = ("python3", "/usr/bin/python3")
BUILD = "import setuptools.build_meta as it; it.build_sdist({!r})"
# Calls that no word of the package makes, and why.
LEFT_OUT = {f"ipxr_peers_{it}": "gateways that share a network call it from C" for it in ("begin", "hear", "number", "present", "second")}


def write_raw(folder, headers):
    """Writes what the headers of a folder say into a folder of modules."""
    read = package_headers.Read(headers)
    put(f"{folder}/raw.py", python_raw.raw(read))
    put(f"{folder}/numbers.py", python_raw.numbers(read))


def make(folder):
    """Puts the package into a folder."""
    packages.copy_sources("python", folder)
    packages.copy_library(f"{folder}/src/c")
    write_raw(f"{folder}/src/ipxr", packages.LIBRARY)


def python():
    """A Python that can build packages, or nothing."""
    asked = f"import {', '.join(NEEDED)}"
    there = [it for it in PYTHONS if has(it)]
    return next((it for it in there if subprocess.run([it, "-c", asked], capture_output=True, check=False).returncode == 0), None)


# ---- What is tried where it was made ----


def test_made(folder):
    """The layers."""
    modules = package_checks.modules_in(f"{folder}/src/ipxr", ".py", WRITTEN)
    uses = package_checks.names_in(r"\b(?:calls|loaded)\.(ipxr_\w+)", f"{folder}/src/ipxr", modules)
    package_checks.see("python", uses, LEFT_OUT)


# ---- What is tried of the archive, away from here ----


def installs(own, folder, away):
    """Whether the package is packed, and compiled and installed elsewhere from that archive alone, without a network."""
    if not packages.runs(own, "-c", BUILD.format(away), cwd=folder):
        return False
    archive = glob.glob(f"{away}/ipxr-*.tar.gz")[0]
    how = ["--quiet", "--no-build-isolation", "--no-index", "--no-deps", "--disable-pip-version-check"]
    return packages.runs(own, "-m", "pip", "install", *how, "--target", f"{away}/site", archive, cwd=away)


def test_installed(own, folder, away):
    asked = {**os.environ, "PYTHONPATH": f"{away}/site", "PYTHONDONTWRITEBYTECODE": "1"}
    for name in ("made_up.py", "odd.py", "raw_calls.py", "readme.py"):
        shutil.copy(f"{TESTS}/{name}", away)
    for name in ("story.py", "server.py"):
        shutil.copy(f"{folder}/examples/{name}", away)
    packages.tells_story("python", own, "story.py", cwd=away, env=asked)
    packages.plays_made_up("python", own, "made_up.py", cwd=away, env=asked)
    tell("python: what isn't meant is refused", packages.runs(own, "odd.py", cwd=away, env=asked))
    package_checks.calls_file(f"{away}/calls.json")
    tell("python: each raw call takes what its header says, and each number is there",
         packages.runs(own, "raw_calls.py", "calls.json", cwd=away, env=asked))
    tell("python: the server serves two players", packages.runs(own, f"{TESTS}/players.py", own, f"{away}/server.py", cwd=away, env=asked))
    tell("python: the lines of README.md run", packages.runs(own, "readme.py", f"{folder}/README.md", cwd=away, env=asked))
    test_types(own, away, asked)


def test_types(own, away, asked):
    if not has("mypy"):
        left_out("python: the types", "mypy")
        return
    tell("python: mypy takes the package, by its strict rules",
         packages.runs("mypy", "--strict", "-p", "ipxr", cwd=f"{away}/site", env=asked))
    path = {**asked, "MYPYPATH": f"{away}/site"}
    tell("python: and the programs over it", packages.runs("mypy", "--strict", "story.py", cwd=away, env=path)
         and packages.runs("mypy", "--strict", "server.py", cwd=away, env=path))


def test(folder):
    """Tries the package of a folder."""
    test_made(folder)
    own = python()
    if not own or not has(CC):
        left_out("python: the archive", f"python3 with {', '.join(NEEDED)}" if not own else CC)
        return
    with packages.elsewhere() as away:
        work = f"{away}/sources"
        shutil.copytree(folder, work)
        is_installed = installs(own, work, away)
        tell("python: the archive is compiled and installed from itself alone", is_installed)
        if is_installed:
            shutil.rmtree(work)
            test_installed(own, folder, away)

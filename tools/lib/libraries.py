#!/usr/bin/env python3
"""The libraries that the gate left, and the prover's words for a crate over them.

`rt ci` leaves what it proved in crates/NAME/out/rlib, without the stamp by which rt's other commands would take it, so that they prove all
of it again. `make test` notes the sum of each library, and of what it was made of, once the gate has passed. A tool may build over the
libraries as long as these sums are still the same; where one is not, it proves what it needs by rt.
"""
import functools
import glob
import hashlib
import json
import os
import re
import shutil
import subprocess
import sys

TOP = os.path.dirname(os.path.dirname(os.path.dirname(os.path.realpath(__file__))))
NOTED = f"{TOP}/out/gate.libraries"
PARTS = ("src", "specs", "proofs")
# What the check of a large crate takes: as much was seen of the prover in a run of the gate.
MEMORY = 3_300_000_000


def see_toolchain():
    """Ends where there is no toolchain."""
    if not shutil.which("rt"):
        sys.exit("the toolchain's command rt is missing: README.md says where it comes from")


def command(*words):
    see_toolchain()
    return subprocess.run(words, stdout=subprocess.PIPE, text=True, check=True).stdout.strip()


def numbers_in(file):
    """The numbers of a file of the control group, or none where there is no limit."""
    try:
        with open(f"/sys/fs/cgroup/{file}", encoding="ascii") as it:
            return [int(word) for word in it.read().split()]
    except (OSError, ValueError):
        return []


def room():
    """How many processors there are, and how many bytes of memory are free, within what the control group allows."""
    with open("/proc/meminfo", encoding="ascii") as it:
        free = 1024 * int(re.search(r"MemAvailable:\s+(\d+)", it.read())[1])
    processors, quota = len(os.sched_getaffinity(0)), numbers_in("cpu.max")
    most, held = numbers_in("memory.max"), numbers_in("memory.current")
    if quota:
        processors = min(processors, quota[0] // quota[1])
    if most and held:
        free = min(free, most[0] - held[0])
    return processors, free


def places():
    """How many checks there are processors and memory for."""
    processors, free = room()
    return max(1, min(processors, free // MEMORY))


@functools.lru_cache(None)
def kit():
    """The toolchain's folder, in which the page stands that one reads first."""
    return os.path.dirname(command("rt", "doc"))


@functools.lru_cache(None)
def rows():
    """For each crate of crates.txt, what stands before its colon, and what it uses."""
    with open(f"{TOP}/crates.txt", encoding="utf-8") as it:
        lines = [line.partition("#")[0].partition(":") for line in it]
    return {head.split()[0]: (head.split(), rest.split()) for head, colon, rest in lines if colon}


def below(crate):
    """The libraries of this repository that a crate stands on, each after those that it stands on itself."""
    found = []
    for name in rows()[crate][1]:
        if name in rows():
            found += [it for it in [*below(name), name] if it not in found]
    return found


def sum_of(files, row=""):
    """One sum of files, of their names and of what they hold, and of a text."""
    whole = hashlib.sha256(row.encode())
    for file in files:
        with open(file, "rb") as it:
            whole.update(os.path.relpath(file, TOP).encode() + b"\0" + hashlib.sha256(it.read()).digest())
    return whole.hexdigest()


def files_in(folder):
    return sorted(f"{at}/{name}" for at, _, names in os.walk(folder) for name in names)


def sources():
    """What each crate is made of and judged by, as one sum: its files, its line of crates.txt, and the handles that are allowed."""
    files = {name: [f"{TOP}/HANDLES", *(it for part in PARTS for it in files_in(f"{TOP}/crates/{name}/{part}"))] for name in rows()}
    return {name: sum_of(it, repr(rows()[name])) for name, it in files.items()}


def folder_of(crate):
    return f"{TOP}/crates/{crate}/out/rlib"


def clear():
    """Removes the libraries that there are, so that those that are there after the gate are its own: it puts earlier ones back."""
    for at in (f"{TOP}/crates/*/out/rlib", f"{TOP}/.git/rt-aside/*/rlib"):
        for folder in glob.glob(at):
            shutil.rmtree(folder)


def libraries():
    """The sum of each library that the gate left. One with a stamp is of the session's own checks."""
    left = [it for it in rows() if os.path.isdir(f"{folder_of(it)}/{it}.rlib") and not os.path.exists(f"{folder_of(it)}/stamp")]
    return {name: sum_of(files_in(f"{folder_of(name)}/{name}.rlib")) for name in left}


def state():
    """The toolchain, and the sums of what there is now."""
    return {"toolchain": command("rt", "version"), "sources": sources(), "libraries": libraries()}


def note(made_of):
    """Notes what the gate left, and returns whether all is there and nothing has changed of what it was made of."""
    now = state()
    is_whole = made_of == now["sources"] and all(it in now["libraries"] for crate in rows() for it in below(crate))
    if is_whole:
        with open(NOTED, "w", encoding="utf-8") as it:
            json.dump(now, it)
    return is_whole


def noted():
    """What was noted, or nothing."""
    try:
        with open(NOTED, encoding="utf-8") as it:
            return json.load(it)
    except (OSError, ValueError):
        return None


def are_the_gates(crate):
    """Whether the gate passed this crate as it stands, and whether the libraries below it are those that the gate left."""
    passed = noted()
    return passed is not None and stand(crate, passed, state())


def stand(crate, passed, now):
    """Whether all that the crate stands on now is what passed."""
    lower = below(crate)
    return (
        now["toolchain"] == passed["toolchain"]
        and all(now["sources"][it] == passed["sources"].get(it) for it in [*lower, crate])
        and all(it in now["libraries"] and now["libraries"][it] == passed["libraries"].get(it) for it in lower)
    )


def differing(passed, crate):
    """Notes that each differ from this one in one of the sums that the crate stands on."""
    yield {**passed, "toolchain": ""}
    for part, names in (("sources", [*below(crate), crate]), ("libraries", below(crate))):
        for name in names:
            yield {**passed, part: {**passed[part], name: ""}}


def main(crate):
    """Says whether what was noted stands for a crate, and no note that differs from it does."""
    passed, now = noted(), state()
    return 0 if stand(crate, passed, now) and not any(stand(crate, it, now) for it in differing(passed, crate)) else 1


def prover(what, crate, *flags):
    """The prover's command for a crate over the libraries in out/rlib; it works in the crate's folder, or in a copy of it."""
    head, uses = rows()[crate]
    of_kit = ["std", *(it for it in uses if it not in rows())]
    root = "main" if os.path.isfile(f"{TOP}/crates/{crate}/src/main.rt") else "lib"
    found = [f"{kit()}/bin/rattle", what, "--crate-name", crate, f"src/{root}.rt", "-L", f"dependency={kit()}/rlibs"]
    found += [it for name in of_kit for it in ("--extern", f"{name}={kit()}/rlibs/{name}.rlib")]
    found += [it for name in uses if name in rows() for it in ("--extern", f"{name}={folder_of(name)}/{name}.rlib")]
    found += [it for name in below(crate) for it in ("-L", f"dependency={folder_of(name)}")]
    found += ["--antt-project", f"{kit()}/rattle/logic/antt-project.json", "--logic-built", f"{kit()}/logic_built", "--links", f"{crate}="]
    return [*found, *(["--crate-type", "staticlib"] if "staticlib" in head else []), *flags]


if __name__ == "__main__":
    sys.exit(main(sys.argv[1]))

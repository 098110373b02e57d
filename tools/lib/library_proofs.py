#!/usr/bin/env python3
"""Proves libraries of this repository and leaves them where `rt` looks for them.

    library_proofs.py CRATE         all that a crate stands on
    library_proofs.py CRATE JOBS    one library, by so many jobs, over those below it

`rt` proves a crate's functions some at a time, each time in a process that first loads all that lies below, so that it can keep what is
proved. Here one process loads it once and forks, which takes fewer processor minutes, less memory and less time by the clock. It keeps
nothing for a later `rt check`; so where such work is kept already, here or for the same text in another checkout, `rt` goes on from it.
There are as many jobs as processors and memory for them, at most four: on two processors two, and one where little memory is free.
"""
import importlib.util
import os
import re
import shutil
import subprocess
import sys
import tempfile
import time
from importlib.machinery import SourceFileLoader

sys.dont_write_bytecode = True
from libraries import TOP, below, room, see_toolchain

# The memory of a prover that works alone, and of each job more, which shares nearly all of it: more than was seen.
FIRST, FURTHER = 3_300_000_000, 600_000_000
MOST_JOBS = 4
SECONDS_BETWEEN_LOOKS = 2
SECONDS_BETWEEN_LINES = 60
# How much of the end of a log holds the last line on how far a crate is.
TAIL = 100_000
STARTED = time.monotonic()


def say(text):
    print(f"{int(time.monotonic() - STARTED) // 60:3} min  {text}", file=sys.stderr, flush=True)


# ---- One library ----


def toolchain():
    """What the command `rt` is made of, or nothing where it is made otherwise."""
    sys.path.append(os.path.dirname(os.path.realpath(shutil.which("rt") or "")))
    try:
        import rtlib
    except ImportError:
        return None
    return rtlib


def crate_of(rtlib, name):
    return rtlib.Crate(f"{TOP}/crates/{name}", TOP, {})


def rt_goes_on(crate):
    """Whether rt has work to go on from: what is kept in the crate's folder, or of the same text in another checkout on this machine."""
    if crate.has_kept():
        return True
    loader = SourceFileLoader("rt_command", os.path.realpath(shutil.which("rt")))
    rt = importlib.util.module_from_spec(importlib.util.spec_from_loader(loader.name, loader))
    loader.exec_module(rt)
    stamp = crate.stamp()
    return any(said == stamp and os.path.isdir(f"{place}/out/incremental") for place, said in rt.places_of(crate))


def prove(name, jobs):
    """The status of the prover. The library that it leaves has rt's stamp, so that rt takes it as its own."""
    rtlib = toolchain()
    crate = crate_of(rtlib, name)
    if rt_goes_on(crate):
        os.chdir(crate.folder)
        os.execvp("rt", ["rt", "lib"])
    _held, stamp, folder = rtlib.lock([crate]), crate.stamp(), os.path.dirname(crate.rlib)
    shutil.rmtree(folder, ignore_errors=True)
    os.makedirs(folder)
    status = crate.call(rtlib.RATTLE, "build", *crate.words(["--jobs", jobs], keeps=False), "-o", crate.rlib)
    # (what was edited meanwhile is not what was proved)
    if status == 0 and stamp == crate.stamp():
        with open(f"{folder}/stamp", "w", encoding="utf-8") as it:
            it.write(stamp)
    return status


# ---- All that a crate stands on ----


def unbuilt(name):
    """The libraries below a crate that aren't built, each after those that it stands on; none where only rt knows."""
    rtlib = toolchain()
    return [it for it in below(name) if not crate_of(rtlib, it).is_built()] if rtlib else []


def places():
    """How many jobs there is room for."""
    processors, memory = room()
    return max(1, min(processors, MOST_JOBS, 1 + (memory - FIRST) // FURTHER))


def proving(parent):
    """The crates for which a process has started a prover."""
    for process in filter(str.isdigit, os.listdir("/proc")):
        try:
            with open(f"/proc/{process}/stat", encoding="utf-8", errors="replace") as it:
                # (the name before the parent may hold anything)
                above = int(it.read().rpartition(")")[2].split()[1])
            with open(f"/proc/{process}/cmdline", encoding="utf-8", errors="replace") as it:
                words = it.read().split("\0")
        except OSError:
            continue  # (it has ended)
        if above == parent and "--crate-name" in words:
            yield words[words.index("--crate-name") + 1]


def how_far(log):
    """How many of its functions rt has seen of a crate, by what it said last, where it says that."""
    size = os.fstat(log.fileno()).st_size
    text = os.pread(log.fileno(), TAIL, max(0, size - TAIL)).decode(errors="replace")
    found = re.findall(r"so far: (\d+ of \d+ functions)|^(logic=)", text, re.M)
    return found[-1][0] if found else ""


class Part:
    """A command that proves, and what was told of it. What it says is kept, and shown where it fails."""

    def __init__(self, words, folder, jobs=1):
        self.log, self.jobs, self.told, self.last = tempfile.TemporaryFile(), jobs, [], time.monotonic()
        self.run = subprocess.Popen(words, cwd=folder, stdin=subprocess.DEVNULL, stdout=self.log, stderr=subprocess.STDOUT)

    def tell(self):
        """Tells of each crate that has begun, and each minute how far the one is that began last."""
        crates = [*proving(self.run.pid)]
        for crate in crates:
            if crate not in self.told:
                self.told.append(crate)
                self.last = time.monotonic()
                say(crate)
        if crates and time.monotonic() - self.last >= SECONDS_BETWEEN_LINES:
            self.last = time.monotonic()
            say(f"{crates[-1]}: {how_far(self.log) or 'still at it'}")

    def has_ended(self):
        self.tell()
        return self.run.poll() is not None

    def is_well(self):
        """Whether it has ended well; else it shows what was said."""
        if self.run.returncode:
            self.log.seek(0)
            sys.stdout.buffer.write(self.log.read())
        return not self.run.returncode


def succeeds(words, folder):
    """Whether a command that proves ends well; what it proves is told meanwhile."""
    part = Part(words, folder)
    while not part.has_ended():
        time.sleep(SECONDS_BETWEEN_LOOKS)
    return part.is_well()


def began(ready, free):
    """The libraries that begin now, by the jobs that are free: the first, on which most stands, gets all but one for each other."""
    begin = ready[:free]
    for crate in begin:
        jobs = free - len(begin) + 1 if crate == begin[0] else 1
        yield crate, Part([sys.executable, os.path.realpath(__file__), crate, str(jobs)], TOP, jobs)


def proves_below(name):
    """Whether what a crate stands on is proved; each library begins as soon as those are that it stands on itself."""
    waiting, running, most = unbuilt(name), {}, places()
    try:
        while waiting or running:
            ready = [it for it in waiting if not {*below(it)} & {*waiting, *running}]
            running.update(began(ready, most - sum(it.jobs for it in running.values())))
            waiting = [it for it in waiting if it not in running]
            time.sleep(SECONDS_BETWEEN_LOOKS)
            ended = [it for it, part in running.items() if part.has_ended()]
            if not all([running.pop(it).is_well() for it in ended]):
                return False
        return True
    finally:
        for it in running.values():
            it.run.terminate()


def main(words):
    see_toolchain()
    if len(words) == 2:
        return prove(*words)
    return 0 if proves_below(*words) else 1


if __name__ == "__main__":
    try:
        sys.exit(main(sys.argv[1:]))
    except KeyboardInterrupt:
        sys.exit(130)

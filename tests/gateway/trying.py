"""How the tests of the gateway are tried: one after the other, counted as they go; on this machine's own system or on all; in a network of
their own, where one can be made; and by a module that is started by itself. What is left out is told, and why."""
import os
import shutil
import subprocess
import sys

from systems import SYSTEM, Windows

INSIDE = "--inside"  # the word by which a module is started in the network of its own


def fault_of(test):
    """What is wrong by a test, in words; empty where it passes."""
    try:
        test()
    except Exception as fault:  # (of whatever kind: the tests behind it are run too)
        return f"{type(fault).__name__}: {fault}"
    return ""


class Counts:
    """What went well and what didn't, told as it happens."""

    def __init__(self, passed=0, failed=0):
        self.passed, self.failed = passed, failed

    def run(self, test):
        """Runs a test: a function whose name and first line tell what it shows. One that fails is told, and run once more, which counts: a machine
        with much else to do may spoil any."""
        name = test.__doc__.splitlines()[0].rstrip(".")
        if fault := fault_of(test):
            print(f"again   gateway: {name}\n        {fault}", flush=True)
            fault = fault_of(test)
        if fault:
            self.failed += 1
            print(f"FAILED  gateway: {name}\n        {fault}", flush=True)
        else:
            self.passed += 1
            print(f"ok      gateway: {name}", flush=True)

    def __add__(self, other):
        return Counts(self.passed + other.passed, self.failed + other.failed)

    def __str__(self):
        return f"{self.passed} passed, {self.failed} failed"


def left_out(what, why):
    print(f"left out: gateway: {what} ({why})", flush=True)


def figures(what):
    """A line for what a test measured."""
    print(f"        {what}", flush=True)


def named(name, test, *words, **values):
    """A test with a name of its own, and what it tries."""
    def it():
        test(*words, **values)

    it.__doc__ = name
    return it


def tried(*tests):
    """What tests count, run one after the other."""
    counts = Counts()
    for test in tests:
        counts.run(test)
    return counts


def can(test):
    """Whether a thing can be done here."""
    try:
        test()
    except (AssertionError, OSError):
        return False
    return True


def has_linux(what, why="it is Linux' own"):
    """Whether the system is a Linux, on whatever processor. Where it isn't, what is left out is told."""
    if SYSTEM is Windows:
        left_out(what, why)
    return SYSTEM is not Windows


def way_inside(what):
    """The words before a command that runs in a network of its own; None where none can be made, which is told."""
    missing = [it for it in ("ip", "unshare", "nsenter") if not shutil.which(it)]
    if missing:
        left_out(what, f"no {missing[0]}")
        return None
    # (root needs no other user; who isn't is root in a namespace of his own)
    for way in ["unshare", "-n"], ["unshare", "-rn"]:
        if subprocess.run([*way, "true"], stderr=subprocess.DEVNULL, check=False).returncode == 0:
            return way
    left_out(what, "no network of the test's own can be made")
    return None


def all_but_last(run):
    """Passes on what a program says, as it says it. Returns its last line."""
    last = ""
    for line in run.stdout:
        print(last, end="", flush=True)
        last = line
    return last


def tried_inside(script, what):
    """What a module counts that is started in a network of its own, where one can be made."""
    way = way_inside(what)
    if way is None:
        return Counts()
    with subprocess.Popen([*way, sys.executable, os.path.realpath(script), INSIDE], stdout=subprocess.PIPE, text=True) as run:
        words = all_but_last(run).split()
    return Counts(int(words[0]), int(words[2])) if len(words) == 4 else Counts(0, 1)


def tried_on_own_system(script, what):
    """The same of what is tried on this machine's own system alone."""
    if SYSTEM.name == "Linux":
        return tried_inside(script, what)
    left_out(what, "tried on this machine's own system alone")
    return Counts()


def begin(main, inside=None):
    """A module that was started by itself tries what it has, or by the word INSIDE what wants a network of its own. Its last line is
    'N passed, M failed'."""
    counts = inside() if inside and sys.argv[1:] == [INSIDE] else main()
    print(counts)
    sys.exit(counts.failed > 0)

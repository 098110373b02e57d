#!/usr/bin/env python3
"""What each target of the Makefile takes, as it says at its start and as docs/LIBRARY.md tells it: takes.py TARGET WHAT.. says it of WHAT.

Processor minutes, and minutes by the clock on four cores, from a clean clone or after the targets that are named: where these aren't made,
they come on top. Where nothing has changed since, it takes seconds.
"""
import os
import sys
from typing import NamedTuple

sys.dont_write_bytecode = True
sys.path.insert(1, os.path.dirname(os.path.realpath(__file__)))
from telling import say


class Takes(NamedTuple):
    """Minutes, and what must be made before."""

    processor: str
    clock: str
    after: str = ""


TAKES = {
    "run": Takes("64", "22"),
    "show": Takes("6", "2"),
    "embed": Takes("13", "6", "make run"),
    "gateway": Takes("13", "6", "make run"),
    "wasm": Takes("2", "2", "make run and make embed"),
    "page": Takes("2", "2", "make run and make embed"),
    "web": Takes("1", "1", "make embed"),
    "portable": Takes("2", "2", "make run"),
    "library": Takes("2", "2", "make embed"),
    "packages": Takes("1", "1", "make library"),
    "arm": Takes("2", "2", "make portable and make library"),
    "aarch64": Takes("4", "3", "make run and make embed"),
    "windows": Takes("3", "3", "make run and make embed"),
    "test": Takes("141", "45"),
    "bench": Takes("10", "10", "make run and make gateway"),
    "dist": Takes("20", "15", "make test"),
}


def words_of(target):
    """As in '12 processor minutes, 5 by the clock on four cores, after make run'."""
    it = TAKES[target]
    return f"{it.processor} processor minutes, {it.clock} by the clock on four cores" + (f", after {it.after}" if it.after else "")


def begins(target, what):
    """The first line of a target: what it does, and what that takes."""
    say(f"{what}: {words_of(target)}")


if __name__ == "__main__":
    begins(sys.argv[1], " ".join(sys.argv[2:]))

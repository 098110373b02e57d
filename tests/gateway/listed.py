"""The list of cards, `ipxr-gateway --cards`, in a network of the test's own."""
import contextlib
import os
import re
import subprocess

from cards import own_address
from lab import LIMIT, until
from spaces import ip
from systems import SYSTEM, Windows
from trying import Counts, begin, left_out, tried, tried_inside

ROW = re.compile(r"(\S+) +(up|off|no carrier) +([0-9A-F]{12}) (.+)")
ODD = {  # names, and how they are shown
    "größe0": "größe0",
    "a\x1b[31mb": r"a\x1B[31mb",
    "c\\d": r"c\x5Cd",
    "e#f": "e#f",
    os.fsdecode(b"g\xff\x80h"): r"g\xFF\x80h",
    os.fsdecode(b"i\xc0\xafj"): r"i\xC0\xAFj",
    "k\u202el": r"k\xE2\x80\xAEl",
    "m\u3164n": r"m\xE3\x85\xA4n",
    "o\u17b4p": r"o\xE1\x9E\xB4p",
}
TYPED = {"größe0"}  # of these, what a configuration can name


def listed():
    """The rows of the list, by the name that is shown: word, state and address."""
    run = subprocess.run([*SYSTEM.quick, SYSTEM.program, "--cards"], capture_output=True, timeout=LIMIT, check=False)
    assert run.returncode == 0 and not run.stderr, run
    lines = run.stdout.decode().splitlines()
    if lines == ["there are no Ethernet cards"]:
        return {}
    assert lines[0].split() == ["INTERFACE", "STATE", "ADDRESS", "NAME"], lines
    rows = [ROW.fullmatch(it) for it in lines[1:]]
    assert all(rows), lines
    return {it[4]: it.groups()[:3] for it in rows}


@contextlib.contextmanager
def paired(near, far):
    """A pair of cards for a while, switched off."""
    ip("link", "add", near, "type", "veth", "peer", "name", far)
    try:
        yield
    finally:
        ip("link", "del", near)


def becomes(**wanted):
    """Waits until the list has these and no others: a system may take a moment to know of a carrier."""
    until(lambda: listed() == wanted, f"the list {wanted}, but {listed()}")


def states():
    """--cards lists the cards that are Ethernet, with their states and addresses."""
    becomes()
    with paired("v0", "v1"):
        v0, v1 = (own_address(it).hex().upper() for it in ("v0", "v1"))
        becomes(v0=("v0", "off", v0), v1=("v1", "off", v1))
        ip("link", "set", "v0", "up")
        becomes(v0=("v0", "no carrier", v0), v1=("v1", "off", v1))
        ip("link", "set", "v1", "up")
        becomes(v0=("v0", "up", v0), v1=("v1", "up", v1))


def odd_names():
    """Names are shown without a byte that a terminal obeys, letters as they are; what a configuration can't name has no word."""
    for name, shown in ODD.items():
        with paired("near", "far"):
            ip("link", "set", "far", "name", name)
            found = {it: word for it, (word, _, _) in listed().items() if it != "near"}
            assert found == {shown: name if name in TYPED else "-"}, (name, found)


def none_at_all():
    """Where the gateway has no interfaces, --cards says so."""
    run = subprocess.run([*SYSTEM.quick, SYSTEM.program, "--cards"], capture_output=True, timeout=LIMIT, check=False)
    assert (run.returncode, run.stdout, run.stderr) == (0, b"the gateway has no interfaces on this system\n", b""), run


def inside():
    """In the network of its own."""
    return tried(states, odd_names)


def main():
    if SYSTEM is Windows:
        return Counts()  # (npcap.py tries it)
    if not SYSTEM.has_cards:
        return tried(none_at_all)
    if SYSTEM.is_emulated:
        left_out("the list of cards", f"{SYSTEM.runner[0]} may not hand on all that is asked for it")
        return Counts()
    return tried_inside(__file__, "the list of cards")


if __name__ == "__main__":
    begin(main, inside)

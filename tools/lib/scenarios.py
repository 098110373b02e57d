"""The scenarios of tests/conformance, and the answers kept beside them.

A scenario is a script of `ipxr replay` with the commands port, start, in and second. NAME.out has, in the form of transcripts, each of its
events behind '> ', and below it what the router answers then.
"""
import glob
import os
import re
from typing import NamedTuple

TOP = os.path.dirname(os.path.dirname(os.path.dirname(os.path.realpath(__file__))))
FOLDER = f"{TOP}/tests/conformance"
SECTIONS = ("answers", "forwarding", "type-20", "learning", "slow")
SLOW = "slow"
TYPED = "> "


class Wrong(Exception):
    """What is wrong with a scenario, or with the answers kept beside it."""


class Port(NamedTuple):
    """A port of the router: its network, the node that stands for the router there, the ticks to cross the network, and the longest packet."""

    network: bytes
    node: bytes
    cost: int
    longest: int


class Sent(NamedTuple):
    """A packet that the router sends: the port, the node that it goes to there, and its bytes."""

    port: int
    node: bytes
    bytes: bytes


class Event(NamedTuple):
    """An event of a scenario: where it stands, its words, the packet as its comment tells it, and the lines that answer it."""

    line: int
    words: list
    told: str
    answers: list

    def sent(self):
        """The packets that a router sends then."""
        found = (it.split() for it in self.answers if it.startswith("out "))
        return [Sent(int(port), bytes.fromhex(node), bytes.fromhex(packet)) for _, port, node, packet in found]


class Scenario(NamedTuple):
    """What is tried: its section and name, what it tries, the router's ports, and what happens."""

    section: str
    name: str
    about: str
    ports: list
    events: list

    def title(self):
        return f"{self.section}/{self.name}"

    def packets(self):
        """All packets that come or are sent in it."""
        for event in self.events:
            if event.words[0] == "in":
                yield bytes.fromhex(event.words[2])
            yield from (it.bytes for it in event.sent())


def text_of(file):
    with open(file, encoding="ascii") as it:
        return it.read()


def files():
    """The script of each scenario, in the order of the sections."""
    return [file for section in SECTIONS for file in sorted(glob.glob(f"{FOLDER}/{section}/*.script"))]


def kept_file(file):
    return file.removesuffix(".script") + ".out"


def port_of(line, words):
    if len(words) != 5:
        raise Wrong(f"line {line}: expected port NET NODE COST LONGEST")
    return Port(bytes.fromhex(words[1]), bytes.fromhex(words[2]), int(words[3]), int(words[4]))


def read(text):
    """What a script says: what it tries, its ports, and its events with no answers yet."""
    about, ports, events, told = [], [], [], ""
    for line, content in enumerate(text.splitlines(), 1):
        words = content.split()
        if content.startswith("# packet "):
            told = content.removeprefix("# packet ")
        elif content.startswith("#") and not ports:
            about.append(content.lstrip("# "))
        elif words and words[0] == "port":
            ports.append(port_of(line, words))
        elif words and words[0] in ("start", "in", "second"):
            events.append(Event(line, words, told, []))
            told = ""
        elif words and not content.startswith("#"):
            raise Wrong(f"line {line}: a scenario has the commands port, start, in and second")
    return " ".join(about), ports, events


def answered(text):
    """The events that kept answers name, each with the lines below it."""
    found = []
    for content in text.splitlines():
        if content.startswith(TYPED):
            found.append((content.removeprefix(TYPED).split(), []))
        elif not found:
            raise Wrong("the kept answers begin with no event")
        else:
            found[-1][1].append(content)
    return found


def load(file):
    """A scenario with its answers."""
    section, name = re.fullmatch(r".*/([^/]+)/([^/]+)\.script", file).groups()
    about, ports, events = read(text_of(file))
    found = answered(text_of(kept_file(file)))
    if [it.words for it in events] != [words for words, _ in found]:
        raise Wrong(f"{section}/{name}: the kept answers are of another script (dev/conformance make)")
    return Scenario(section, name, about, ports, [it._replace(answers=lines) for it, (_, lines) in zip(events, found)])

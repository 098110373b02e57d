"""What a gateway decides about its cables: kinds of frames, links that are one cable, ranges of addresses, what goes out one by one, two
machines with one node, who is asked again, and the gateway's own node."""
from __future__ import annotations

from ctypes import byref, c_uint8
from typing import NamedTuple, Optional, Sequence, Union

from . import raw
from ._library import calls
from .limits import byte
from .numbers import Probe
from .text import Node, NodeLike
from .values import Bytes, four, six, time_of

HostLike = Union[str, Bytes, Sequence[int]]


class Kinds:
    """In which kinds of frames a cable speaks, where stations may use any. The hash of a node is yours: a keyed one."""

    def __init__(self) -> None:
        self.state = raw.ipxr_kinds()

    def second(self) -> None:
        """A second passes."""
        calls.ipxr_kinds_second(byref(self.state))

    def hear(self, hashed: int, node: NodeLike, kind: int, is_for_all: bool) -> bool:
        """A station says a packet in a kind, to a node or to all. Returns whether that counts."""
        of = time_of(hashed, "the hash"), six(Node(node)), byte(kind, "the kind"), bool(is_for_all)
        return calls.ipxr_kinds_hear(byref(self.state), *of)

    def of(self, hashed: int, node: NodeLike) -> int:
        """The kind that a station uses, or NO_FRAME."""
        return calls.ipxr_kinds_of(byref(self.state), time_of(hashed, "the hash"), six(Node(node)))

    def is_used(self, kind: int) -> bool:
        """Whether a kind was heard within the last hour."""
        return calls.ipxr_kinds_is_used(byref(self.state), byte(kind, "the kind"))

    def speaks(self, hashed: int, node: NodeLike, kind: int) -> bool:
        """Whether a packet for a node, or for all, goes out in a kind."""
        of = time_of(hashed, "the hash"), six(Node(node)), byte(kind, "the kind")
        return calls.ipxr_kinds_speaks(byref(self.state), *of)


class Loop:
    """Whether a link is shut, since it is one cable with another."""

    def __init__(self) -> None:
        self.state = raw.ipxr_loop()

    def second(self) -> bool:
        """A second passes. Returns whether it opens by that."""
        return calls.ipxr_loop_second(byref(self.state))

    @property
    def left(self) -> int:
        """Seconds for which it is shut, unless a probe comes; 0 where it is open."""
        return self.state.left


def probe(here: int, there: int, sent: int, now: int, at_here: Loop, at_there: Loop) -> Probe:
    """A probe comes on link `here` that link `there` sent in second `sent`. Both links have a Loop."""
    if at_here is at_there:
        raise ValueError("the two links have one Loop")
    of = byte(here, "the link"), byte(there, "the other link"), time_of(sent), time_of(now)
    return Probe(calls.ipxr_loop_probe(*of, byref(at_here.state), byref(at_there.state)))


class Range(NamedTuple):
    """All addresses that begin with the same bits as the host."""

    host: HostLike
    bits: int = 32

    def struct(self) -> raw.ipxr_range:
        return raw.ipxr_range(four(self.host), byte(self.bits, "the bits"))


def ranges_have(ranges: Sequence[Range], host: HostLike) -> bool:
    """Whether an address is in one of these ranges."""
    structs = (raw.ipxr_range * max(len(ranges), 1))(*(Range(*it).struct() for it in ranges))
    return calls.ipxr_ranges_have(structs, len(ranges), four(host))


def is_first_of_range(it: Range) -> bool:
    """Whether a range's own address is the first of it."""
    return calls.ipxr_range_is_first(byref(Range(*it).struct()))


class Pace:
    """How fast things go out that wait for each other. Times are nanoseconds."""

    def __init__(self) -> None:
        self.state = raw.ipxr_pace()

    def more_wait(self, waiting: int, between: int, now: int) -> None:
        """So many wait now, which go so many nanoseconds apart."""
        calls.ipxr_pace_more_wait(byref(self.state), time_of(waiting, "how many wait"), time_of(between), time_of(now))

    def lets_go(self, waiting: int, now: int) -> bool:
        """Whether the first of so many that wait goes now."""
        return calls.ipxr_pace_lets_go(byref(self.state), time_of(waiting, "how many wait"), time_of(now))


class Twins:
    """The nodes of a network that are watched, since two machines may have one."""

    def __init__(self) -> None:
        self.state = raw.ipxr_twins()

    def hear(self, node: NodeLike, link: int, second: int) -> Optional[int]:
        """A node is heard on a link in a second: its link before, if it must be told that it moves to and fro."""
        before = c_uint8()
        of = six(Node(node)), byte(link, "the link"), time_of(second)
        return before.value if calls.ipxr_twins_hear(byref(self.state), *of, byref(before)) else None


class Asks:
    """When the next of many is asked again. Times are nanoseconds."""

    def __init__(self) -> None:
        self.state = raw.ipxr_asks()

    def are_due(self, now: int) -> bool:
        """Whether somebody may have to be asked now."""
        return calls.ipxr_asks_are_due(byref(self.state), time_of(now))

    def patience(self, most: int, now: int) -> int:
        """Milliseconds until then, at most so many."""
        return calls.ipxr_asks_patience(byref(self.state), time_of(most), time_of(now))


class Asked:
    """Somebody who was asked."""

    def __init__(self) -> None:
        self.state = raw.ipxr_asked()

    def ask(self, everybody: Asks, now: int, number: int) -> None:
        """He is asked now, and again later, as the number says: one that nobody else can tell."""
        calls.ipxr_asked_ask(byref(self.state), byref(everybody.state), time_of(now), time_of(number))

    def answer(self) -> None:
        """He answers."""
        calls.ipxr_asked_answer(byref(self.state))

    def is_due(self, everybody: Asks, now: int) -> bool:
        """Whether he is to be asked again now."""
        return calls.ipxr_asked_is_due(byref(self.state), byref(everybody.state), time_of(now))


def choose_node(*, is_tunnel: bool, hashed: int, is_of_several: bool = False, said: Optional[NodeLike] = None,
                card: NodeLike = bytes(6)) -> Node:
    """The gateway's own node on a network."""
    node = six(bytes(6))
    flags = bool(is_tunnel), bool(is_of_several), said is not None
    nodes = six(Node(bytes(6) if said is None else said)), six(Node(card))
    calls.ipxr_node_choose(*flags, *nodes, time_of(hashed, "the hash"), node)
    return Node(bytes(node))

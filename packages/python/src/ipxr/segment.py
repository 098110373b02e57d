"""One network over several links. An event returns which links get its packet."""
from __future__ import annotations

from ctypes import byref, c_uint8
from typing import NamedTuple

from . import raw
from ._library import calls
from .numbers import LinkKind
from .packets import struct_of
from .text import AddressLike, Node, NodeLike, whole
from .values import Handle, judged, listed, packed, six

BYTE, SHORT = 0xFF, 0xFFFF


class Link(NamedTuple):
    """A link: what it is, and the most stations of it that are known at one time."""

    kind: LinkKind
    share: int


class Station(NamedTuple):
    """A station that is known: where it is, whether it came to a sure link, and for how many seconds it is known otherwise."""

    node: Node
    link: int
    is_sure: bool
    seconds_left: int


class HeardBySegment(NamedTuple):
    """Whether the router hears a packet, and the links that get it."""

    is_heard: bool
    receivers: list[int]


def _link(link: int) -> int:
    return whole(link, BYTE, "the link")


class Segment(Handle):
    """A segment of a network, with the router's node there. Its links have numbers from 0, and are down at first."""

    def __init__(self, network: int | str, node: NodeLike, links: int, capacity: int = 1024) -> None:
        values = {"network": network, "node": node, "links": links, "capacity": capacity}
        setting = packed(raw.ipxr_segment_setting, "the setting", values)
        super().__init__(raw.ipxr_segment(), calls.ipxr_segment_free)
        judged(calls.ipxr_segment_make(self.handle, byref(setting)))

    def __enter__(self) -> Segment:
        return self

    def __exit__(self, *_: object) -> None:
        self.free()

    def change(self, link: int, kind: LinkKind, share: int) -> None:
        """A link goes up or down, or changes: what it is then, and the most stations of it that are known at one time, 0 if it is down. Its
        stations are forgotten in any case."""
        to = packed(raw.ipxr_link, "the link", {"kind": kind, "share": share})
        judged(calls.ipxr_segment_change(self.handle, _link(link), byref(to)))

    def hear(self, link: int, source: NodeLike, destination: NodeLike) -> HeardBySegment:
        """A packet was heard at a link, from a node for a node, or for all."""
        ends = six(Node(source, "the source")), six(Node(destination, "the destination"))
        heard = judged(calls.ipxr_segment_hear(self.handle, _link(link), *ends))
        return HeardBySegment(heard == 1, self._receivers())

    def come(self, link: int, node: NodeLike) -> None:
        """A node came to a sure link."""
        judged(calls.ipxr_segment_come(self.handle, _link(link), six(Node(node))))

    def leave(self, link: int, node: NodeLike) -> None:
        """A node left a link."""
        judged(calls.ipxr_segment_leave(self.handle, _link(link), six(Node(node))))

    def second(self) -> None:
        """A second has passed."""
        judged(calls.ipxr_segment_second(self.handle))

    def send(self, node: NodeLike) -> list[int]:
        """The router sends a packet on the segment's network to a node, or to all: the links that get it."""
        judged(calls.ipxr_segment_send(self.handle, six(Node(node))))
        return self._receivers()

    def stations(self) -> list[Station]:
        """Its stations, in the order in which they came to their links."""
        it = raw.ipxr_station()
        return listed(calls.ipxr_segment_stations(self.handle), lambda k: calls.ipxr_segment_station(self.handle, k, byref(it)),
                      lambda: Station(Node(bytes(it.node)), it.link, it.is_sure, it.seconds_left))

    def link(self, link: int) -> Link:
        """What a link is."""
        it = raw.ipxr_link()
        judged(calls.ipxr_segment_link(self.handle, _link(link), byref(it)))
        return Link(LinkKind(it.kind), it.share)

    def next_node(self, destination: AddressLike) -> Node:
        """The node that a packet with that destination goes to, if no frame says it."""
        it = six(bytes(6))
        judged(calls.ipxr_segment_next_node(self.handle, byref(struct_of(destination, "the destination")), it))
        return Node(bytes(it))

    def _receivers(self) -> list[int]:
        it = c_uint8()
        return listed(calls.ipxr_segment_receivers(self.handle), lambda k: calls.ipxr_segment_receiver(self.handle, k, byref(it)),
                      lambda: it.value)

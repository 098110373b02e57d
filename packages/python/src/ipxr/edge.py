"""What a packet passes between a cable and the router's port on it. What a call changes of a packet is a copy."""
from __future__ import annotations

from ctypes import byref, c_size_t, c_uint32, create_string_buffer
from typing import Any, Optional, Sequence

from . import raw
from ._library import calls
from .numbers import MOST_RULES, Way
from .packets import RouteEntry, ServiceEntry, routes_of, services_of, written
from .router import Port
from .text import Node, NodeLike, whole
from .values import Bytes, judged, packed, packed_list, six

BYTE, SHORT = 0xFF, 0xFFFF


def rule(**values: Any) -> raw.ipxr_rule:
    """A rule of a filter, by the fields of ipxr_rule. What isn't given is 0; `from_` is the first network of a range."""
    return packed(raw.ipxr_rule, "the rule", values)


class Edge:
    """The edge of a port, which is given as for a router."""

    def __init__(self, port: Port) -> None:
        self._port = Port(*port).struct()

    def _changed(self, call: Any, packet: Bytes) -> tuple[int, bytes]:
        """What a call answers, and what it left of a packet."""
        room = create_string_buffer(bytes(packet), max(len(packet), 1))
        answer = judged(call(byref(self._port), room, len(packet)))
        return answer, room.raw[: len(packet)]

    def enter(self, packet: Bytes) -> Optional[bytes]:
        """A packet comes in from the cable: the packet with its numbers filled in, or None where it is held."""
        answer, left = self._changed(calls.ipxr_edge_enter, packet)
        return left if answer == 1 else None

    def is_held(self, packet: Bytes) -> bool:
        """Whether it is held: it is for RIP or SAP on the port's network, and came through a router."""
        return judged(calls.ipxr_edge_is_held(byref(self._port), bytes(packet), len(packet))) == 1

    def number(self, packet: Bytes) -> bytes:
        """The packet with the port's network in the place of 0, held or not."""
        return self._changed(calls.ipxr_edge_number, packet)[1]

    def filter(self, way: Way, rules: Sequence[raw.ipxr_rule], packet: Bytes) -> Optional[bytes]:
        """What passes of a packet by these rules, on its way in or out; None if nothing does."""
        listed, count = packed_list(raw.ipxr_rule, rules, MOST_RULES)
        passes, number = c_size_t(), whole(way, BYTE, "the way")
        answer, left = self._changed(
            lambda port, room, length: calls.ipxr_edge_filter(number, port, listed, count, room, length, byref(passes)), packet)
        return left[: passes.value] if answer == 1 else None

    def claim(self, packet: Bytes) -> Optional[int]:
        """The number that a neighbour claims for the cable by a packet from there, if it isn't the port's."""
        network = c_uint32()
        answer = judged(calls.ipxr_edge_claim(byref(self._port), bytes(packet), len(packet), byref(network)))
        return network.value if answer == 1 else None

    def is_needless(self, hops: int, packet: Bytes) -> bool:
        """Whether a packet that goes out answers a query for the nearest service, and names none that is nearer than `hops`."""
        number = whole(hops, SHORT, "the hops")
        return judged(calls.ipxr_edge_is_needless(byref(self._port), number, bytes(packet), len(packet))) == 1

    def write_routes(self, node: NodeLike, routes: Sequence[RouteEntry]) -> bytes:
        """A response of routes as if the node had sent it to all routers there: hand it to the router each minute."""
        listed, count = routes_of(routes)
        of = byref(self._port), six(Node(node)), listed, count
        return written(lambda room, size: calls.ipxr_edge_write_routes(*of, room, size))

    def write_services(self, node: NodeLike, services: Sequence[ServiceEntry]) -> bytes:
        """The same of services."""
        listed, count = services_of(services)
        of = byref(self._port), six(Node(node)), listed, count
        return written(lambda room, size: calls.ipxr_edge_write_services(*of, room, size))

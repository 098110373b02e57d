"""A router: events come in, packets to be sent come out."""
from __future__ import annotations

from ctypes import byref, create_string_buffer
from typing import NamedTuple, Sequence, Union

from . import raw
from ._library import calls
from .numbers import NO_LIMIT, Drop, Outcome
from .text import Address, Node, NodeLike, whole
from .values import Bytes, Handle, judged, listed, outcome_of, packed, packed_list, text_of

BYTE, MOST_BYTES = 0xFF, 65535


class Port(NamedTuple):
    """A port: the number of its network and its node there, ticks to cross the network, bytes of the longest packet, shares of the
    tables."""

    network: Union[int, str]
    node: NodeLike
    cost: int = 1
    longest: int = 576
    routes: int = NO_LIMIT
    services: int = NO_LIMIT

    def struct(self, what: str = "the port") -> raw.ipxr_port:
        return packed(raw.ipxr_port, what, self._asdict())


class Packet(NamedTuple):
    """A packet that is to be sent: the port, the node of the next hop on that port's network, or the broadcast, and the bytes."""

    port: int
    node: Node
    data: bytes


class Happened(NamedTuple):
    """What became of an event, or why it was dropped; and what is to be sent, in this order."""

    outcome: Union[Outcome, Drop]
    sent: list[Packet]


class Route(NamedTuple):
    """A route that was learned: where it leads, by what way, the neighbour that advertised it, the port, and its age in seconds."""

    network: int
    hops: int
    ticks: int
    node: Node
    port: int
    age: int


class Service(NamedTuple):
    """A service that was learned."""

    name: str
    address: Address
    type: int
    hops: int
    neighbour: Node
    port: int
    age: int


class Router(Handle):
    """A router of some ports, which are numbered from 0. It is stopped at first, and its tables are empty."""

    def __init__(self, ports: Sequence[Port]) -> None:
        listed_ports, count = packed_list(raw.ipxr_port, [Port(*it).struct(f"port {k}") for k, it in enumerate(ports)], raw.IPXR_MOST_PORTS)
        super().__init__(raw.ipxr(), calls.ipxr_free)
        judged(calls.ipxr_make(self.handle, listed_ports, count))

    def __enter__(self) -> Router:
        return self

    def __exit__(self, *_: object) -> None:
        self.free()

    def start(self) -> Happened:
        """Starts it. All ports are up."""
        return self._happened(calls.ipxr_start(self.handle))

    def stop(self) -> Happened:
        """Stops it. What it learned is forgotten, and advertised as unreachable."""
        return self._happened(calls.ipxr_stop(self.handle))

    def second(self) -> Happened:
        """A second has passed."""
        return self._happened(calls.ipxr_second(self.handle))

    def packet(self, port: int, data: Bytes) -> Happened:
        """A packet arrived on a port: the IPX packet from its checksum on, any bytes at all."""
        return self._happened(calls.ipxr_packet(self.handle, whole(port, BYTE, "the port"), bytes(data), len(data)))

    def port_down(self, port: int) -> Happened:
        """A port lost its link."""
        return self._happened(calls.ipxr_port_down(self.handle, whole(port, BYTE, "the port")))

    def port_up(self, port: int) -> Happened:
        """A port has its link again."""
        return self._happened(calls.ipxr_port_up(self.handle, whole(port, BYTE, "the port")))

    @property
    def is_running(self) -> bool:
        return judged(calls.ipxr_is_running(self.handle)) == 1

    def is_up(self, port: int) -> bool:
        """Whether the router runs and the port is up."""
        return judged(calls.ipxr_is_up(self.handle, whole(port, BYTE, "the port"))) == 1

    def routes(self) -> list[Route]:
        """What it knows, by network."""
        it = raw.ipxr_route_record()
        return listed(calls.ipxr_routes(self.handle), lambda k: calls.ipxr_route(self.handle, k, byref(it)),
                      lambda: Route(it.network, it.hops, it.ticks, Node(bytes(it.node)), it.port, it.age))

    def services(self) -> list[Service]:
        """What it knows, by type and name."""
        it = raw.ipxr_service_record()
        return listed(calls.ipxr_services(self.handle), lambda k: calls.ipxr_service(self.handle, k, byref(it)),
                      lambda: Service(text_of(it.name), Address(it.network, Node(bytes(it.node)), it.socket), it.type, it.hops,
                                      Node(bytes(it.neighbour)), it.port, it.age))

    def _happened(self, answer: int) -> Happened:
        """What became of an event, with the packets that it sent, which are then taken out."""
        outcome = outcome_of(answer)
        sent = [self._packet(k) for k in range(calls.ipxr_sent(self.handle))]
        calls.ipxr_clear(self.handle)
        return Happened(outcome, sent)

    def _packet(self, index: int) -> Packet:
        told, room = raw.ipxr_packet_sent(), create_string_buffer(MOST_BYTES)
        judged(calls.ipxr_get(self.handle, index, byref(told), room, MOST_BYTES))
        return Packet(told.port, Node(bytes(told.node)), room.raw[: told.length])

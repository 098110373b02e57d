"""Packets and frames of your own, without a router: written by the library, and read."""
from __future__ import annotations

from ctypes import byref, c_size_t, create_string_buffer
from typing import Any, Callable, NamedTuple, Optional, Sequence, Union

from . import raw
from ._library import calls
from .numbers import LONGEST_FRAME, PACKET_ROUTES, PACKET_SERVICES, Frame, Rip
from .text import Address, AddressLike, Node, NodeLike, address, whole
from .values import Bytes, judged, packed, packed_list, six, text_of

HEADER, MOST_BYTES, BYTE, SHORT = 30, 65535, 0xFF, 0xFFFF
ENTRY_OF_RIP, ENTRY_OF_SAP = 8, 64


class RouteEntry(NamedTuple):
    """A route of a packet. In a request FFFFFFFFh asks for all, and hops and ticks are FFFFh."""

    network: Union[int, str]
    hops: int
    ticks: int

    def struct(self, what: str) -> raw.ipxr_route_entry:
        return packed(raw.ipxr_route_entry, what, self._asdict())


class ServiceEntry(NamedTuple):
    """A service of a packet: its name of 1 to 47 characters, where it is offered, its type, and routers on the way: 1 of a server's own."""

    name: str
    address: AddressLike
    type: int
    hops: int = 1

    def struct(self, what: str) -> raw.ipxr_service_entry:
        where = address(self.address, f"the address of {what}")
        return packed(raw.ipxr_service_entry, what, {"name": self.name, **where._asdict(), "type": self.type, "hops": self.hops})


ALL_ROUTES = RouteEntry(0xFFFFFFFF, SHORT, SHORT)


def struct_of(it: AddressLike, what: str) -> raw.ipxr_address:
    return packed(raw.ipxr_address, what, address(it, what)._asdict())


def routes_of(routes: Sequence[RouteEntry]) -> tuple[Any, int]:
    """Routes for a call, and how many."""
    return packed_list(raw.ipxr_route_entry, [RouteEntry(*it).struct(f"route {k}") for k, it in enumerate(routes)], PACKET_ROUTES)


def services_of(services: Sequence[ServiceEntry]) -> tuple[Any, int]:
    """Services for a call, and how many."""
    return packed_list(raw.ipxr_service_entry, [ServiceEntry(*it).struct(f"service {k}") for k, it in enumerate(services)], PACKET_SERVICES)


def written(call: Callable[[Any, int], int]) -> bytes:
    """What a call wrote into the room that it was lent."""
    room = create_string_buffer(MOST_BYTES)
    length = judged(call(room, MOST_BYTES))
    return room.raw[:length]


def write_rip(source: AddressLike, to: AddressLike, operation: Rip, routes: Sequence[RouteEntry]) -> bytes:
    """A request or a response of routing information, of 1 to 50 routes."""
    ends = struct_of(source, "the source"), struct_of(to, "the destination")
    number, (listed, count) = whole(operation, SHORT, "the operation"), routes_of(routes)
    return written(lambda room, size: calls.ipxr_write_rip(byref(ends[0]), byref(ends[1]), number, listed, count, room, size))


def write_query(source: AddressLike, to: AddressLike, service_type: int = SHORT, *, nearest: bool = False) -> bytes:
    """A query for the services of a type, FFFFh for every type: for all of them, or for the nearest one."""
    ends = struct_of(source, "the source"), struct_of(to, "the destination")
    number = whole(service_type, SHORT, "the type")
    return written(lambda room, size: calls.ipxr_write_query(byref(ends[0]), byref(ends[1]), bool(nearest), number, room, size))


def write_sap(source: AddressLike, to: AddressLike, services: Sequence[ServiceEntry], *, nearest: bool = False) -> bytes:
    """A response of 1 to 7 services, general or to a query for the nearest one."""
    ends = struct_of(source, "the source"), struct_of(to, "the destination")
    listed, count = services_of(services)
    return written(lambda room, size: calls.ipxr_write_sap(byref(ends[0]), byref(ends[1]), bool(nearest), listed, count, room, size))


def write_packet(source: AddressLike, to: AddressLike, packet_type: int, data: Bytes, *, control: int = 0) -> bytes:
    """A packet of any type and data. `control` is how many routers it came through. Of type 20, NetBIOS, the data begin with 32 bytes for
    the networks crossed, of which the first `control` tell one each."""
    ends = struct_of(source, "the source"), struct_of(to, "the destination")
    numbers = whole(packet_type, BYTE, "the type"), whole(control, BYTE, "the transport control")
    return written(lambda room, size: calls.ipxr_write_packet(byref(ends[0]), byref(ends[1]), *numbers, bytes(data), len(data), room, size))


# ---- Frames of Ethernet ----


def read_frame(frame: Bytes) -> Optional[tuple[Frame, bytes]]:
    """How a frame carries a packet, and the packet with what comes behind it; None where it carries none."""
    front = c_size_t()
    kind = calls.ipxr_frame_read(bytes(frame), len(frame), byref(front))
    return (Frame(kind), bytes(frame)[front.value:]) if kind else None


def write_frame(kind: Frame, to: NodeLike, source: NodeLike, packet: Bytes) -> Optional[bytes]:
    """The frame in which a packet is sent to a node from a node; None where a frame of that kind can't carry it."""
    ends, room = (six(Node(to, "the destination")), six(Node(source, "the source"))), create_string_buffer(LONGEST_FRAME)
    length = calls.ipxr_frame_write(whole(kind, BYTE, "the kind"), *ends, bytes(packet), len(packet), room, LONGEST_FRAME)
    return room.raw[:length] if length else None


# ---- Reading. The library reads packets only where it routes them: this is the package's own. ----


class Read(NamedTuple):
    """What the header of a packet says, and its data."""

    checksum: int
    control: int
    type: int
    to: Address
    source: Address
    data: bytes


def _number(data: Bytes, at: int, size: int = 2) -> int:
    return int.from_bytes(data[at: at + size], "big")


def _address(data: Bytes, at: int) -> Address:
    return Address(_number(data, at, 4), Node(bytes(data[at + 4: at + 10])), _number(data, at + 10))


def read_packet(data: Bytes) -> Optional[Read]:
    """What a packet says; None where the bytes are no packet, by the header's length. Padding is cut off."""
    length = _number(data, 2) if len(data) >= HEADER else 0
    if not HEADER <= length <= len(data):
        return None
    return Read(_number(data, 0), data[4], data[5], _address(data, 6), _address(data, 18), bytes(data[HEADER:length]))


def read_rip(data: Bytes) -> Optional[tuple[int, list[RouteEntry]]]:
    """The operation and the routes of a packet of routing information, by its data; None where it has no operation."""
    if len(data) < 2:
        return None
    places = range(2, len(data) - ENTRY_OF_RIP + 1, ENTRY_OF_RIP)
    return _number(data, 0), [RouteEntry(_number(data, at, 4), _number(data, at + 4), _number(data, at + 6)) for at in places]


def read_sap(data: Bytes) -> Optional[tuple[int, list[ServiceEntry]]]:
    """The operation and the services of a packet of service advertising, by its data. A query has no services."""
    if len(data) < 2:
        return None
    places = range(2, len(data) - ENTRY_OF_SAP + 1, ENTRY_OF_SAP)
    return _number(data, 0), [ServiceEntry(text_of(bytes(data[at + 2: at + 50])), _address(data, at + 50), _number(data, at),
                                           _number(data, at + 62)) for at in places]

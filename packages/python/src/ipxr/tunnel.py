"""A server of DOSBox's tunnel: the plain one, and one whose clients have nodes that you make. An event returns what came of it."""
from __future__ import annotations

import ctypes
from ctypes import byref, c_uint16
from typing import Any, NamedTuple, Optional, Sequence, Union

from . import raw
from ._library import calls
from .numbers import Said
from .text import Node, NodeLike, Place, network, socket
from .values import Bytes, Handle, judged, listed, packed, six


class Own(NamedTuple):
    """A datagram of the tunnel's own, an answer or a ping: where it goes, and its bytes."""

    place: Place
    data: bytes


class Heard(NamedTuple):
    """What came of a datagram: what it said, the tunnel's own datagrams, which go first, who gets the packet, the packet, and whether the
    router hears it."""

    said: Said
    owns: list[Own]
    receivers: list[Place]
    packet: bytes
    is_heard: bool


class Client(NamedTuple):
    """A client, and for how many seconds it stays, unless it answers a ping."""

    place: Place
    seconds_left: int


class Member(NamedTuple):
    """A client of a tunnel with keyed nodes, or somebody who registered and is remembered."""

    place: Place
    node: Node
    seconds_left: int


class Second(NamedTuple):
    """What came of a second: the tunnel's own datagrams, and the places of the clients that left."""

    owns: list[Own]
    leavers: list[Place]


class KeyedSecond(NamedTuple):
    """What came of a second: the tunnel's own datagrams, of which the first `pings` are pings of clients, and the clients that left."""

    owns: list[Own]
    pings: int
    leavers: list[Member]


def cleared(data: Bytes) -> bytes:
    """A datagram with its transport control cleared, since DOSBox leaves there what its program wrote."""
    return bytes(data[:4]) + b"\0" + bytes(data[5:]) if len(data) > 4 else bytes(data)


class Tunnel(Handle):
    """A tunnel whose clients' nodes are their places: of a network, with the server's node there, and how many clients it takes, in all
    and of one address."""

    def __init__(self, network: int | str, node: NodeLike, capacity: int = 64, share: int = 16) -> None:
        values = {"network": network, "node": node, "capacity": capacity, "share": share}
        setting = packed(raw.ipxr_tunnel_setting, "the setting", values)
        super().__init__(raw.ipxr_tunnel(), calls.ipxr_tunnel_free)
        judged(calls.ipxr_tunnel_make(self.handle, byref(setting)))

    def __enter__(self) -> Tunnel:
        return self

    def __exit__(self, *_: object) -> None:
        self.free()

    def hear(self, sender: raw.ipxr_sender, data: Bytes) -> Heard:
        """A datagram arrived. Its transport control counts as 0."""
        given = cleared(data)
        said = judged(calls.ipxr_tunnel_hear(self.handle, byref(sender), given, len(given)))
        packet = given[: calls.ipxr_tunnel_carried(self.handle)]
        return Heard(Said(said), self._owns(), self._receivers(), packet, calls.ipxr_tunnel_is_heard(self.handle) == 1)

    def second(self) -> Second:
        """A second passed: at most one for each turn of your loop."""
        judged(calls.ipxr_tunnel_second(self.handle))
        return Second(self._owns(), self._places(calls.ipxr_tunnel_leavers, calls.ipxr_tunnel_leaver))

    def send(self, node: NodeLike) -> list[Place]:
        """The router sends a packet on the tunnel's network to a node, or to all: who gets it."""
        judged(calls.ipxr_tunnel_send(self.handle, six(Node(node))))
        return self._receivers()

    def clients(self) -> list[Client]:
        """Its clients, in the order in which they came."""
        it = raw.ipxr_client()
        return listed(calls.ipxr_tunnel_clients(self.handle), lambda k: calls.ipxr_tunnel_client(self.handle, k, byref(it)),
                      lambda: Client(Place(bytes(it.place)), it.seconds_left))

    def _owns(self) -> list[Own]:
        return owns_of(self.handle, calls.ipxr_tunnel_owns, calls.ipxr_tunnel_own)

    def _receivers(self) -> list[Place]:
        return self._places(calls.ipxr_tunnel_receivers, calls.ipxr_tunnel_receiver)

    def _places(self, count: Any, copy: Any) -> list[Place]:
        return places_of(self.handle, count, copy)


def owns_of(handle: Any, count: Any, copy: Any) -> list[Own]:
    it = raw.ipxr_own()
    return listed(count(handle), lambda k: copy(handle, k, byref(it)), lambda: Own(Place(bytes(it.place)), bytes(it.bytes)))


def places_of(handle: Any, count: Any, copy: Any) -> list[Place]:
    it = six(bytes(6))
    return listed(count(handle), lambda k: copy(handle, k, it), lambda: Place(bytes(it)))


class KeyedTunnel(Handle):
    """A tunnel whose clients have the nodes that you make for their places. It remembers registrations, too: so many in all, and of one
    address."""

    def __init__(self, network: int | str, node: NodeLike, capacity: int = 64, share: int = 16, remembered: int = 1024,
                 remembered_share: int = 64) -> None:
        values = {"network": network, "node": node, "capacity": capacity, "share": share, "remembered": remembered,
                  "remembered_share": remembered_share}
        setting = packed(raw.ipxr_keyed_setting, "the setting", values)
        super().__init__(raw.ipxr_keyed(), calls.ipxr_keyed_free)
        judged(calls.ipxr_keyed_make(self.handle, byref(setting)))

    def __enter__(self) -> KeyedTunnel:
        return self

    def __exit__(self, *_: object) -> None:
        self.free()

    def hear(self, sender: raw.ipxr_keyed_sender, data: Bytes) -> Heard:
        """A datagram arrived. Its transport control counts as 0."""
        given = cleared(data)
        said = judged(calls.ipxr_keyed_hear(self.handle, byref(sender), given, len(given)))
        packet = given[: calls.ipxr_keyed_carried(self.handle)]
        return Heard(Said(said), self._owns(), self._receivers(), packet, calls.ipxr_keyed_is_heard(self.handle) == 1)

    def second(self) -> KeyedSecond:
        """A second passed: at most one for each turn of your loop."""
        judged(calls.ipxr_keyed_second(self.handle))
        leavers = self._members(calls.ipxr_keyed_leavers, calls.ipxr_keyed_leaver)
        return KeyedSecond(self._owns(), calls.ipxr_keyed_pings(self.handle), leavers)

    def send(self, node: NodeLike) -> list[Place]:
        """The router sends a packet on the tunnel's network to a node, or to all: who gets it."""
        judged(calls.ipxr_keyed_send(self.handle, six(Node(node))))
        return self._receivers()

    def clients(self) -> list[Member]:
        """Its clients, in the order in which they came."""
        return self._members(calls.ipxr_keyed_clients, calls.ipxr_keyed_client)

    def waiters(self) -> list[Member]:
        """Who registered and is remembered, in the order in which they came."""
        return self._members(calls.ipxr_keyed_waiters, calls.ipxr_keyed_waiter)

    def _owns(self) -> list[Own]:
        return owns_of(self.handle, calls.ipxr_keyed_owns, calls.ipxr_keyed_own)

    def _receivers(self) -> list[Place]:
        return places_of(self.handle, calls.ipxr_keyed_receivers, calls.ipxr_keyed_receiver)

    def _members(self, count: Any, copy: Any) -> list[Member]:
        it = raw.ipxr_keyed_member()
        return listed(count(self.handle), lambda k: copy(self.handle, k, byref(it)),
                      lambda: Member(Place(bytes(it.place)), Node(bytes(it.node)), it.seconds_left))


def extend(here: int | str, sockets: Sequence[Union[int, str]], there: int | str, packet: Bytes) -> Optional[bytes]:
    """The copy of a broadcast for the network `there`, if it came on the network `here` and is copied for one of these sockets."""
    numbers = [socket(it) for it in sockets]
    listed_sockets = (c_uint16 * max(len(numbers), 1))(*numbers)
    room = ctypes.create_string_buffer(bytes(packet), max(len(packet), 1))
    is_copied = calls.ipxr_tunnel_extend(network(here), listed_sockets, len(numbers), network(there), room, len(packet))
    return room.raw[: len(packet)] if is_copied else None

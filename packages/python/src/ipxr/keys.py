"""What a server of a tunnel makes of the place where a datagram comes from: cookies and nodes that nobody can guess. They are keyed hashes
of the place (BLAKE2s), by a key of sixteen bytes."""
from __future__ import annotations

import hashlib
import secrets

from . import raw
from .text import Node, NodeLike, Place, PlaceLike
from .values import packed

KEY, MINUTE = 16, 60
# The first bytes: a cookie is no node of a client, and a node is one that no manufacturer gave.
COOKIE_FIRST, NODE_FIRST = b"\x00", b"\x02"


class Keys:
    """The keys of a server. Give sixteen secret bytes that you keep, and clients find their nodes again after a restart."""

    def __init__(self, key: bytes | None = None) -> None:
        self._key = secrets.token_bytes(KEY) if key is None else bytes(key)
        if len(self._key) != KEY:
            raise ValueError(f"the key isn't {KEY} bytes")

    def _hash(self, place: Place, what: bytes) -> bytes:
        return hashlib.blake2s(place + what, digest_size=5, key=self._key).digest()

    def cookie(self, place: PlaceLike, minute: int) -> Node:
        """The cookie of a place in a minute."""
        return Node(COOKIE_FIRST + self._hash(Place(place), b"cookie" + minute.to_bytes(8, "big")))

    def node(self, place: PlaceLike) -> Node:
        """The node of a place, for KeyedTunnel."""
        return Node(NODE_FIRST + self._hash(Place(place), b"node"))

    def sender(self, place: PlaceLike, seconds: float, *, is_trusted: bool = False) -> raw.ipxr_sender:
        """What Tunnel.hear takes for a datagram that comes from a place, in a second of any clock that goes on, such as time.time()."""
        return packed(raw.ipxr_sender, "the sender", {"place": place, **self._cookies(place, seconds), "is_trusted": is_trusted})

    def keyed_sender(self, place: PlaceLike, seconds: float, *, is_trusted: bool = False, may_register: bool = True,
                     former: NodeLike | None = None) -> raw.ipxr_keyed_sender:
        """The same for KeyedTunnel.hear."""
        node = self.node(place)
        nodes = {"node": node, "former": node if former is None else former}
        flags = {"is_trusted": is_trusted, "may_register": may_register}
        return packed(raw.ipxr_keyed_sender, "the sender", {"place": place, **nodes, **self._cookies(place, seconds), **flags})

    def _cookies(self, place: PlaceLike, seconds: float) -> dict[str, Node]:
        minute = int(seconds // MINUTE)
        return {"current": self.cookie(place, minute), "previous": self.cookie(place, max(minute - 1, 0))}

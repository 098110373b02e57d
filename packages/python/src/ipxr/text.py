"""Networks, nodes, sockets, addresses and places, which may be given as text: "10.0200C0A80001.451" is socket 451 of node 0200C0A80001 on
network 10, all of it hexadecimal, and "192.168.0.1:2130" is a place of UDP."""
from __future__ import annotations

import re
from typing import Any, NamedTuple, Sequence, Tuple, Union

NODE, FOUR, SHORT, LONG = 6, 4, 0xFFFF, 0xFFFFFFFF
HEX = re.compile(r"[0-9A-Fa-f]+")
NODE_TEXT = re.compile(r"[0-9A-Fa-f]{12}|[0-9A-Fa-f]{2}(?::[0-9A-Fa-f]{2}){5}|[0-9A-Fa-f]{2}(?:-[0-9A-Fa-f]{2}){5}")
PLACE_TEXT = re.compile(r"(\d{1,3})\.(\d{1,3})\.(\d{1,3})\.(\d{1,3}):(\d{1,5})")


def whole(value: int, most: int, what: str) -> int:
    """A whole number from 0 to the most, or a fault."""
    if isinstance(value, bool) or not isinstance(value, int):
        raise TypeError(f"{what} isn't a whole number")
    if not 0 <= value <= most:
        raise ValueError(f"{what} isn't from 0 to {most}")
    return int(value)


def _number(value: int | str, digits: int, most: int, what: str) -> int:
    if not isinstance(value, str):
        return whole(value, most, what)
    if not HEX.fullmatch(value) or len(value) > digits:
        raise ValueError(f"{what} isn't at most {digits} hexadecimal digits")
    return int(value, 16)


def network(value: int | str, what: str = "the network") -> int:
    """The number of a network, which may be given as its hexadecimal digits."""
    return _number(value, 8, LONG, what)


def socket(value: int | str, what: str = "the socket") -> int:
    """The number of a socket, alike."""
    return _number(value, 4, SHORT, what)


def network_text(value: int | str) -> str:
    """Eight hexadecimal digits."""
    return f"{network(value):08X}"


def socket_text(value: int | str) -> str:
    """Four hexadecimal digits."""
    return f"{socket(value):04X}"


class Node(bytes):
    """The six bytes of a node, which may be given as twelve hexadecimal digits, with a colon or a dash between each two or without."""

    def __new__(cls, value: NodeLike, what: str = "the node") -> Node:
        if isinstance(value, str):
            if not NODE_TEXT.fullmatch(value):
                raise ValueError(f"{what} isn't twelve hexadecimal digits: {value}")
            value = bytes.fromhex(re.sub("[:-]", "", value))
        if isinstance(value, int) or len(value) != NODE:
            raise ValueError(f"{what} isn't six bytes")
        return super().__new__(cls, bytes(value))

    def __str__(self) -> str:
        return self.hex().upper()

    def __repr__(self) -> str:
        return f"Node('{self}')"


class Place(bytes):
    """Where a datagram comes from: six bytes, which may be given as an address of IPv4 with its port, or as a socket's pair of both."""

    def __new__(cls, value: PlaceLike, what: str = "the place") -> Place:
        if isinstance(value, tuple):
            value = f"{value[0]}:{value[1]}"
        if isinstance(value, str):
            found = PLACE_TEXT.fullmatch(value)
            numbers = [int(it) for it in found.groups()] if found else []
            if not numbers or max(numbers[:FOUR]) > 0xFF or numbers[FOUR] > SHORT:
                raise ValueError(f"{what} isn't an address of IPv4 with its port: {value}")
            value = bytes(numbers[:FOUR]) + numbers[FOUR].to_bytes(2, "big")
        if isinstance(value, int) or len(value) != NODE:
            raise ValueError(f"{what} isn't six bytes")
        return super().__new__(cls, bytes(value))

    @property
    def pair(self) -> tuple[str, int]:
        """As a socket of Python's takes it."""
        return ".".join(map(str, self[:FOUR])), int.from_bytes(self[FOUR:], "big")

    def __str__(self) -> str:
        host, port = self.pair
        return f"{host}:{port}"

    def __repr__(self) -> str:
        return f"Place('{self}')"


class Address(NamedTuple):
    """An address: a socket on a node of a network. It prints as in 00000010.0200C0A80001.0451."""

    network: int
    node: Node
    socket: int

    def __str__(self) -> str:
        return f"{network_text(self.network)}.{self.node}.{socket_text(self.socket)}"


def address(value: AddressLike, what: str = "the address") -> Address:
    """An address, which may be given as NETWORK.NODE.SOCKET, or as three values."""
    parts: Sequence[Any] = value.split(".") if isinstance(value, str) else value
    if len(parts) != 3:
        raise ValueError(f"{what} isn't NETWORK.NODE.SOCKET")
    number, node, port = parts
    return Address(network(number, f"the network of {what}"), Node(node, f"the node of {what}"), socket(port, f"the socket of {what}"))


NodeLike = Union[bytes, bytearray, str, Sequence[int]]
PlaceLike = Union[bytes, bytearray, str, Tuple[str, int]]
AddressLike = Union[str, Tuple[Union[int, str], NodeLike, Union[int, str]]]
BROADCAST = Node(b"\xff" * NODE)

"""Structs of the library as values, and values as structs; and the faults of its calls."""
from __future__ import annotations

import ctypes
from ctypes import Array, Structure, c_bool, c_size_t, c_uint8, c_uint16, c_uint32, c_uint64
from typing import Any, Callable, Sequence, TypeVar, Union

from . import raw
from ._library import calls
from .numbers import Drop, Outcome
from .text import NODE, Node, Place, network, socket, whole

# Arrays of bytes that are texts, by how many bytes they have; and what may be given as hexadecimal digits.
TEXTS = (16, 48, 254)
NETWORKS = ("network", "from", "to")
WORD = 32
Kind = TypeVar("Kind", bound=Structure)
Found = TypeVar("Found")
Bytes = Union[bytes, bytearray, memoryview]


class IpxrError(Exception):
    """A fault: the call did nothing. `number` is the header's (Fault)."""

    def __init__(self, number: int) -> None:
        super().__init__(words(number))
        self.number = number


def words(answer: int) -> str:
    """The words of an outcome, a drop or a fault; of any other number "". """
    word = ctypes.create_string_buffer(WORD)
    length = calls.ipxr_word(answer, word, WORD)
    return word.raw[:length].decode("ascii")


def judged(answer: int) -> int:
    """An answer that is no fault."""
    if answer < 0:
        raise IpxrError(answer)
    return answer


def outcome_of(answer: int) -> Outcome | Drop:
    """What became of an event, or why it was dropped."""
    judged(answer)
    return Drop(answer) if answer >= Drop.NOT_RUNNING else Outcome(answer)


def text_of(field: Any) -> str:
    """The bytes before a 0, each as the character of its number."""
    return bytes(field).partition(b"\0")[0].decode("latin-1")


def bytes_of_text(text: str, what: str) -> bytes:
    """A character for each byte, of which none is 0."""
    given = text.encode("latin-1")
    if b"\0" in given:
        raise ValueError(f"{what} has a character 0")
    return given


# ---- Writing ----


def _number(kind: Any, name: str, value: Any, what: str) -> int:
    if kind is c_uint32 and name in NETWORKS:
        return network(value, what)
    if kind is c_uint16 and name == "socket":
        return socket(value, what)
    return whole(value, (1 << 8 * ctypes.sizeof(kind)) - 1, what)


def _bytes(name: str, count: int, value: Any, what: str) -> bytes:
    if count in TEXTS:
        return bytes_of_text(value, what)[:count]
    if count == NODE:
        return Place(value, what) if name == "place" else Node(value, what)
    if len(value) != count:
        raise ValueError(f"{what} isn't {count} bytes")
    return bytes(value)


def _array(kind: Any, name: str, value: Any, what: str) -> Any:
    of, count = kind._type_, kind._length_
    if of is c_uint8:
        given = _bytes(name, count, value, what)
        return kind(*given)
    if len(value) > count:
        raise ValueError(f"{what} is longer than {count}")
    return kind(*(_field(of, name, it, what) for it in value))


def _field(kind: Any, name: str, value: Any, what: str) -> Any:
    if isinstance(value, kind):
        return value
    if kind is c_bool:
        return bool(value)
    if kind in (c_uint8, c_uint16, c_uint32, c_uint64, c_size_t):
        return _number(kind, name, value, what)
    return _array(kind, name, value, what) if issubclass(kind, Array) else packed(kind, what, value)


def packed(kind: type[Kind], what: str, values: Any) -> Kind:
    """A struct of these values, by the names of its fields; what isn't given is 0. A name that is none of Python's ends with _ here."""
    it = kind()
    kinds = {name: of for name, of, *_ in kind._fields_}
    for name, value in values.items():
        own = name.rstrip("_")
        if own not in kinds:
            raise TypeError(f"{what} has no {name}")
        setattr(it, own, _field(kinds[own], own, value, f"the {own} of {what}"))
    return it


def packed_list(kind: type[Kind], items: Sequence[Kind], most: int) -> tuple[Any, int]:
    """Structs behind each other, and how many; of more than the most one more, which is as much too many. (No pointer may be NULL.)"""
    taken = items[: most + 1]
    return (kind * max(len(taken), 1))(*taken), len(taken)


def six(node: bytes) -> Any:
    """Six bytes for a call."""
    return (c_uint8 * NODE)(*node)


def four(host: str | Bytes | Sequence[int], what: str = "the host") -> Any:
    """The four bytes of an address of IPv4, which may be given as text."""
    numbers = [int(it) for it in host.split(".")] if isinstance(host, str) else [*host]
    if len(numbers) != 4:
        raise ValueError(f"{what} isn't an address of IPv4")
    return (c_uint8 * 4)(*(whole(it, 0xFF, f"a number of {what}") for it in numbers))


# ---- Reading ----


def listed(count: int, copy: Callable[[int], Any], read: Callable[[], Found]) -> list[Found]:
    """What `read` returns after each number, from 0, was copied."""
    found = []
    for number in range(count):
        judged(copy(number))
        found.append(read())
    return found


def time_of(value: int, what: str = "the time") -> int:
    """Nanoseconds."""
    return whole(value, (1 << 64) - 1, what)


class Clock:
    """What the clock of a value showed at the last look. The first look only begins."""

    def __init__(self) -> None:
        self._last: c_uint64 | None = None

    def look(self, it: Structure, now: int, look: Callable[[Any, Any, int], None]) -> None:
        now = time_of(now)
        if self._last is None:
            self._last = c_uint64(now)
        look(ctypes.byref(it), ctypes.byref(self._last), now)


class Handle:
    """What a handle of the library has. Use it in a `with`, or call `free`; otherwise it is freed when it is collected."""

    def __init__(self, handle: Structure, free: Callable[[Any], None]) -> None:
        self._handle, self._free = handle, free

    def free(self) -> None:
        """Gives its memory back. A second time nothing is done."""
        self._free(ctypes.byref(self._handle))

    def __del__(self) -> None:
        # (one that was never made has no handle)
        if hasattr(self, "_handle"):
            self.free()

    @property
    def handle(self) -> Any:
        """For raw calls."""
        return ctypes.byref(self._handle)


def version() -> int:
    """The version of the library's interface: its major number times 65536, plus its minor number."""
    return calls.ipxr_version()

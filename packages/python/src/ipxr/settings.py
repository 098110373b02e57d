"""The lines of a gateway's configuration: each by itself, and what all say together. What they say are the structs of the headers."""
from __future__ import annotations

from ctypes import byref, c_size_t, c_uint32, create_string_buffer
from typing import Any, NamedTuple, Optional, Union

from . import raw
from ._library import calls
from .numbers import MOST_CLIENTS, Expected
from .text import Node, whole
from .values import Bytes, packed, six

BYTE, SHORT, MOST_WORDS = 0xFF, 0xFFFF, 512
Text = Union[str, Bytes]


class Line(NamedTuple):
    """What a line says by itself, and what was expected where it is wrong, or None."""

    expected: Optional[Expected]
    said: raw.ipxr_setting


class ConfigurationLine(NamedTuple):
    """The same of a line of a configuration, and what else is wrong."""

    expected: Optional[Expected]
    said: raw.ipxr_setting
    wrong: raw.ipxr_line_wrong


def _bytes(text: Text) -> bytes:
    return text.encode("utf-8") if isinstance(text, str) else bytes(text)


def _expected(number: int) -> Optional[Expected]:
    return Expected(number) if number else None


def _cards(value: Union[bool, int]) -> int:
    return int(value) if isinstance(value, bool) else whole(value, BYTE, "has_cards")


def settings_line(text: Text, *, has_cards: Union[bool, int] = True, is_below_tunnel: bool = False, most_clients: int = MOST_CLIENTS) -> Line:
    """What a line says by itself. `has_cards` is whether there are all cards, or one of Cards."""
    given, said = _bytes(text), raw.ipxr_setting()
    how = _cards(has_cards), bool(is_below_tunnel), whole(most_clients, SHORT, "the most clients")
    return Line(_expected(calls.ipxr_settings_line(given, len(given), *how, byref(said))), said)


def settings_word(text: Text, number: int) -> Optional[tuple[int, bytes]]:
    """Where the word of a line with that number begins, from 0, and the word; None if there is none."""
    given, start = _bytes(text), c_size_t()
    count = calls.ipxr_settings_word(given, len(given), number, byref(start))
    return (start.value, given[start.value: start.value + count]) if count else None


def settings_socket(word: Text) -> Optional[int]:
    """The socket that a word is."""
    given = _bytes(word)
    return calls.ipxr_settings_socket(given, len(given)) or None


def settings_hexadecimal(word: Text, digits: int) -> Optional[int]:
    """The number that a word of hexadecimal digits is, at most so many."""
    given, number = _bytes(word), c_uint32()
    return number.value if calls.ipxr_settings_hexadecimal(given, len(given), digits, byref(number)) else None


def settings_node(word: Text) -> Optional[Node]:
    """The node that a word is."""
    given, node = _bytes(word), six(bytes(6))
    return Node(bytes(node)) if calls.ipxr_settings_node(given, len(given), node) else None


def settings_range(word: Text) -> Optional[raw.ipxr_setting_range]:
    """The range that a word is, such as 192.168.0.0/16."""
    given, found = _bytes(word), raw.ipxr_setting_range()
    return found if calls.ipxr_settings_range(given, len(given), byref(found)) else None


def setting_host(**values: Any) -> raw.ipxr_setting_host:
    """An address with its port, by the fields of ipxr_setting_host."""
    return packed(raw.ipxr_setting_host, "the host", values)


def setting_link(**values: Any) -> raw.ipxr_setting_link:
    """A link, by the fields of ipxr_setting_link."""
    return packed(raw.ipxr_setting_link, "the link", values)


def settings_address_words(host: raw.ipxr_setting_host) -> str:
    """An address with its port as a line has it."""
    room = create_string_buffer(MOST_WORDS)
    length = calls.ipxr_settings_address_words(byref(host), room, MOST_WORDS)
    return room.raw[:length].decode("latin-1")


def settings_link_words(link: raw.ipxr_setting_link) -> str:
    """The words of a link as a line has them; "" where it is no link."""
    room = create_string_buffer(MOST_WORDS)
    length = calls.ipxr_settings_link_words(byref(link), room, MOST_WORDS)
    return room.raw[:length].decode("latin-1")


class Configuration:
    """A configuration, as far as its lines were read."""

    def __init__(self) -> None:
        self.state, self._lines = raw.ipxr_configuration(), 0

    def line(self, text: Text, *, has_cards: Union[bool, int] = True) -> ConfigurationLine:
        """Reads the next line."""
        given, said, wrong = _bytes(text), raw.ipxr_setting(), raw.ipxr_line_wrong()
        self._lines += 1
        of = given, len(given), self._lines, _cards(has_cards)
        return ConfigurationLine(_expected(calls.ipxr_configuration_line(byref(self.state), *of, byref(said), byref(wrong))), said, wrong)

    def unlinked(self) -> Optional[int]:
        """The line of the last network, if that has no link."""
        return calls.ipxr_configuration_unlinked(byref(self.state)) or None

    def internal(self) -> Optional[raw.ipxr_internal]:
        """The router's own network, if a line says one."""
        own = raw.ipxr_internal()
        return own if calls.ipxr_configuration_internal(byref(self.state), byref(own)) else None

    def links(self) -> list[raw.ipxr_configured]:
        """What all lines say of each link."""
        found: list[raw.ipxr_configured] = []
        link = raw.ipxr_configured()
        while calls.ipxr_configuration_link(byref(self.state), len(found), byref(link)):
            found.append(link)
            link = raw.ipxr_configured()
        return found

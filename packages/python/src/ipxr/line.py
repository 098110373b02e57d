"""A narrow line to clients, whose width is shared by those who receive and those who speak. Times are nanoseconds of your clock."""
from __future__ import annotations

from ctypes import byref, c_uint64

from . import raw
from ._library import calls
from .limits import StrangersLimits, byte, long
from .numbers import LineRank
from .values import time_of


class Moment:
    """A moment that calls write, such as the one until which a speaker's part is used: 0 at first."""

    def __init__(self) -> None:
        self.state = c_uint64()

    @property
    def nanoseconds(self) -> int:
        return self.state.value


class LineAddress:
    """An address that has clients at the end of a line, or speaks to such."""

    def __init__(self) -> None:
        self.state = raw.ipxr_line_address()


class Line:
    """A line of so many kilobits a second."""

    def __init__(self, kilobits: int) -> None:
        self.state = raw.ipxr_line()
        self.kilobits = kilobits

    @property
    def kilobits(self) -> int:
        return self.state.kilobits

    @kilobits.setter
    def kilobits(self, kilobits: int) -> None:
        self.state.kilobits = long(kilobits, "the kilobits")

    def join(self, address: LineAddress) -> None:
        """An address has one more client there."""
        calls.ipxr_line_join(byref(self.state), byref(address.state))

    def leave(self, address: LineAddress) -> None:
        """Or one fewer."""
        calls.ipxr_line_leave(byref(self.state), byref(address.state))

    def speak(self, address: LineAddress) -> int:
        """An address speaks. Returns the number that it has then."""
        return calls.ipxr_line_speak(byref(self.state), byref(address.state))

    def second(self, address: LineAddress) -> None:
        """A second passes for an address."""
        calls.ipxr_line_second(byref(self.state), byref(address.state))

    def silence(self, address: LineAddress) -> None:
        """An address is gone."""
        calls.ipxr_line_silence(byref(self.state), byref(address.state))

    def room(self, now: int, number: int, size: int, said: Moment, to: LineAddress) -> LineRank:
        """Whether there is room for a copy of so many bytes to an address."""
        of = time_of(now), byte(number, "the speaker's number"), long(size, "the bytes"), byref(said.state), byref(to.state)
        return LineRank(calls.ipxr_line_room(byref(self.state), *of))

    def send(self, now: int, number: int, size: int, rank: LineRank, said: Moment, to: LineAddress) -> None:
        """It goes out with that rank."""
        of = time_of(now), byte(number, "the speaker's number"), long(size, "the bytes"), byte(rank, "the rank")
        calls.ipxr_line_send(byref(self.state), *of, byref(said.state), byref(to.state))

    def lets_beyond(self, now: int) -> bool:
        """Whether there is room beyond all parts."""
        return calls.ipxr_line_lets_beyond(byref(self.state), time_of(now))

    def lets_answer(self, now: int, address: Moment) -> bool:
        """Whether an answer of your own goes out to a client; then `send_answer`."""
        return calls.ipxr_line_lets_answer(byref(self.state), time_of(now), byref(address.state))

    def send_answer(self, now: int, size: int, address: Moment) -> None:
        calls.ipxr_line_send_answer(byref(self.state), time_of(now), long(size, "the bytes"), byref(address.state))

    def send_ping(self, now: int, size: int) -> None:
        """A ping goes out, for which there is always room."""
        calls.ipxr_line_send_ping(byref(self.state), time_of(now), long(size, "the bytes"))

    def lets_stranger(self, now: int, address: Moment) -> bool:
        """Whether something goes out to one who is no client; then `send_to_stranger`."""
        return calls.ipxr_line_lets_stranger(byref(self.state), time_of(now), byref(address.state))

    def send_to_stranger(self, now: int, size: int, address: Moment) -> None:
        calls.ipxr_line_send_to_stranger(byref(self.state), time_of(now), long(size, "the bytes"), byref(address.state))

    def strangers(self) -> StrangersLimits:
        """Limits of what goes to all who are no clients by this line."""
        limits = StrangersLimits(1)
        calls.ipxr_line_strangers(byref(self.state), byref(limits.state))
        return limits

    def between_pings(self, size: int) -> int:
        """Nanoseconds that should pass from a ping of so many bytes to the next."""
        between = c_uint64()
        calls.ipxr_line_between_pings(byref(self.state), long(size, "the bytes"), byref(between))
        return between.value

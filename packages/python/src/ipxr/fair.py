"""Fair shares: who speaks to somebody that reads only so fast. All times are nanoseconds."""
from __future__ import annotations

from ctypes import byref
from typing import Optional

from . import raw
from ._library import calls
from .text import whole
from .values import Clock, packed, time_of

BYTE = 0xFF


def refused(is_made: bool, what: str) -> None:
    """What can't be made of a setting."""
    if not is_made:
        raise ValueError(f"there is no {what} of this setting")


class Fair:
    """Somebody who reads, with a queue for each speaker. `state` has what waits now, as the header has it."""

    def __init__(self, one: int = 0, own: int = 0, reserve: int = 0, room: int = 0) -> None:
        values = {"one": one, "own": own, "reserve": reserve, "room": room}
        self.state, self._clock = raw.ipxr_fair(), Clock()
        self.set(packed(raw.ipxr_fair_setting, "the setting", values))

    def set(self, setting: raw.ipxr_fair_setting) -> None:
        """Makes it a receiver of that setting, for which nothing waits."""
        refused(calls.ipxr_fair_make(byref(self.state), byref(setting)), "receiver")

    def look(self, now: int) -> None:
        """The time passes that your clock shows beyond what it showed at the last look."""
        self._clock.look(self.state, now, calls.ipxr_fair_look)

    def passes(self, nanoseconds: int) -> None:
        """So many nanoseconds pass."""
        calls.ipxr_fair_pass(byref(self.state), time_of(nanoseconds))

    def says(self, speaker: int, weight: int) -> bool:
        """A speaker says a packet of that weight. Returns whether it is heard: then send it."""
        return calls.ipxr_fair_says(byref(self.state), whole(speaker, BYTE, "the speaker"), time_of(weight, "the weight"))

    def both_hear(self, other: Fair, speaker: int, weight: int, other_weight: int) -> bool:
        """The same of a packet that two receivers must hear."""
        weights = time_of(weight, "the weight"), time_of(other_weight, "the other weight")
        return calls.ipxr_fair_both_hear(byref(self.state), byref(other.state), whole(speaker, BYTE, "the speaker"), *weights)


class Meter:
    """A limit for one speaker: so much in so much time, and so much at once."""

    def __init__(self) -> None:
        self.state = raw.ipxr_meter()

    @property
    def used(self) -> int:
        return self.state.used

    def passes(self, nanoseconds: int) -> None:
        """So many nanoseconds pass."""
        calls.ipxr_meter_pass(byref(self.state), time_of(nanoseconds))

    def lets(self, burst: int, weight: int) -> bool:
        """Lets something pass if no more than `burst` is used then, and counts it."""
        return calls.ipxr_meter_lets(byref(self.state), time_of(burst, "the burst"), time_of(weight, "the weight"))

    def both_let(self, burst: int, weight: int, other: Meter, other_burst: int, other_weight: int) -> bool:
        """The same by two meters: both count it, or neither."""
        one = time_of(burst, "the burst"), time_of(weight, "the weight")
        two = time_of(other_burst, "the other burst"), time_of(other_weight, "the other weight")
        return calls.ipxr_meter_both_let(byref(self.state), *one, byref(other.state), *two)


def fair_of(setting: raw.ipxr_fair_setting, clock: Optional[int] = None) -> Fair:
    """A receiver of a setting, whose clock begins at a moment, if one is given."""
    made = Fair()
    made.set(setting)
    if clock is not None:
        made.look(clock)
    return made

"""What becomes of each packet that comes to a gateway."""
from __future__ import annotations

from ctypes import byref

from . import raw
from ._library import calls
from .numbers import Drop, Fate, Lost, Next
from .text import whole


SHORT, BYTE = 0xFFFF, 0xFF


class Course:
    """The way of a packet: ask what is next, and answer, until it is Next.END."""

    def __init__(self) -> None:
        self.state = raw.ipxr_course()

    @classmethod
    def of_frame(cls) -> Course:
        """Of what came on a cable with frames."""
        made = cls()
        calls.ipxr_course_of_frame(byref(made.state))
        return made

    @classmethod
    def of_datagram(cls) -> Course:
        """Of what came at a tunnel."""
        made = cls()
        calls.ipxr_course_of_datagram(byref(made.state))
        return made

    def answer(self, it: int) -> None:
        """What is next was answered, by a number, or by True or False."""
        calls.ipxr_course_answer(byref(self.state), whole(int(it), SHORT, "the answer"))

    @property
    def next(self) -> Next:
        return Next(self.state.next)

    @property
    def fate(self) -> Fate:
        return Fate(self.state.fate)

    @property
    def number(self) -> int:
        """Of a packet that is lost one of Lost, of one that the router dropped one of Drop."""
        return self.state.number


class Counts:
    """How many packets had each fate."""

    def __init__(self) -> None:
        self.state = raw.ipxr_counts()

    def count(self, course: Course) -> None:
        """Counts the fate of a packet that is at the end of its way."""
        calls.ipxr_counts_count(byref(self.state), byref(course.state))

    def lose(self, why: Lost) -> None:
        """Counts that something is lost for a reason."""
        calls.ipxr_counts_lose(byref(self.state), whole(why, BYTE, "the reason"))

    @property
    def came(self) -> int:
        """Packets that came."""
        return int(getattr(self.state, "in"))

    def lost(self, why: Lost) -> int:
        """How many were lost for a reason."""
        return int(self.state.lost[why])

    def dropped(self, why: Drop) -> int:
        """How many the router dropped for a reason."""
        return int(self.state.dropped[why // 100 * 10 + why % 100])

"""Two players of one network that has several links: one in DOSBox, one in a PC behind a link of QEMU's datagrams. Both links stay,
whatever becomes of the network's others, so nothing may be lost that one of the two says to the other, or to all."""
import select
import time

from frames import frame, unframed
from lab import EVERYONE, LIMIT
from players import BETWEEN_LAST, FAST, HELLO, LAST, LIMIT_OF_LAST, Player

ON_WIRE = bytes.fromhex("525400123456")  # the PC's node, which nobody else has


class OnWire(Player):
    """A player in a PC whose frames go in datagrams. It registers nowhere, and its gateway is at one address."""

    def __init__(self, host, port, gateway, network, kind):
        super().__init__(host, gateway, FAST, port=port)
        self.node, self.network, self.kind = ON_WIRE, network, kind

    def register(self):
        """(a PC is there as soon as it says something)"""

    def put(self, bytes_):
        """Sends a frame."""
        super().send(bytes_)

    def send(self, bytes_):
        self.put(frame(self.kind, bytes_[10:16], self.node, bytes_))

    def unframed(self, bytes_):
        return unframed(self.kind, bytes_)

    def hear(self, bytes_):
        found = self.unframed(bytes_) if bytes_[:6] in (self.node, EVERYONE) else None
        if found is not None and found[22:28] != self.node:
            super().hear(found)


class Pair:
    """Both players. Each second word is for the other alone."""

    def __init__(self, client, wired):
        self.all = (client, wired)
        for one, other in (self.all, self.all[::-1]):
            one.other = other

    def enter(self):
        """Who has to registers; then both wait until they hear each other."""
        for it in self.all:
            it.register()
        assert self.until(lambda: all(it.network and it.other.node in it.met for it in self.all), LIMIT, HELLO), \
            "the two players don't hear each other"
        self.begin()

    def begin(self):
        """From now on what they say is counted."""
        now = time.monotonic()
        for it in self.all:
            it.due, it.said, it.heard, it.ended = now, 0, {}, set()
            it.others.clear()

    def hear(self, patience=0.0):
        """Hears what has come."""
        ready, _, _ = select.select([it.udp for it in self.all], [], [], patience)
        for it in self.all:
            if it.udp in ready:
                it.receive()

    def act(self):
        """Says what is due, and hears."""
        now = time.monotonic()
        for it in self.all:
            it.to = it.other.node if it.said % 2 else EVERYONE
            it.speak(now)
        self.hear()

    def until(self, holds, patience, word):
        """Hears until something holds; meanwhile both say a word again and again. Returns whether it holds."""
        end, due = time.monotonic() + patience, 0
        while not holds():
            now = time.monotonic()
            if now > end:
                return False
            if now >= due:
                due = now + BETWEEN_LAST
                self.say(word)
            self.hear(0.005)
        return True

    def say(self, word):
        """Both say a word to all."""
        for it in self.all:
            it.to = EVERYONE
            it.say(word)

    def has_ended(self):
        """Whether each has heard the other's last word."""
        return all(it.other.node in it.ended for it in self.all)

    def settle(self):
        """Waits for each other's last word. Returns how many packets didn't come, and how many were said."""
        self.until(self.has_ended, LIMIT_OF_LAST, LAST)
        return self.count()

    def lacks(self):
        """How many packets each said since they began that didn't come to the other."""
        return [it.said - len(it.other.heard.get(it.node, ())) for it in self.all]

    def count(self):
        """How many of both didn't come since they began, and how many were said."""
        return sum(self.lacks()), sum(it.said for it in self.all)

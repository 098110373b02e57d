"""Clients whose pings are lost: they're asked again, at moments that nobody can tell beforehand, so nobody puts them out who fills their
buffers just when pings come.

It runs in networks of its own (spaces.py).
"""
import time

from attacks import TWO, Playground
from lab import EVERYONE, TUNNEL, Clock, address, packet, played_anew, socket_of, until
from limits import CHAT, are_answering, come
from players import Player, Slow
from spaces import GATEWAY
from trying import begin, figures, tried, tried_on_own_system

SILENCE, GONE = 5, 30  # seconds after which a client is pinged, and after which one that answers no ping leaves
STEP = 0.05  # seconds from one look at the clock to the next
AGAIN = (0.25, 0.8)  # seconds from a ping to the next, where none is answered: at least, and at most with a look at the clock
ATTACKERS, LONG, BURST = 8, 720, 32  # addresses; bytes of a packet of which a buffer holds few; packets at once of each
AHEAD, NEAR = 0.004, 0.02  # seconds before a ping is due, and from then on in which a burst may begin
LASTS = 36  # seconds: longer than a client stays that no longer hears its pings


class Deaf(Player):
    """A player that can be made not to hear pings."""

    hears, came = True, 0

    def hear(self, bytes_):
        if socket_of(bytes_) == TUNNEL and bytes_[10:16] == EVERYONE:
            self.came += 1
            if not self.hears:
                return
        super().hear(bytes_)


def asked_again(text=TWO):
    """By a clock, a client that doesn't answer is pinged twice a second, at moments that differ; as soon as it answers, no more."""
    with Playground(text, numbers=(0, 0, 0), more=1, clock=Clock()) as it:
        (deaf,) = come(it, it.free, [GATEWAY[1]], kind=Deaf)
        deaf.hears, deaf.came, moments = False, 0, []
        for step in range(int((SILENCE + 10) / STEP)):
            before = deaf.came
            it.clock.let_pass(STEP)
            it.gate.report()
            it.party.until(lambda: False, 0.004)
            moments += [step * STEP] * (deaf.came - before)
        times = [moment for moment in moments if moment > moments[0] + 1]
        apart = [round(later - one, 2) for one, later in zip(times, times[1:])]
        figures(f"{len(moments)} pings; apart: {apart}")
        assert 10 <= len(moments) <= 40 and len(set(apart)) > 3, moments
        assert all(each <= AGAIN[1] for each in apart), apart
        deaf.hears = True
        it.let_pass(1)
        until(lambda: it.party.hear() or "answered 0 s ago" in it.gate.report() or it.let_pass(0.3), "an answer")
        deaf.came = 0
        for _ in range(int(2 / STEP)):
            it.clock.let_pass(STEP)
            it.gate.report()
            it.party.until(lambda: False, 0.004)
        assert deaf.came == 0, f"{deaf.came} pings of one that answered"


def asked_again_by_a_line():
    """By a clock, the same by a line that is nearly idle."""
    asked_again(TWO.replace("strangers none\n", "strangers none\nline 1000000\n"))


class Tick:
    """Tells when a second of the gateway's begins: then its pings come."""

    def __init__(self, it):
        self.ear = Player(it.free[-1], GATEWAY)
        it.party.put_in("hears pings", self.ear)
        self.at, self.pings = 0.0, 0

    def look(self):
        if self.ear.pings > self.pings:
            self.pings, self.at = self.ear.pings, time.monotonic()

    def is_near(self, done):
        """Whether the next is due in a moment for which nothing was done yet."""
        now = time.monotonic()
        return self.at > 0 and (now - self.at + AHEAD) % 1 < NEAR and now > done + 0.5


@played_anew
def buffers_filled_at_the_second():
    """Eight addresses fill the buffer of one who reads as slowly as a DOSBox, with packets of 720 bytes, just before each second begins: he
    answers, and stays."""
    with Playground(numbers=(0, 0, 2), more=ATTACKERS + 2, begins=False) as it:
        victim = Slow(it.free[-2], GATEWAY)
        it.party.put_in(Slow.KIND, victim)
        guilty = [Player(host, GATEWAY) for host in it.free[:ATTACKERS]]
        for player in guilty:
            it.party.put_in("attack", player)
        tick = Tick(it)
        it.party.enter()
        words = [packet(address(0, victim.node, CHAT), player.at(CHAT), bytes(LONG - 30)) for player in guilty]
        began, done, bursts = time.monotonic(), 0.0, 0

        def attack():
            nonlocal done, bursts
            tick.look()
            if tick.is_near(done):
                done, bursts = time.monotonic(), bursts + 1
                for _ in range(BURST):
                    for player, word in zip(guilty, words):
                        player.send(word)
            return time.monotonic() < began + LASTS

        it.party.play(attack)
        figures(f"{bursts} bursts; the one who reads slowly got {victim.beside} of their packets, and {victim.pings} pings")
        assert not are_answering(it, it.party.all) and bursts > LASTS / 2


TESTS = [asked_again, asked_again_by_a_line, buffers_filled_at_the_second]


def inside():
    """In the network of its own."""
    return tried(*TESTS)


def main():
    return tried_on_own_system(__file__, "pings that are lost")


if __name__ == "__main__":
    begin(main, inside)

"""The gateway's own code on a made-up system, tests/gateway/made_up: sockets, cards, clocks and memory are made up, and a seed says what
happens to it, thousands of turns of it in a second. After each turn it is looked at.

Alone it plays new seeds for some minutes, which make soak does: made_up.py MINUTES. The last line is 'N turns, M faults'. A seed that found
something plays the same again: build/made-up SEED TURNS [--tell].
"""
import os
import subprocess
import sys
import time

from systems import SYSTEM, Linux
from trying import Counts, begin, left_out, tried

SECONDS = 60  # of new seeds in the gate
TURNS = 12000  # of a seed
MOST_SECONDS = 600  # of a seed, on a machine that is busy or slow
SANITIZER = "detect_stack_use_after_return=0:malloc_context_size=12"
TOLD = 12  # lines of what a seed says, at most


class Played:
    """A seed that was played."""

    def __init__(self, seed, turns=TURNS):
        self.seed = seed
        words = [SYSTEM.made_up, str(seed), str(turns)]
        environment = {**os.environ, "ASAN_OPTIONS": SANITIZER}
        run = subprocess.run(words, capture_output=True, timeout=MOST_SECONDS, env=environment, check=False)
        self.said = run.stdout.decode(errors="replace") + run.stderr.decode(errors="replace")
        self.is_well = run.returncode == 0

    def turns(self):
        """How many it made: the gateway may have ended before, where it couldn't begin."""
        return int(self.said.split(" turns", 1)[0].rsplit(" ", 1)[1]) if self.is_well else 0

    def fault(self):
        """What is wrong, with seed and turn."""
        lines = self.said.splitlines()
        return "\n".join([*lines[:TOLD], *(it for it in lines[TOLD:] if it.startswith("made_up: "))])


def new_seeds():
    """One after the other; the first is new each time."""
    first = int.from_bytes(os.urandom(5), "big")
    while True:
        yield first
        first += 1


def play_new(seconds):
    """Plays new seeds. Returns them, and the one that found something, or None."""
    played, end = [], time.monotonic() + seconds
    for seed in new_seeds():
        played.append(Played(seed))
        if not played[-1].is_well or time.monotonic() > end:
            return played


def tell(played):
    turns = sum(it.turns() for it in played)
    print(f"        seeds {played[0].seed} to {played[-1].seed}: {turns} turns", flush=True)


def new_ones():
    """Whatever happens, after each turn limits, clients, ports, descriptors and memory agree, and each packet has one fate."""
    played = play_new(SECONDS)
    tell(played)
    assert played[-1].is_well, played[-1].fault()


def the_same_again():
    """A seed plays the same each time."""
    first, again = Played(2, 2000), Played(2, 2000)
    assert first.is_well, first.fault()
    assert first.said == again.said, f"{first.said}{again.said}"


# Seeds that found what was once wrong, and the turns that they needed: two links of a network with port 0 that a reload joined; a 65th link
# that overwrote what stands behind 64. And those that find what is planted today: newcomers who aren't let in with `strangers 1` (4); a client
# that is pinged while it waits for its node (2, 6); a segment that is told places (2).
FOUND = {1: 2500, 2: 1600, 3: 2500, 4: 3200, 6: 2900, 426789305747: 7000}


def those_that_found():
    """What was wrong once isn't found again by the seeds that found it."""
    for seed, turns in FOUND.items():
        played = Played(seed, turns)
        assert played.is_well, played.fault()


def main():
    if SYSTEM is Linux:
        return tried(the_same_again, those_that_found, new_ones)
    left_out("the gateway on a made-up system", "it is the same code on each system, and is played on this machine's own")
    return Counts()


def soak(minutes):
    """Plays new seeds for some minutes."""
    played = play_new(60 * minutes)
    tell(played)
    is_well = played[-1].is_well
    if not is_well:
        print(f"FAULT   gateway: {played[-1].fault()}")
    print(f"{sum(it.turns() for it in played)} turns, {int(not is_well)} faults")
    return 0 if is_well else 1


if __name__ == "__main__":
    if sys.argv[1:]:
        sys.exit(soak(float(sys.argv[1])))
    begin(main)

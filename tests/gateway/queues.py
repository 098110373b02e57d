"""What is limited, in two programs with a clock of their own (queues.c, minutes.c): minutes and hours pass in a moment."""
import random
import subprocess

from lab import LIMIT
from systems import SYSTEM
from trying import begin, figures, named, tried

CALLS = 1_000_000
PATIENCE = 20 * LIMIT  # (they calculate all the time, and with 32 bits and an emulator for a minute alone)


def plays(*words, program=SYSTEM.minutes):
    """Runs a program, and shows what it saw."""
    run = subprocess.run([*SYSTEM.quick, program, *map(str, words)], capture_output=True, timeout=PATIENCE, check=False)
    said = run.stdout.decode() + run.stderr.decode()
    assert run.returncode == 0, f"{words}: {said}"
    figures(said.splitlines()[-1])


def a_million_calls():
    """By a million random calls, of packets in one to four frames, queues are as long as a simple model says, and empty in the end; or if
    the clock is set back."""
    seed = random.randrange(1 << 30)
    figures(f"seed {seed}")
    plays(seed, CALLS, program=SYSTEM.queues)


TESTS = (
    a_million_calls,
    named("for ten minutes five say 35 packets a second in four kinds of frames, a sixth 80: the five are heard", plays, "link", 4, 80),
    named("the same where the sixth says 60", plays, "link", 4, 60),
    named("the same in three kinds of frames, the sixth 132", plays, "link", 3, 132),
    named("the same in two kinds, the sixth 290", plays, "link", 2, 290),
    named("of one who floods for a minute, and one who says less than his part", plays, "parts", 1),
    named("of 16 who flood for a minute each has its part", plays, "parts", 16),
    named("of 180 who flood for a minute each has its part", plays, "parts", 180),
    named("what one receives at once, of one to 40 addresses", plays, "once"),
    named("for ten minutes four play by a line of 1.25 Mbit/s, beside one who says 1,000 long packets a second", plays, "line", 1250),
    named("for ten minutes one says the longest packets by a line of 8 kbit/s, which carries nine tenths of that at most", plays, "narrow"),
    named("for five minutes an address has 60 silent clients by a line of 1 Mbit/s: four players within their parts are heard", plays,
          "silent"),
    named("for two minutes three addresses with 20 silent clients each flood a line of 1 Mbit/s: five players within their parts lose nothing",
          plays, "crowds"),
    named("for two minutes two addresses flood a line of 1 Mbit/s, and themselves: a player within his parts loses nothing", plays, "itself"),
    named("for two minutes answers to pings flood a line of 1 Mbit/s: a PC of QEMU is heard", plays, "pings"),
    named("for two minutes two of four addresses flood a line of 1 Mbit/s: the others, a PC of QEMU and the router lose nothing", plays,
          "networks"),
    named("for two minutes seven players say more than a line of 1 Mbit/s carries: a PC of QEMU and the router lose nothing", plays, "beyond"),
    named("for two minutes two addresses register again and again, and flood a line of 300 kbit/s: a third's registrations are answered", plays,
          "again"),
    named("of 130 addresses that spoke to a line those who speak on have numbers of their own again: four players lose nothing", plays,
          "numbers"),
    named("for ten minutes clients and a link ask the router, and tell it, more than it hears", plays, "router"),
    named("eleven links tell the router as much as each may for a minute: it hears as much as of one, and a twelfth's tables", plays, "links"),
    named("what an address says to the router on one network doesn't use up another network's limits, nor does what was said before a reload",
          plays, "accounts"),
    named("what one limit refuses isn't counted by another", plays, "none"),
    named("for ten minutes clients and strangers ask the gateway, and ping all, more often than they may", plays, "gateway"),
    named("what a client or its address has no room for isn't counted by the other", plays, "address"),
    named("somebody floods an address' clients on a network that lets them receive little: on another they hear all", plays, "two"),
)


def main():
    return tried(*TESTS)


if __name__ == "__main__":
    begin(main)

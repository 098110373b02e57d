"""The suite that any router can be tried by (tools/conformance): the gateway agrees with all of it, a bridge with nothing; and it sees what is
changed."""
import os
import subprocess
import sys
import time

from cards import has_bridges, has_taps
from frames import KINDS
from lab import Clock, Gateway, played_anew
from spaces import ip
from systems import SYSTEM, TOP
from trying import Counts, begin, left_out, named, tried, tried_on_own_system

sys.path.append(os.path.join(TOP, "tools", "lib"))
import conformance_links  # noqa: E402
import conformance_play  # noqa: E402
import scenarios  # noqa: E402

TOOL = os.path.join(TOP, "tools", "conformance")
TIMES, SHORT = conformance_play.Times(3, 0.2), conformance_play.Times(1, 0.2)
NETWORKS = (0xA10, 0xA20, 0xA30)  # of the router that is tried as somebody else's
# What a bridge does otherwise, by the scenario that says so: it answers nothing, raises nothing, holds nothing back and learns nothing.
OF_A_BRIDGE = {
    "answers/all-routes": "network=20 hops=1 ticks=2 control=0; came nothing",
    "forwarding/known-network": "control 0 (not 1)",
    "forwarding/transport-control": "control 14 (not 15)",
    "forwarding/own-network": "expected nothing on network 20, came data",
    "forwarding/broadcast": "expected nothing on network 20, came data",
    "type-20/to-all-others": "content data=C0FFEE (not crossed=10 data=C0FFEE)",
    "learning/route": "hops=1 ticks=2 (not network=CD01 hops=2 ticks=3)",
}
CHANGED = ("answers/all-routes", "learning/route", "type-20/eight-networks")
SLOW = [it for it in scenarios.files() if f"/{scenarios.SLOW}/" in it]
# Seconds of a clock that the test sets: in which the gateway opens its links, and how long each lasts; and a frame that is no packet.
FIRST, BETWEEN_SECONDS = 3, 0.02
PHASES = (13, 29)
NO_IPX = (b"\xff" * 6 + bytes.fromhex("0200000000EE88B5")).ljust(60, b"\0")


def said(*words):
    """What the suite says, line by line, and how it ends."""
    done = subprocess.run([sys.executable, TOOL, *words], capture_output=True, text=True, check=False)
    assert done.returncode in (0, 1) and not done.stderr, done.stderr
    return done.stdout.splitlines(), done.returncode


def all_agree(*words, sections=(), left=0):
    """All scenarios agree but the slow ones, or those of some sections; and some are left out."""
    lines, status = said(*words, *sections)
    count = sum(it not in SLOW and (not sections or os.path.basename(os.path.dirname(it)) in sections) for it in scenarios.files()) - left
    assert status == 0 and lines[-1] == f"{count} agree, 0 differ", "\n".join(it for it in lines if not it.endswith(": agrees"))


@played_anew
def the_gateway():
    """The gateway agrees with each scenario that takes no minutes."""
    all_agree("--gateway", SYSTEM.program)


@played_anew
def in_raw_frames():
    """So do packets in raw frames, where they have no checksum."""
    all_agree("--gateway", SYSTEM.program, "--frames", "raw", sections=("forwarding", "type-20"), left=1)


def differences(lines):
    """What the lines say of each scenario."""
    found, title = {}, ""
    for it in lines:
        if not it.startswith(" ") and ": differs: " in it:
            title, it = it.split(": differs: ", 1)
        if title:
            found.setdefault(title, []).append(it)
    return {name: "\n".join(some) for name, some in found.items()}


def a_bridge():
    """Of a bridge it says what is no router's: nothing is answered or learned, all is carried everywhere, and no count is raised."""
    lines, status = said("--bridge", "--wait", "0.2", *OF_A_BRIDGE)
    found = differences(lines)
    assert status == 1 and lines[-1] == f"0 agree, {len(OF_A_BRIDGE)} differ" and set(found) == set(OF_A_BRIDGE), lines
    for title, words in OF_A_BRIDGE.items():
        assert words in found[title], f"{title}: {found[title]}"


@played_anew
def somebodys_router():
    """A router that nobody starts anew, by cards that lead to it, with numbers of its own; it knows more than the scenarios say. What they told
    it is taken back, so that they may be played again."""
    names = [f"cr{k}" for k in range(len(NETWORKS))]
    for it in names:
        ip("tuntap", "add", it, "mode", "tap")
        ip("link", "set", it, "up")
    text = "".join(f"network {number:X} 1 1492 tap {name} llc\n" for number, name in zip(NETWORKS, names))
    try:
        with Gateway(f"{text}internal A77\n"):
            words = ["--links", ",".join(names), "--frames", "llc", "--networks", ",".join(f"{it:X}" for it in NETWORKS), "--wait", "0.3"]
            all_agree(*words)
            all_agree(*words, sections=("learning",))
    finally:
        for it in names:
            ip("link", "del", it)


def changes(packet):
    """A packet that isn't the one that comes: to another node, by another count, with another last byte; and none."""
    bytes_ = packet.bytes
    yield packet._replace(node=bytes.fromhex("0200000000EE"))
    yield packet._replace(bytes=bytes_[:4] + bytes([bytes_[4] ^ 1]) + bytes_[5:])
    yield packet._replace(bytes=bytes_[:-1] + bytes([bytes_[-1] ^ 1]))
    yield None


def line_of(packet):
    return f"out {packet.port} {packet.node.hex()} {packet.bytes.hex()}"


def with_another(scenario):
    """The scenario, each time with another answer to the first event behind the start that has one."""
    events = scenario.events
    k = next(k for k, it in enumerate(events) if k and it.sent())
    for changed in changes(events[k].sent()[0]):
        answers = [line_of(it) for it in (changed, *events[k].sent()[1:]) if it]
        yield scenario._replace(events=[*events[:k], events[k]._replace(answers=answers), *events[k + 1:]])


@played_anew
def what_is_changed(title):
    """What is changed in one answer that is kept is seen, and where."""
    scenario = scenarios.load(os.path.join(scenarios.FOLDER, f"{title}.script"))
    bench = conformance_links.Gateway(SYSTEM.program, "ethernet2", len(scenario.ports))
    try:
        for it in with_another(scenario):
            wrong = conformance_play.Play(bench, it, {}, SHORT).run()
            bench.end()
            assert len(wrong) == 1 and wrong[0][0].line == next(event.line for event in scenario.events[1:] if event.sent()), wrong
    finally:
        bench.close()
        for name in bench.names:
            ip("link", "del", name)


class ByClock(conformance_links.Gateway):
    """A gateway whose seconds pass by a clock that the test sets."""

    def __init__(self, kind, most):
        self.clock = Clock()
        super().__init__(SYSTEM.fast, kind, most)

    def environment(self):
        return {**super().environment(), **self.clock.environment()}

    def first_heard(self, count):
        self.let_pass(FIRST)
        return super().first_heard(count)

    def let_pass(self, seconds):
        for _ in range(seconds):
            self.clock.let_pass(1)
            self.links[0].socket.send(NO_IPX)  # (by which it looks at the clock)
            time.sleep(BETWEEN_SECONDS)
        return 0


@played_anew
def slow_ones():
    """The slow scenarios agree, too, by a clock that the test sets."""
    for file in SLOW:
        scenario = scenarios.load(file)
        bench = ByClock(KINDS[0], len(scenario.ports))
        try:
            wrong = conformance_play.Play(bench, scenario, {}, TIMES).run()
            assert not wrong, [(event.line, what) for event, what in wrong]
        finally:
            bench.close()
            for name in bench.names:
                ip("link", "del", name)


class RunsOn(ByClock):
    """The same as somebody's router, which nobody starts anew."""

    is_foreign = True

    def begin(self, scenario, networks):
        if self.running:
            self.drain()
        else:
            super().begin(scenario, networks)

    def end(self):
        """(it runs on)"""

    def close(self):
        super().end()
        super().close()


@played_anew
def slow_ones_of_a_router_that_runs_on():
    """So they do of a router that runs on, wherever in its minute they begin."""
    bench = RunsOn(KINDS[0], 2)
    try:
        for phase in PHASES:
            for scenario in map(scenarios.load, SLOW):
                wrong = conformance_play.Play(bench, scenario, {}, TIMES).run()
                assert not wrong, [(phase, event.line, what) for event, what in wrong]
                bench.let_pass(phase)
    finally:
        bench.close()
        for name in bench.names:
            ip("link", "del", name)


def inside():
    """In the network of its own."""
    ip("link", "set", "lo", "up")
    counts = Counts()
    if has_taps():
        seen = [named(f"A changed answer of {it} is seen", what_is_changed, it) for it in CHANGED]
        counts += tried(the_gateway, in_raw_frames, somebodys_router, slow_ones, slow_ones_of_a_router_that_runs_on, *seen)
    else:
        left_out("the suite of conformance, of the gateway", "no TAP can be made")
    if has_bridges():
        return counts + tried(a_bridge)
    left_out("the suite of conformance, of a bridge", "no bridge can be made")
    return counts


def main():
    return tried_on_own_system(__file__, "the suite of conformance")


if __name__ == "__main__":
    begin(main, inside)

"""A trial beside other routers: what they tell is counted, they are asked each minute, and a text says what was seen."""
import os
import re
import struct
import subprocess

from edge import framed
from frames import Station, Udp
from lab import LIMIT, RIP, SAP, Clock, Gateway, packet, rip_response, sap_response, tunnels
from systems import SYSTEM
from trying import begin, has_linux, tried

DOSBOX, CABLE, ELSEWHERE = 0x10, 0x20, 0x99
ROUTER, SERVER, STRANGER, DENIED = (bytes.fromhex(f"0200000000{it}") for it in ("AA", "BB", "CC", "DD"))
ASKS_FROM = struct.pack(">H", 0x4FD0)
TEXT, CAPTURE = "ipxr-try.txt", "ipxr-try.pcap"
MINUTE, MINUTES = 60, 10
FILE_SERVERS = 4
# What the text says below its first line.
SEEN = """network 00000010, cost 1, node {0}, on {2}
  nobody told routes or services, or answered
network 00000020, cost 1, node {1}, on {3}
  router 0200000000AA
    RIP: responses 11, rounds 10, 60.0 to 60.0 s from one to the next; most routes in a round 4; with a last entry that isn't whole 1
    answered: requests for all routes 5 of 10; queries for the nearest file server 1 of 10
  server 0200000000BB
    SAP: responses 10, rounds 10, 60.0 to 60.0 s from one to the next; most services in a round 1; all read
    answered: requests for all routes 0 of 10; queries for the nearest file server 0 of 10
  router 0200000000CC, which calls the network 00000099
    RIP: responses 1, rounds 1; most routes in a round 1; not read 1, the last: drop NoRoute
    answered: requests for all routes 0 of 10; queries for the nearest file server 0 of 10
  router 0200000000DD
    RIP: responses 1, rounds 1; most routes in a round 1; not read 1, the last: denied
    answered: requests for all routes 0 of 10; queries for the nearest file server 0 of 10
"""


class Trial(Gateway):
    """A gateway that is tried, by a clock that the test sets, in a folder of its own."""

    def __init__(self, wire):
        self.clock = Clock()
        cable = f"network {CABLE:X} 1 1490 qemu-udp 0 {wire.port} raw\ndeny route 1000 in\n"
        super().__init__(tunnels(1) + cable, SYSTEM.fast, environment=self.clock.environment())
        wire.to = self.ports[CABLE]
        self.report()  # (the trial has begun, before time passes)

    def start(self, program, options=(), environment=None, before=()):
        there = ["sh", "-c", 'cd "$0" && exec "$@"', self.folder.name]
        super().start(program, ["try", *options], environment, [*before, *there])

    def links(self):
        """What it calls its links."""
        return [re.search(r"(?<= on ).*(?=, node )", it)[0] for it in self.lines[:2]]

    def passes(self, seconds):
        """Some seconds pass, and the gateway has heard of them."""
        self.clock.let_pass(seconds)
        self.report()

    def ends(self):
        """It ends by itself. Returns its text."""
        self.clock.let_pass(MINUTE)
        out, complaint = self.run.communicate(timeout=LIMIT)
        assert self.run.returncode == 0 and not complaint, complaint.decode()
        assert f"{TEXT} has what was seen, and {CAPTURE} all that passed" in out.decode()
        assert os.path.getsize(os.path.join(self.folder.name, CAPTURE)) > 24
        with open(os.path.join(self.folder.name, TEXT), encoding="ascii") as it:
            return it.read()


def answers(station, asked, data):
    """A router answers what it was asked."""
    told = packet(asked[18:30], station.at(int.from_bytes(asked[16:18], "big")), data, kind=1)
    station.wire.send(station.gateway + station.node + struct.pack(">H", len(told)) + told)


def is_asked(socket):
    return lambda it: it[28:30] == ASKS_FROM and it[16:18] == struct.pack(">H", socket)


def what_is_seen():
    """Each minute routers are asked for all routes and for the nearest server. The text counts what each neighbour told and answered, how often,
    and what wasn't read."""
    wire = Udp()
    gate, sent = Trial(wire), 0
    router = Station(wire, "raw", CABLE, ROUTER, gate.nodes[CABLE])
    for minute in range(MINUTES):
        gate.passes(5 if minute == 0 else MINUTE)
        for_routes, for_server = router.hear(is_asked(RIP)), router.hear(is_asked(SAP))
        assert for_routes[30:] == struct.pack(">HIHH", 1, 0xFFFFFFFF, 0xFFFF, 0xFFFF) and for_server[30:] == struct.pack(">HH", 3, FILE_SERVERS)
        if minute % 2:
            answers(router, for_routes, struct.pack(">HIHH", 2, 0x51, 1, 2))
        if minute == 0:
            answers(router, for_server, struct.pack(">HH48sI6sHH", 4, FILE_SERVERS, b"NEAREST", 0x51, SERVER, 0x451, 1))
        told = rip_response(CABLE, ROUTER, [(0x51, 1, 2), (0x52, 1, 2)])
        wire.send(framed(told))
        if minute == 3:
            wire.send(framed(told[:2] + struct.pack(">H", len(told) + 3) + told[4:] + b"end"))
            wire.send(framed(rip_response(ELSEWHERE, STRANGER, [(0x53, 1, 2)])))
            wire.send(framed(rip_response(CABLE, DENIED, [(0x1000, 1, 2)])))
        wire.send(framed(sap_response(0 if minute == MINUTES - 1 else CABLE, SERVER, [(FILE_SERVERS, "SERVER", CABLE, SERVER, 0x451, 1)])))
        sent += 2 + minute % 2 + (minute == 0) + 3 * (minute == 3)
        gate.until_counted(CABLE, "in", sent)
    assert gate.ends().partition("\n")[2] == SEEN.format(*(gate.nodes[it].hex().upper() for it in (DOSBOX, CABLE)), *gate.links())
    assert "  00000053 " not in "\n".join(gate.lines)


def wrong_words():
    """What isn't minutes is said, and no trial begins."""
    minutes = "expected minutes, 1 to 1440"
    for words, expected in (("", "expected a configuration behind try"), ("net.conf 0", f"'0': {minutes}"), ("net.conf 1441", f"'1441': {minutes}"),
                            ("net.conf 10m", f"'10m': {minutes}"), ("net.conf 1 2", "'2': expected nothing more")):
        done = subprocess.run([*SYSTEM.quick, SYSTEM.program, "try", *words.split()], capture_output=True, text=True, check=False)
        assert done.returncode == 64 and expected in done.stderr, done.stderr


def main():
    counts = tried(wrong_words)
    return counts + tried(what_is_seen) if has_linux("a trial beside other routers", "the clock that a test sets is Linux' own") else counts


if __name__ == "__main__":
    begin(main)

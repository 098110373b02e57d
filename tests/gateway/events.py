"""Who follows what happens is told each client, link, route and service that comes or goes."""
import contextlib
import json
import os
import re
import select
import signal
import socket
import subprocess
import time

from lab import ALL_THERE_IS, LIMIT, Client, reaches, rip_response, tunnels
from status import ROUTES, Watched, advertise
from systems import SYSTEM, Windows
from trying import begin, tried

UNREACHABLE = 16  # hops


class Follower:
    """Somebody who follows, and the events that he is told."""

    def __init__(self, gate, *words):
        command = [*SYSTEM.quick, SYSTEM.program, "show", "events", *words, "--status", gate.path]
        self.run = subprocess.Popen(command, stdout=subprocess.PIPE)
        self.rest, self.gate, self.words = b"", gate, words
        self.is_json = "--json" in words

    def line(self):
        """The next line that he is told."""
        end = time.monotonic() + LIMIT
        while b"\n" not in self.rest:
            ready, _, _ = select.select([self.run.stdout], [], [], max(0, end - time.monotonic()))
            piece = os.read(self.run.stdout.fileno(), 65536) if ready else b""
            assert piece, f"no event comes any more behind {self.rest}"
            self.rest += piece
        line, self.rest = self.rest.split(b"\n", 1)
        return json.loads(line) if self.is_json else line.decode("ascii").removesuffix("\r")

    def told(self, **wanted):
        """Waits for an event that has these."""
        while True:
            found = self.line()
            if wanted.items() <= found.items():
                return found

    def begins(self):
        """Waits until he is told what happens."""
        for _ in range(LIMIT):
            Client(self.gate.ports[0x10]).close()
            ready, _, _ = select.select([self.run.stdout], [], [], 1)
            if ready:
                return self
        raise AssertionError("nobody tells who follows what happens")

    def __enter__(self):
        return self.begins()

    def __exit__(self, *_):
        self.run.kill()
        self.run.communicate()


def come_and_go():
    """Clients, routes and services that come, change and go are told as JSON."""
    with Watched(tunnels(1)) as gate, Follower(gate, "--json") as follower:
        a = Client(gate.ports[0x10])
        node = a.node.hex().upper()
        told = follower.told(event="client comes", client=node)
        assert (told["network"], told["address"]) == ("00000010", a.where())
        advertise(a, [b"SE\"RVER\x1b"], [(0x77, 2, 3)])
        told = {}
        while len(told) < 2:
            found = follower.line()
            told[found["event"]] = found
        route, service = told["route comes"], told["service comes"]
        assert (route["network"], route["hops"], route["ticks"], route["by"], route["on"]) == ("00000077", 2, 3, node, "00000010")
        assert (service["type"], service["name"], service["node"], service["socket"]) == ("0640", "SE\"RVER\x1b", node, "0451")
        advertise(a, routes=[(0x77, 3, 4)])
        assert follower.told(event="route changes")["hops"] == 3
        advertise(a, routes=[(0x77, 3, 5)])
        told = follower.told(event="route changes")
        assert (told["hops"], told["ticks"]) == (3, 5), "the ticks alone are others"
        advertise(a, routes=[(0x77, UNREACHABLE, 4)])
        assert follower.told(event="route goes")["network"] == "00000077"


def links():
    """A link that goes up and down is told, with what it lacks."""
    with Watched(tunnels(1) + "network 30 1 1500 qemu-tcp listen 127.0.0.1:0 raw\n") as gate, Follower(gate, "--json") as follower:
        with socket.create_connection(("127.0.0.1", gate.ports[0x30])):
            assert follower.told(event="link up")["network"] == "00000030"
        told = follower.told(event="link down")
        assert told["network"] == "00000030" and told["link"].startswith("qemu-tcp listen 127.0.0.1:") and told["lacks"]


def links_by_reload():
    """A link of several that the configuration adds, and takes away again, is told, though nobody is connected there."""
    network = "network 20 1 1424\nlink qemu-tcp listen 127.0.0.1:0 raw\n"
    added = "link qemu-tcp listen 127.0.0.1:0 llc\n"
    with Watched(tunnels(1) + network) as gate, Follower(gate, "--json") as follower:
        for text, event in ((network + added, "link down"), (network, "link removed")):
            with open(gate.configuration, "w", encoding="utf-8") as file:
                file.write(tunnels(1) + text)
            gate.run.order(signal.SIGHUP)
            told = follower.told(event=event)
            assert told["network"] == "00000020" and told["link"].endswith(" llc"), told
            assert gate.told(f"a link of network 00000020 is {event.split()[1]}: qemu-tcp listen")


def in_words():
    """The same in lines that one can read, with the time in front, as the gateway says them itself."""
    with Watched(tunnels(1)) as gate, Follower(gate) as follower:
        a = Client(gate.ports[0x10])
        line = gate.told(f"client {a.node.hex().upper()} comes to 00000010")
        while (told := follower.line()).split(" ", 1)[1] != line.split(" ", 1)[1]:
            pass
        assert float(told.split(" ", 1)[0]) >= float(line.split(" ", 1)[0])
        advertise(a, [b"\x1b[2J"], [])
        while "service" not in (told := follower.line()):
            pass
        assert r" service 0640 \x1B[2J comes: 00000010." in f" {told.split(' ', 1)[1]}", told


def seconds_of(gate):
    """The seconds that have passed for a gateway, in each of which it looks at its tables."""
    return int(re.search(r"(?m)^report after (\d+) s$", gate.report())[1])


def late_reader():
    """Who reads nothing is told how many events are missing once he reads; meanwhile packets pass, and nothing is held up."""
    with Watched(tunnels(2, shares=ALL_THERE_IS, extra="rate none\n")) as gate:
        a, b = Client(gate.ports[0x10]), Client(gate.ports[0x20])
        with gate.connects(b"show events json\n") as it:
            assert it.recv(1) == b"+"
            for hops in range(2, 8):
                advertise(a, routes=[(0x1000 + k, hops, hops) for k in range(ROUTES)])
                second = seconds_of(gate)
                while seconds_of(gate) == second:
                    assert reaches(a, b)
            heard, lines = b"", []
            while not any(line.get("event") == "missing" for line in lines):
                heard += it.recv(65536)
                lines = [json.loads(line) for line in heard.split(b"\n")[:-1]]
                with contextlib.suppress(OSError):
                    a.send(rip_response(a.network, a.node, [(0x1000, len(lines) % 15 + 1, 2)]))
        missing = next(line["number"] for line in lines if line.get("event") == "missing")
        assert missing > 0 and sum(line["event"] == "route comes" for line in lines) > 0


def main():
    if SYSTEM is Windows:
        return tried(come_and_go, links, in_words)
    return tried(come_and_go, links, links_by_reload, in_words, late_reader)


if __name__ == "__main__":
    begin(main)

"""Links for the conformance suite: packets in frames, on the cards or TAPs that lead to a router; and what can stand behind them: the gateway,
which is started anew for each scenario, somebody's router, or a bridge, which is none."""
import contextlib
import os
import socket
import struct
import subprocess
import tempfile
import time
from typing import NamedTuple

import ipx_packets as ipx

FRONTS = {"raw": b"", "llc": b"\xe0\xe0\x03", "snap": b"\xaa\xaa\x03\0\0\0\x81\x37"}
KINDS = ("ethernet2", *FRONTS)
LONGEST = {"ethernet2": 1500, "raw": 1500, "llc": 1497, "snap": 1492}
IPX_TYPE, MOST_LENGTH = b"\x81\x37", 0x600
ALL_PROTOCOLS, OUTGOING = 3, 4
SOL_PACKET, ADD_MEMBERSHIP, PROMISCUOUS = 263, 1, 1
SHORTEST = 60
ROOM = 1 << 20
START = 15  # seconds in which a router must say something once it was started
CALM = 0.3  # seconds without a packet, after which its start is over


class Heard(NamedTuple):
    """A packet that came: from and to which node its frame is, and its bytes."""

    source: bytes
    to: bytes
    bytes: bytes


class NoRouter(Exception):
    """Why nothing can be tried."""


def frame(kind, to, source, bytes_):
    if kind == "ethernet2":
        return (to + source + IPX_TYPE + bytes_).ljust(SHORTEST, b"\0")
    whole = FRONTS[kind] + bytes_
    return (to + source + struct.pack(">H", len(whole)) + whole).ljust(SHORTEST, b"\0")


def unframed(kind, bytes_):
    """The packet of a frame of that kind, without its padding; or None."""
    field, rest = bytes_[12:14], bytes_[14:]
    if kind == "ethernet2":
        found = rest if field == IPX_TYPE else None
    else:
        front, length = FRONTS[kind], int.from_bytes(field, "big")
        fits = length < MOST_LENGTH and rest.startswith(front) and (kind != "raw" or rest.startswith(b"\xff\xff"))
        found = rest[len(front):length] if fits else None
    return ipx.cut(found) if found is not None and len(found) >= ipx.HEADER else None


class Link:
    """A card or a TAP that leads to the router."""

    def __init__(self, name, kind):
        self.name, self.kind = name, kind
        with self.named():
            self.socket = socket.socket(socket.AF_PACKET, socket.SOCK_RAW, socket.htons(ALL_PROTOCOLS))
            self.socket.setsockopt(socket.SOL_SOCKET, socket.SO_RCVBUF, ROOM)
            self.socket.bind((name, ALL_PROTOCOLS))
            # (the router writes to the nodes of the scenario, and not to the card's)
            member = struct.pack("iHH8s", socket.if_nametoindex(name), PROMISCUOUS, 0, b"")
            self.socket.setsockopt(SOL_PACKET, ADD_MEMBERSHIP, member)
        self.socket.setblocking(False)

    @contextlib.contextmanager
    def named(self):
        """A fault of the system names the card."""
        try:
            yield
        except OSError as why:
            raise NoRouter(f"{self.name}: {why.strerror}") from why

    def send(self, to, source, bytes_):
        with self.named():
            self.socket.send(frame(self.kind, to, source, bytes_))

    def receive(self):
        """All packets that came by now."""
        found = []
        while True:
            try:
                bytes_, place = self.socket.recvfrom(65536)
            except BlockingIOError:
                return found
            except OSError as why:
                raise NoRouter(f"{self.name}: {why.strerror}") from why
            packet = unframed(self.kind, bytes_) if place[2] != OUTGOING else None
            if packet is not None:
                found.append(Heard(bytes_[6:12], bytes_[:6], packet))

    def close(self):
        self.socket.close()


def run(*words):
    done = subprocess.run(words, capture_output=True, text=True, check=False)
    if done.returncode:
        raise NoRouter(f"{' '.join(words)}: {done.stderr.strip()}")


def is_routers_own(heard):
    """Whether a router says it of itself: routes or services to all, or questions for them."""
    return ipx.sockets(heard.bytes)[1] in (ipx.RIP, ipx.SAP)


class Links:
    """Somebody's router, which is never started anew: what it tells of other networks and services than the scenario's is set aside."""

    is_foreign = True

    def __init__(self, names, kind, nodes=()):
        self.kind, self.names = kind, names
        self.links = [Link(it, kind) for it in names]
        self.nodes = list(nodes)
        self.own = self.aside = 0  # packets of its own accord, and entries that were set aside

    def begin(self, scenario, networks):
        """Gets it ready for a scenario. Afterwards `nodes` has its node on each link, or None where nobody was heard."""
        if len(self.nodes) < len(scenario.ports):
            self.nodes = self.asked(scenario, networks)
            for name, port, node in zip(self.names, scenario.ports, self.nodes):
                who = f"a router at node {ipx.number(node)}" if node else "no router is heard; what is for it goes to the node of the scenario"
                print(f"{name}, network {ipx.number(networks.get(port.network, port.network))}: {who}", flush=True)
        self.drain()

    def asked(self, scenario, networks):
        """Its node on each link, by its first packet; it is asked for all routes, since it may be silent for a minute."""
        for link, port in zip(self.links, scenario.ports):
            network, node = networks.get(port.network, port.network), b"\2\0\0\0\0\xa0"
            ends = network + ipx.EVERYONE + b"\4\x53" + network + node + b"\4\x53"
            link.send(ipx.EVERYONE, node, b"\xff\xff\0\x28\0\1" + ends + b"\0\1" + b"\xff" * 8)
        return self.first_heard(len(scenario.ports))

    def first_heard(self, count):
        found, end = [None] * count, time.monotonic() + START
        while None in found and time.monotonic() < end:
            time.sleep(0.02)
            for k, link in enumerate(self.links[:count]):
                said = [it.source for it in link.receive() if is_routers_own(it)]
                found[k] = found[k] or next(iter(said), None)
        return found

    def let_pass(self, seconds):
        """Lets some seconds pass. Returns how many are still to be waited for."""
        return seconds

    def drain(self):
        """Lets what is under way come, and forgets it."""
        calm = time.monotonic() + CALM
        end = calm + START
        while time.monotonic() < min(calm, end):
            time.sleep(0.02)
            if any([link.receive() for link in self.links]):
                calm = time.monotonic() + CALM

    def end(self):
        """After a scenario."""

    def close(self):
        for it in self.links:
            it.close()


class Gateway(Links):
    """Our gateway by TAPs: each scenario has one of its own."""

    is_foreign = False

    def __init__(self, program, kind, most):
        names = [f"cf{k}" for k in range(most)]
        for it in names:
            run("ip", "tuntap", "add", it, "mode", "tap")
            run("ip", "link", "set", it, "up")
        super().__init__(names, kind)
        self.program, self.running, self.folder = program, None, tempfile.TemporaryDirectory()

    def configuration(self, scenario, networks):
        text = ""
        for name, port in zip(self.names, scenario.ports):
            network = networks.get(port.network, port.network)
            text += f"network {network.hex()} {port.cost} {min(port.longest, LONGEST[self.kind])} tap {name} {self.kind}\nadopt no\n"
        return text

    def begin(self, scenario, networks):
        file = os.path.join(self.folder.name, "gateway.conf")
        with open(file, "w", encoding="ascii") as it:
            it.write(self.configuration(scenario, networks))
        self.drain()
        how = {"stdin": subprocess.DEVNULL, "stdout": subprocess.DEVNULL, "stderr": subprocess.PIPE}
        self.running = subprocess.Popen([self.program, file], env={**os.environ, **self.environment()}, **how)
        self.nodes = self.first_heard(len(scenario.ports))
        if None in self.nodes:
            self.end()
            raise NoRouter(f"the gateway was started, and sends nothing for {START} seconds")
        self.drain()

    def environment(self):
        return {"STATE_DIRECTORY": self.folder.name}

    def end(self):
        """Ends it. It must end well, and complain of nothing."""
        if self.running is None:
            return
        running, self.running = self.running, None
        running.terminate()
        said = running.communicate()[1].decode(errors="replace")
        if running.returncode or said:
            raise NoRouter(f"the gateway ended with status {running.returncode}: {said}")

    def close(self):
        self.end()
        super().close()
        self.folder.cleanup()


class Bridge(Links):
    """A bridge of Linux, which carries frames and reads no packet: what the suite says of what isn't a router."""

    def __init__(self, kind, most):
        run("ip", "link", "add", "cfbridge", "type", "bridge")
        run("ip", "link", "set", "cfbridge", "up")
        names = [f"cf{k}" for k in range(most)]
        for it in names:
            run("ip", "link", "add", it, "type", "veth", "peer", "name", f"{it}b")
            run("ip", "link", "set", f"{it}b", "master", "cfbridge")
            run("ip", "link", "set", f"{it}b", "up")
            run("ip", "link", "set", it, "up")
        super().__init__(names, kind)

    def asked(self, scenario, networks):
        """(nobody answers: there is no router)"""
        return [None] * len(scenario.ports)

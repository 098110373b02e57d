"""Plays a scenario to what stands behind links, and compares what comes with what is kept."""
import time
from typing import NamedTuple

import ipx_packets as ipx

LOOK = 0.01
MOST_NAMED = 4  # fields that differ, and are named one by one
# The node of a router beside, which carried what isn't from the network itself.
BESIDE = bytes.fromhex("0200000000FE")


class Times(NamedTuple):
    """How long is waited, in seconds: for what must come, and for what must not."""

    patience: float
    quiet: float


class Packet(NamedTuple):
    """A packet on a link, as it is compared: from and to which node its frame is, and its bytes, entries sorted."""

    port: int
    source: bytes
    to: bytes
    bytes: bytes


def in_order(bytes_):
    """A packet with its entries sorted: no order is laid down for them."""
    found = ipx.entries(bytes_)
    return ipx.with_entries(bytes_, sorted(found)) if found else bytes_


def is_routing(bytes_):
    """Whether it is from the sockets of routing or services, or for them."""
    return ipx.is_of(bytes_, ipx.RIP) or ipx.is_of(bytes_, ipx.SAP)


def is_own(bytes_):
    """Whether a router says it from the socket of routers to all others'."""
    to, source = ipx.sockets(bytes_)
    return to == source and to in (ipx.RIP, ipx.SAP)


class Play:
    """One scenario, played once."""

    def __init__(self, bench, scenario, networks, times):
        self.bench, self.scenario, self.networks, self.times = bench, scenario, networks, times
        bench.begin(scenario, networks)
        self.nodes = [found or port.node for found, port in zip(bench.nodes, scenario.ports)]
        self.pairs = {(port.network, port.node): node for port, node in zip(scenario.ports, self.nodes)}
        self.stations = {self.real(it)[22:28] for it in scenario.packets() if len(it) >= ipx.HEADER} - set(self.nodes)
        self.sources = {self.real(it)[18:30] for it in scenario.packets()}
        self.known = {ipx.key(entry) for it in scenario.packets() for entry in ipx.entries(self.real(it))}
        self.known |= {self.network(port) for port in scenario.ports}
        self.told = [set() for _ in scenario.ports]  # what was advertised on each link by now
        self.wrong = []

    # ---- The scenario's numbers, and the router's own ----

    def network(self, port):
        return self.networks.get(port.network, port.network)

    def real(self, bytes_):
        return ipx.mapped(bytes_, self.networks, self.pairs)

    def expected(self, event):
        """What a router sends then, by its own numbers."""
        found = []
        for it in event.sent():
            packet = in_order(self.real(it.bytes))
            found.append(Packet(it.port, self.nodes[it.port], it.node, packet))
            if ipx.is_response(packet):
                self.told[it.port] |= set(ipx.entries(packet))
        return found

    # ---- Playing ----

    def run(self):
        """Plays all events. Returns what differs, each with the event."""
        self.play_events()
        if self.bench.is_foreign:
            self.withdraw()
        return self.wrong

    def withdraw(self):
        """Takes back what was told to a router that runs on."""
        came = [it.words for it in self.scenario.events if it.words[0] == "in"]
        for port, bytes_ in ((int(port), bytes.fromhex(digits)) for _, port, digits in came):
            if ipx.is_response(bytes_):
                self.send(port, ipx.withdrawn(bytes_))

    def play_events(self):
        for event in self.scenario.events:
            wanted = self.expected(event)
            if event.words[0] == "in":
                self.send(int(event.words[1]), bytes.fromhex(event.words[2]))
                self.compare(event, wanted, self.collect(wanted, 0))
            elif event.words[0] == "second":
                came = self.collect([], int(event.words[1]))
                self.compare(event, self.of_minutes(wanted), self.of_minutes(came))

    def send(self, port, bytes_):
        """A packet as its sender would send it: to the router, to a node of the network, or to all."""
        packet, own = self.real(bytes_), self.network(self.scenario.ports[port])
        is_near = packet[6:10] in (own, bytes(4)) or ipx.is_propagated(packet)
        to = packet[10:16] if is_near else self.nodes[port]
        source = packet[22:28] if packet[18:22] in (own, bytes(4)) else BESIDE
        self.bench.links[port].send(to, source, packet)

    def of_minutes(self, packets):
        """What comes in a long time, each once: how often a router repeats itself depends on when its minute begins. How somebody's router
        divides it among packets is left to it."""
        return list(dict.fromkeys(divided(packets) if self.bench.is_foreign else packets))

    def collect(self, wanted, seconds):
        """What comes on all links in some seconds, and then until what is wanted is there and it was quiet for a while."""
        begun, came = time.monotonic() + self.bench.let_pass(seconds), []
        while True:
            for port, link in enumerate(self.bench.links[:len(self.nodes)]):
                came += filter(None, [self.seen(port, it) for it in link.receive()])
            came = merged(came) if self.bench.is_foreign else came
            passed = time.monotonic() - begun
            if passed >= (self.times.patience if without_packets(wanted, came) else self.times.quiet):
                return came
            time.sleep(LOOK)

    def seen(self, port, heard):
        """A packet that came, as it is compared; or None where it is of somebody else, or what a router tells of things beside the scenario."""
        if heard.source != self.nodes[port] and heard.source not in self.stations | {BESIDE}:
            return None
        packet = in_order(heard.bytes)
        if self.bench.is_foreign and ipx.is_response(packet):
            kept = [it for it in ipx.entries(packet) if ipx.key(it) in self.known]
            self.bench.aside += len(ipx.entries(packet)) - len(kept)
            if not kept:
                return None
            packet = ipx.with_entries(packet, kept)
        return Packet(port, heard.source, heard.to, packet)

    # ---- Comparing ----

    def is_own_accord(self, it):
        """Whether a router says it of its own accord: it asks other routers, or tells again what it told before. A server says other things,
        too."""
        if self.bench.is_foreign and it.source == self.nodes[it.port] and it.bytes[18:30] not in self.sources and not is_routing(it.bytes):
            return True
        if it.source != self.nodes[it.port] or it.to != ipx.EVERYONE or not is_own(it.bytes):
            return False
        return not ipx.is_response(it.bytes) or set(ipx.entries(it.bytes)) <= self.told[it.port]

    def compare(self, event, wanted, came):
        missing = without_packets(wanted, came)
        more = without_packets(came, wanted)
        own = [it for it in more if self.is_own_accord(it)]
        self.bench.own += len(own)
        more = [it for it in more if it not in own]
        for it in missing:
            twin = next((other for other in more if other.port == it.port), None)
            if twin:
                more.remove(twin)
            self.wrong.append((event, self.difference(it, twin)))
        for it in more:
            nothing = "nothing more" if any(other.port == it.port for other in wanted) else "nothing"
            self.wrong.append((event, f"expected {nothing} on network {self.called(it)}, came {self.words(it)}"))

    def called(self, it):
        return ipx.number(self.network(self.scenario.ports[it.port]))

    def words(self, it):
        """A packet in words, and whose frame it is, where that isn't the router's."""
        carried = "" if it.source == self.nodes[it.port] else f", in a frame from {ipx.number(it.source)} itself"
        return f"{ipx.words(it.bytes)}{carried}"

    def difference(self, wanted, came):
        """What was expected, and what came in its place: only what differs, if most is the same."""
        at = f"expected on network {self.called(wanted)} {ipx.words(wanted.bytes)}; came"
        if came is None:
            return f"{at} nothing"
        one, other = ipx.fields(wanted.bytes), ipx.fields(came.bytes)
        one["frame to"], other["frame to"] = ipx.number(wanted.to), ipx.number(came.to)
        one["frame from"], other["frame from"] = ipx.number(wanted.source), ipx.number(came.source)
        names = [it for it in one if one[it] != other[it]]
        if "kind" in names or len(names) > MOST_NAMED:
            return f"{at} {self.words(came)}"
        return f"{at} with " + ", ".join(f"{it} {other[it] or 'none'} (not {one[it] or 'none'})" for it in names)


def without_packets(packets, others):
    """The packets that are left where others are taken out, each once."""
    left, found = list(others), []
    for it in packets:
        if it in left:
            left.remove(it)
        else:
            found.append(it)
    return found


def divided(packets):
    """Each entry of a response as a packet of its own."""
    for it in packets:
        if ipx.is_response(it.bytes):
            yield from (it._replace(bytes=ipx.with_entries(it.bytes, [entry])) for entry in ipx.entries(it.bytes))
        else:
            yield it


def merged(packets):
    """Answers to one station as one packet: how a router divides what it has among packets is left to it."""
    found = {}
    for it in packets:
        front = it.bytes[:2], it.bytes[4:ipx.HEADER + 2]
        is_part = it.to != ipx.EVERYONE and ipx.is_response(it.bytes)
        key = (it.port, it.source, it.to, front) if is_part else (len(found), it)
        other = found.get(key)
        both = {*ipx.entries(other.bytes), *ipx.entries(it.bytes)} if other else ()
        found[key] = it._replace(bytes=in_order(ipx.with_entries(it.bytes, both))) if both else it
    return list(found.values())


def lacks(bench, scenario):
    """What hinders a scenario behind these links, or nothing."""
    if len(scenario.ports) > len(bench.names):
        return f"it wants {len(scenario.ports)} networks"
    has_checksum = any(it[:2] != b"\xff\xff" for it in scenario.packets())
    if has_checksum and bench.kind == "raw":
        return "packets in raw frames have no checksum"
    return ""

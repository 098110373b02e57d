"""Minutes of floods, on the gateway with the sanitizers: tools/gateway soak [MINUTES].

First each limit is driven over its number for a minute (driven.py). Then all comes at once: datagrams of all kinds, altered and made up,
from many places and in the name of others; frames the same on cards, in datagrams and on connections that are cut; cards that go down, come
up and are taken out; a link that the configuration has and hasn't. Meanwhile players play, who may lose 2 % at most, the gateway must end
well, and its memory must stay what it was. Two players of a network whose other links go and come lose nothing at all. Beside all of it the
gateway's code is played on a made-up system (made_up.py), by a process of its own; and gateways at several places share networks over the
Internet (soaked_places.py), by another one, which tells its own rounds. Behind it real DOSBox' connect by a lossy way (lossy.py). The last line
is 'N datagrams, M faults'.
"""
import collections
import os
import random
import signal
import socket
import subprocess
import sys
import time

import driven
import soaked_links
from altered import Frames
from attacks import ADDRESSES, NOBODYS, PORTS, Playground
from frames import Packets
from machine import Machine
from pair import OnWire, Pair
from players import FAST, Player
from spaces import GATEWAY, Field, Flood, build_flood, host, ip, own_addresses
from systems import SYSTEM
from trying import INSIDE, all_but_last, figures, left_out, way_inside
from vde import folder_of

MINUTES = 10
RATE = 5000  # datagrams a second of each flood
STAGE = 1.0  # seconds that a flood lasts
FRAMES = 4  # of each wire, each time the players are heard
MOST_OPEN = 4  # connections, up to which one more is begun
BETWEEN_CARDS = 0.7  # seconds between two changes of a card
BETWEEN_LINES = 2.3  # seconds until the configuration has a link that it hadn't, or hasn't it any more
# (what is no datagram)
CUT, CHANGED = "connections cut or refused", "cards switched, taken out or put in"
TURNED = "times that a configuration got some links, or lost them"
NO_DATAGRAMS = (CUT, CHANGED, TURNED, *soaked_links.NO_DATAGRAMS)
MOST_GROWN = 1.1  # memory at the end, as a part of that halfway, when each buffer has been used (they aren't touched before)
SANITIZER = "quarantine_size_mb=1:malloc_context_size=1"  # (else what is freed is kept, and counted as memory)
UDP_PORT, CARD_PORT, LISTEN_PORT, CONNECT_PORT = 5001, 5002, 5003, 5004
JOINED = 0x60  # the network of several links
CLIENT_PORT, WIRE_PORT, WIRED_PORT, LINK_PORT, TURN_PORT, FAR_PORT = GATEWAY[1] + 2, 5011, 5012, 5013, 5014, 5015
LIMITS_PART = 2 / 3  # the most of the time that limits are driven,
BESIDE = 20  # of which each stage needs some seconds before and after
LOSSY_PART = 1 / 5  # the time that real DOSBox' connect by a lossy way, behind the rest
FIRST_OF_PAIR = 240  # the number of the address of the first of two players there
CONFIGURATION = f"""network 10 1 1424 dosbox 0.0.0.0:{GATEWAY[1]}
network 20 1 1424 100 100 dosbox 0.0.0.0:{GATEWAY[1] + 1}
extend 4005
network 30 1 1500 100 100 qemu-udp {GATEWAY[0]}:{UDP_PORT} {host(0)}:{CARD_PORT} raw
network 40 1 1492 qemu-tcp listen {GATEWAY[0]}:{LISTEN_PORT} snap
extend 4005
network 41 1 1497 qemu-tcp connect {host(0)}:{CONNECT_PORT} llc
network 50 1 1500 200 100 interface g2 raw
network 51 1 1492 200 100 interface g2 snap
network {JOINED:X} 1 1424 100 100
link dosbox 0.0.0.0:{CLIENT_PORT}
link qemu-udp {GATEWAY[0]}:{WIRE_PORT} {host(FIRST_OF_PAIR + 1)}:{WIRED_PORT} raw
link qemu-tcp listen {GATEWAY[0]}:{LINK_PORT} llc
link interface g3 auto
"""
MORE = f"link qemu-udp {GATEWAY[0]}:{TURN_PORT} {host(0)}:{FAR_PORT} auto\n"
NETWORKS = (0x10, 0x20, 0x30, 0x40, 0x41, 0x50, 0x51, JOINED)
PLACES = {"sockets": [PORTS, ADDRESSES], "forged": [NOBODYS]}
FLOODS = [("sockets", it) for it in ("register", "mutated", "junk", "guess")] + [
    ("forged", it) for it in ("register", "speak", "sap", "rip", "mutated", "junk")]


def text_of(folder, has_more=False):
    """The whole configuration, and links that it has or hasn't."""
    return soaked_links.text_of(folder) + CONFIGURATION + (MORE + soaked_links.more_of(folder)) * has_more


class Streams:
    """Connections that come, and that the gateway begins: frames on them in pieces, and each is cut, often within a frame."""

    def __init__(self, frames, counts):
        self.frames, self.counts, self.open = frames, counts, []
        self.place = socket.socket()
        self.place.setsockopt(socket.SOL_SOCKET, socket.SO_REUSEADDR, 1)
        self.place.bind((host(0), CONNECT_PORT))
        self.place.listen()
        self.place.setblocking(False)

    def add(self, it):
        it.setblocking(False)
        self.open.append(it)

    def begin(self):
        """Takes whom the gateway has called, and calls it, which waits for nothing: it may refuse, or take nobody yet."""
        try:
            self.add(self.place.accept()[0])
        except BlockingIOError:
            pass
        if len(self.open) < MOST_OPEN:
            self.add(socket.socket())
            self.open[-1].connect_ex((GATEWAY[0], self.frames.random.choice([LISTEN_PORT, LINK_PORT])))

    def act(self):
        self.begin()
        for it in list(self.open):
            bytes_ = self.frames.next()
            whole = len(bytes_).to_bytes(4, "big") + bytes_
            try:
                it.send(whole[:self.frames.random.randrange(1, 2 * len(whole))])
                it.recv(1 << 16)
            except BlockingIOError:
                pass
            except OSError:
                self.cut(it)
                continue
            self.counts["frames on connections"] += 1
            if self.frames.random.randrange(50) == 0:
                self.cut(it)

    def cut(self, it):
        self.counts[CUT] += 1
        self.open.remove(it)
        it.close()


class Cards:
    """A card of the gateway's and its far end: they go down and up, and are taken out."""

    def __init__(self, field, near, far):
        self.field, self.near, self.far = field, near, far
        self.counts, self.due = collections.Counter(), 0
        self.number = 0
        self.insert()

    def insert(self):
        ip("link", "add", self.far, "type", "veth", "peer", "name", self.near)
        ip("link", "set", self.near, "netns", str(self.field.gate.holder.pid))
        self.field.gate.ip("link", "set", self.near, "up")
        ip("link", "set", self.far, "up")
        self.socket = Packets(self.far, "raw").socket

    def act(self):
        if time.monotonic() < self.due:
            return
        self.due = time.monotonic() + BETWEEN_CARDS
        self.number += 1
        self.counts[CHANGED] += 1
        step = self.number % 6
        if step == 4:
            ip("link", "del", self.far)
            self.socket.close()
        elif step == 5:
            self.insert()
        else:
            space = self.field.gate if step < 2 else None
            words = ("link", "set", self.far if space is None else self.near, "down" if step % 2 == 0 else "up")
            (space.ip if space else ip)(*words)

    def send(self, bytes_):
        try:
            self.socket.send(bytes_)
        except OSError:
            return  # (it is down, or taken out)
        self.counts["frames on cards"] += 1


def datagrams(port):
    """The other end of a link of QEMU's datagrams."""
    it = socket.socket(socket.AF_INET, socket.SOCK_DGRAM)
    it.bind((host(0), port))
    it.setblocking(False)
    return it


class Lines:
    """A configuration that has some links, and hasn't them any more, while the gateway runs."""

    def __init__(self, gate, folder, counts):
        self.gate, self.folder, self.counts, self.has, self.due = gate, folder, counts, False, 0

    def act(self):
        if time.monotonic() < self.due:
            return
        self.due = time.monotonic() + BETWEEN_LINES
        self.has = not self.has
        with open(self.gate.configuration, "w", encoding="ascii") as it:
            it.write(text_of(self.folder, self.has))
        self.gate.run.order(signal.SIGHUP)
        self.counts[TURNED] += 1


class Trouble:
    """Everything that is done beside the floods, on links that stay and on those that go and come; and two players beside the latter."""

    def __init__(self, gate, folder, cards, counts, seed):
        self.counts, self.frames = counts, Frames(seed, NETWORKS)
        self.streams, self.lines, self.cards = Streams(self.frames, counts), Lines(gate, folder, counts), cards
        for it in cards:
            it.counts = counts
        self.links = [(datagrams(CARD_PORT), UDP_PORT), (datagrams(FAR_PORT), TURN_PORT)]
        first, second = own_addresses(FIRST_OF_PAIR, 2)
        self.pair = Pair(Player(first, (GATEWAY[0], CLIENT_PORT), FAST), OnWire(second, WIRED_PORT, (GATEWAY[0], WIRE_PORT), JOINED, "raw"))
        self.pair.enter()

    def act(self):
        for it in (*self.cards, self.streams, self.lines, self.pair):
            it.act()
        for _ in range(FRAMES):
            for it in self.cards:
                it.send(self.frames.next())
            for it, port in self.links:
                it.sendto(self.frames.next(), (GATEWAY[0], port))
            self.counts["frames in datagrams"] += len(self.links)


class Soak:
    """What is done, what was counted, and what went wrong."""

    def __init__(self, ground, folder, cards, seconds):
        self.ground, self.end = ground, time.monotonic() + seconds
        self.counts, self.faults = collections.Counter(), []
        self.seed = random.randrange(1 << 30)
        self.trouble = Trouble(ground.gate, folder, cards, self.counts, self.seed)
        self.links, self.of_links = soaked_links.Beside(folder, self.seed), {}
        self.lost = dict.fromkeys(ground.party.KINDS, 0.0)
        self.said = 0  # packets of the two players beside links that go and come
        players = [it.udp for it in (*ground.party.all, *self.trouble.pair.all)]
        self.machine, self.spoiled = Machine(ground.gate.run.pid, players), 0
        self.memory = []
        figures(f"seed {self.seed}")

    def is_over(self):
        return bool(self.faults) or time.monotonic() > self.end

    def stage(self, way, kind):
        """A flood, and everything else beside it."""
        self.seed += 1
        count = int(RATE * STAGE)
        port = GATEWAY[1] + self.seed % 2
        places = PLACES[way][self.seed // 2 % len(PLACES[way])]
        gate = self.ground.gate
        how = {"gateway": gate.run.pid, "rate": RATE, "count": count, "seed": self.seed, "key": gate.key().hex()}
        flood = Flood(way, kind, to=f"{GATEWAY[0]}:{port}", **how, **places)
        self.ground.party.play(lambda: self.trouble.act() or flood.lasts())
        flood.end()
        self.counts[f"{kind}, forged" if way == "forged" else kind] += count

    def judge(self):
        """Looks what the players lost, and whether the gateway is well."""
        party = self.ground.party
        came = party.settle()
        self.machine.look()
        for kind, lost in party.losses().items():
            self.lost[kind] = max(self.lost[kind], lost)
        for player in party.all:
            player.others.clear()  # (what came over the router from a wire)
        fault = party.fault(came)
        if fault:
            self.finds(fault, party.missing(), self.machine.own())
        self.counts["packets of players"] += sum(it.said for it in party.speakers)
        party.begin_again(100)
        self.judge_pair()
        self.judge_links()
        self.ground.gate.report()
        self.memory.append(self.ground.gate.memory())

    def finds(self, fault, missing=0, dropped=0):
        """Something is wrong. Where packets are missing, that was the machine if the players' own sockets had no room for as many, or the gateway
        had no processor for most of the time."""
        fault = f"{fault}; {self.machine.words()}"
        if 0 < missing and (missing <= dropped or self.machine.is_late()):
            self.spoiled += 1
            figures(f"spoiled: {fault}")
        else:
            self.faults.append(fault)

    def judge_pair(self):
        """Looks whether anything is missing that one of the two said to the other."""
        pair = self.trouble.pair
        missing, said = pair.settle()
        self.said += said
        if missing:
            self.finds(f"of {said} packets of two players beside links that go and come {missing} are lost", missing, self.machine.own())
        if any(it.twice for it in pair.all):
            self.finds("a packet of two players beside links that go and come comes twice")
        pair.begin()

    def judge_links(self):
        """Looks what the players lost on links by WebSocket, groups and switches, and whether the status is told."""
        told = self.links.judge()
        for name, (missing, said) in told["lost"].items():
            worst, all_said = self.of_links.get(name, (0.0, 0))
            self.of_links[name] = max(worst, missing / said if said else 0.0), all_said + said
        for fault, missing in told["faults"]:
            self.finds(f"{fault}; their sockets dropped {told['dropped']}, and were looked at after {told['late']:.1f} s at most", missing,
                       told["dropped"])
            self.tell_counts()
        self.counts.update(told["counts"])

    def tell_counts(self):
        """What the gateway has counted on those links until now."""
        for part in self.ground.gate.report().partition("report after ")[2].split("\nnetwork ")[1:]:
            if int(part[:8], 16) in soaked_links.NETWORKS:
                figures(part.partition("\nstations on")[0].replace("\n", "; "))

    def run(self):
        try:
            while not self.is_over():
                for way, kind in FLOODS:
                    if not self.is_over():
                        self.stage(way, kind)
                self.judge()
            self.links.end()
            self.ground.gate.end()
        except AssertionError as fault:
            self.faults.append(str(fault))
        if self.memory and self.memory[-1] > MOST_GROWN * self.memory[len(self.memory) // 2]:
            self.faults.append("its memory grows")

    def tell(self):
        for what, count in sorted(self.counts.items()):
            figures(f"{what}: {count}")
        figures(f"packets of two players beside links that go and come, of which none may be lost: {self.said}")
        figures("lost in the worst round: " + ", ".join(f"{kind} {100 * lost:.1f} %" for kind, lost in self.lost.items()))
        for name, (worst, said) in self.of_links.items():
            figures(f"{name}: {said} packets of players, lost in the worst round {100 * worst:.1f} %")
        figures(f"rounds that the machine spoiled: {self.spoiled}; {self.machine.words(self.machine.all)}")
        if self.memory:
            halfway = self.memory[len(self.memory) // 2]
            figures(f"memory: {self.memory[0]} KB after the first round, {halfway} KB halfway, {self.memory[-1]} KB after the last")
        for fault in self.faults:
            print(f"FAULT   gateway: {fault}")
        sent = sum(count for what, count in self.counts.items() if what not in NO_DATAGRAMS)
        print(f"{sent} datagrams, {len(self.faults)} faults")


def drive_limits(seconds):
    """Drives each limit for as long as that leaves, at most a minute. Returns the faults."""
    lasts = min(driven.MINUTE, LIMITS_PART * seconds / len(driven.STAGES) - BESIDE)
    if lasts < driven.SLICE:
        left_out("limits for a minute", f"{seconds:.0f} s are too few")
        return []
    figures(f"each limit is driven for {lasts:.0f} s")
    return driven.drive(lasts)


def inside(minutes):
    """In the network of its own."""
    build_flood()
    end = time.monotonic() + 60 * minutes
    faults = drive_limits(60 * minutes)
    field = Field()
    cards = [Cards(field, "g2", "t2"), Cards(field, "g3", "t3")]
    how = {"environment": {"ASAN_OPTIONS": SANITIZER}, "field": field, "options": soaked_links.options()}
    with folder_of() as folder, Playground(text_of(folder), **how) as ground:
        soak = Soak(ground, folder, cards, end - time.monotonic())
        soak.run()
        soak.faults += faults
        soak.tell()
    return 1 if soak.faults else 0


def started(*words):
    return subprocess.Popen(words, stdout=subprocess.PIPE, stderr=subprocess.STDOUT, text=True)


def main(minutes):
    if "sanitized" not in SYSTEM.program:
        print("left out: gateway: the sanitizers (no -fsanitize=address that runs)")
    here = os.path.realpath(__file__)

    def words(name, minutes):
        return [sys.executable, os.path.join(os.path.dirname(here), name), str(minutes)]

    made_up = started(*words("made_up.py", minutes))
    places = subprocess.Popen(words("soaked_places.py", minutes))
    way = way_inside("soak")
    run = started(*way, sys.executable, here, INSIDE, minutes) if way is not None else None
    last = all_but_last(run) if run else ""
    print(made_up.communicate()[0], end="", flush=True)
    places.wait()
    # (behind the rest: many DOSBox' at once leave others little of the machine)
    lossy = started(*words("lossy.py", LOSSY_PART * float(minutes)))
    print(lossy.communicate()[0] + last, end="")
    return max(abs(it.wait()) for it in (run, made_up, places, lossy) if it is not None)


if __name__ == "__main__":
    if sys.argv[1:2] == [INSIDE]:
        sys.exit(inside(float(sys.argv[2])))
    sys.exit(main((sys.argv[1:] or [str(MINUTES)])[0]))

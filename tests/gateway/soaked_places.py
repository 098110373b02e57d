"""Minutes of harm to gateways that share a network over the Internet, under the sanitizers: tests/gateway/soaked_places.py [MINUTES].

A hub and three places behind routers with NAT are joined by `peers` (homes.py), and two more gateways by `rfc1234`. At each of them players say
numbered words all the time, to all or to one, and lose 2 % at most in each round, beside what a restart, another key or a router that forgets
costs: after that everybody must be heard again within some seconds. Meanwhile somebody on the Internet sends what he made up, recorded, altered or cut,
in his own name and in others', and floods from many addresses. At random the hub or a place starts again, a router forgets its ways, a reload
adds and takes away lines `peer` and networks, and all places get another key. Memory and descriptors stay, and each gateway ends well. A round
has a line. The last line is 'N datagrams, M faults'.
"""
import collections
import os
import random
import socket
import struct
import subprocess
import sys
import threading
import time

from harm import LIAR, SITES, TUNNEL_PORT, Harm
from homes import HOME, NETWORK, PLAYERS_PORT, PORT, Home, Street, key_file, lacks, place_text
from lab import GAME, address, packet
from machine import MOST_WAITED, text_of, waited
from peers import HUB, MANY, STRANGERS, can_seal, keyed
from players import FAST, MOST_LOST, Party, Player
from rfc1234 import LONGEST, NUMBER
from sealed import new_key
from spaces import Flood, Space, build_flood
from status import Watched
from systems import SYSTEM
from trying import INSIDE, figures, left_out, way_inside

MINUTES = 10
ROUND = 8.0  # seconds, without what is waited for
EACH_ROUND = 3  # troubles
MANY_ROUNDS = 60  # in which each trouble comes
SIZE = 100  # bytes of a player's packet
BACK = 30  # seconds until everybody is heard again after a trouble that costs something
AWAY = (0.0, 0.0, 5.0)  # seconds for which a gateway isn't there
MOMENT = 0.7  # seconds for which a configuration is another one
UNDER_WAY = 10  # words of a player that may be under way
BETWEEN_WORDS = 0.002  # seconds between two looks of the players
FLOOD, FLOODED = 5000, 2.0  # datagrams a second, and how many seconds
PLACES, TO_ONE = 4, (2, 3)  # places with the hub; and at which two players speak to each other alone
OWN = (0x10, 0x20)  # their players' networks
NOBODY_THERE = "198.51.100.77:9"
MOST_FAULTS = 10
LAST_MASKED = 64000  # of the ports of a router
SANITIZER = {"ASAN_OPTIONS": "quarantine_size_mb=1:malloc_context_size=1"}  # (else what is freed is kept, and counted as memory)
MOST_GROWN, ENOUGH = 1.1, 12  # memory at a gateway's end, as a part of that halfway, where it has been looked at so often
REFUSED_BY_PLACE = ("lost: repeated", "lost: not sealed by the key")
REFUSED_BY_HUB = (*REFUSED_BY_PLACE, "lost: of another session")
REFUSED_BY_SITES = ("from a stranger", "source of another", "no IPX")
MORE_NETWORKS = "network 200 1 1424 dosbox 0.0.0.0:2150\nnetwork 201 1 1424\nlink dosbox 0.0.0.0:2151\nlink qemu-udp 0.0.0.0:0 127.0.0.1:9 raw\n"


# ---- Gateways ----


class Site:
    """A gateway on the Internet itself, with players of its own, which rfc1234 joins with another one."""

    def __init__(self, outside, own):
        self.number, self.own, self.outside = int(outside.rpartition(".")[2]), own, outside
        self.place = Space()
        Home.joins(f"s{self.number}", self.place, "eth0")
        self.place.ip("addr", "add", f"{self.outside}/24", "dev", "eth0")
        self.place.ip("link", "set", "eth0", "up")
        self.place.ip("route", "add", "default", "via", LIAR[0])

    def text(self, peers, more=""):
        lines = "".join(f"peer {it}\n" for it in peers)
        return (f"network {self.own:X} 1 1424 100 100 dosbox 0.0.0.0:{PLAYERS_PORT}\n"
                f"network {NUMBER:X} 1 {LONGEST} 100 100 rfc1234 {self.outside}:{TUNNEL_PORT}\n{lines}{more}")

    def starts(self, text):
        self.gate = Watched(text, before=self.place.within, environment=SANITIZER)

    def player(self):
        return to_one(self, self.outside)

    def close(self):
        self.place.close()


class ToOne(Player):
    """A player who speaks to one alone, who may be on another network."""

    def say(self, what, number=0):
        data = struct.pack(">6sI", what, number).ljust(self.size - 30, b".")
        self.send(packet(address(self.partner.network, self.partner.node, GAME), self.at(), data))


def to_one(home, host):
    """One at a place."""
    with home.place.entered():
        return ToOne(host, (host, PLAYERS_PORT), FAST)


class Tended:
    """A gateway with its configuration, which it has again after each trouble; and what it has of memory and descriptors."""

    def __init__(self, name, home, text, network, refuses=()):
        self.name, self.home, self.gate, self.text, self.network = name, home, home.gate, text, network
        self.refused = dict.fromkeys(refuses, 0)  # what it counts of harm, and how many at most in a round's end
        self.begin()

    def begin(self):
        self.reload()  # (the first takes memory that the others need, too)
        self.memory, self.descriptors = [], None
        self.waited, self.looked = waited(self.gate.run.pid), time.monotonic()

    def reload(self, text=None):
        with open(self.gate.configuration, "w", encoding="utf-8") as it:
            it.write(self.text if text is None else text)
        return self.gate.asked("reload")

    def ends(self):
        """It ends well, by the sanitizers too, and its memory hasn't grown."""
        self.gate.end()
        halfway = self.memory[len(self.memory) // 2] if self.memory else 0
        assert len(self.memory) < ENOUGH or self.memory[-1] <= MOST_GROWN * halfway, f"{self.name}: its memory grows: {self.memory}"

    def starts_again(self, away):
        """It ends, and starts again some seconds later."""
        self.ends()
        time.sleep(away)
        self.gate.start(SYSTEM.program, ["--status", self.gate.path], SANITIZER, self.home.place.within)
        self.begin()

    def open_files(self):
        return len(os.listdir(f"/proc/{self.gate.run.pid}/fd"))

    def late(self):
        """The part of the time for which it waited for a processor since one looked last."""
        before, since = self.waited, self.looked
        self.waited, self.looked = waited(self.gate.run.pid), time.monotonic()
        return (self.waited - before) / (self.looked - since)

    def look(self):
        """Whether all is well with it."""
        if self.gate.run.poll() is not None:
            raise AssertionError(f"{self.name} ended by itself: {self.gate.run.stderr.read().decode(errors='replace')}")
        report = self.gate.report()
        for what in self.refused:
            self.refused[what] = max(self.refused[what], self.gate.counted(self.network, what, report))
        self.memory.append(self.gate.memory())
        self.descriptors = self.descriptors or self.open_files()
        end = time.monotonic() + BACK
        while self.open_files() != self.descriptors and time.monotonic() < end:
            time.sleep(0.1)
        found = self.open_files()
        assert found == self.descriptors, f"{self.name} has {found} descriptors, and had {self.descriptors}"


# ---- Players ----


class Playing(threading.Thread):
    """Players who say words all the time, whatever is done meanwhile."""

    def __init__(self, parties):
        super().__init__(daemon=True)
        self.parties, self.lock, self.is_over, self.slowest = parties, threading.Lock(), False, 0.0

    def run(self):
        before = time.monotonic()
        while not self.is_over:
            with self.lock:
                now = time.monotonic()
                self.slowest, before = max(self.slowest, now - before), now
                for party in self.parties:
                    for it in party.speakers:
                        it.speak(now)
                    party.hear()
            time.sleep(BETWEEN_WORDS)


class Outage:
    """What some players don't hear of others while something happens. It is over as soon as each hears what the other says after that. (what a
    router held back meanwhile comes at once then, which may be more than the limits let pass)"""

    def __init__(self, pairs):
        self.pairs = set(pairs)
        self.first = {one: max(0, one.said - UNDER_WAY) for one, _ in self.pairs}
        self.next, self.last = {}, {}

    def ends(self):
        self.next = {one: one.said for one in self.first}

    def is_heard(self, one, other):
        return any(it >= self.next[one] for it in other.heard.get(one.node, ()))

    def lacking(self):
        """Who isn't heard yet, and by whom. If there is nobody any more, it is over."""
        found = [it for it in self.pairs if not self.is_heard(*it)]
        self.last = {} if found else {one: one.said + UNDER_WAY for one in self.first}
        return found

    def spared(self, pair):
        """Of which words nobody knows whether they come."""
        one, _ = pair
        return set(range(self.first[one], self.last.get(one, one.said))) if pair in self.pairs else set()


class Losses:
    """How many words of each came to each, of those that should."""

    def __init__(self, party, outages):
        self.of = {}
        for one in party.speakers:
            for other in party.all:
                if one is not other:
                    due = set(range(one.said)).difference(*(it.spared((one, other)) for it in outages))
                    self.of[one, other] = len(due), len(due - other.heard.get(one.node, set()))

    def missing(self):
        return sum(missing for _, missing in self.of.values())

    def worst(self):
        """The largest part that anybody didn't hear of all others, or that others didn't hear of anybody."""
        found = [0.0]
        for end in (0, 1):
            due, missing = collections.Counter(), collections.Counter()
            for pair, (number, lost) in self.of.items():
                due[pair[end]] += number
                missing[pair[end]] += lost
            found += [missing[it] / due[it] for it in due if due[it]]
        return max(found)


def dropped_at(players):
    """How many datagrams found no room at the sockets of players, in whatever networks those are."""
    return sum(int(line.split()[12]) for holder, inodes in players.items() for line in text_of(holder, "net/udp").splitlines()[1:]
               if line.split()[9] in inodes)


# ---- All of it ----


def shares(late):
    return ", ".join(f"{name} {100 * part:.0f} %" for name, part in late.items())


class Soak:
    """What is done, what was counted, and what went wrong."""

    def __init__(self, street, path, sites, seconds):
        self.street, self.path, self.sites, self.end = street, path, sites, time.monotonic() + seconds
        self.seed = random.randrange(1 << 30)
        self.random = random.Random(self.seed)
        self.counts, self.faults, self.spoiled, self.rounds, self.worst = collections.Counter(), [], 0, 0, 0.0
        self.outages, self.did, self.floods, self.slowest = [], [], [], 0.0
        self.begin_gateways()
        self.begin_players()
        self.harm = Harm(street, [NUMBER, *OWN], self.seed)
        self.playing = Playing(list(self.parties.values()))
        self.dropped = dropped_at(self.sockets)

    def begin_gateways(self):
        texts = [place_text(self.path), *[place_text(self.path, [HUB])] * (PLACES - 1)]
        self.places = []
        for number, (home, text) in enumerate(zip(self.street.homes, texts)):
            home.starts(text, environment=SANITIZER)
            self.places.append(Tended(f"place {number}" if number else "the hub", home, text, NETWORK,
                                      REFUSED_BY_PLACE if number else REFUSED_BY_HUB))
        ends = [f"{it.outside}:{TUNNEL_PORT}" for it in self.sites]
        self.liar = "{}:{}".format(*LIAR)
        self.of_sites = []
        for site, there in zip(self.sites, reversed(ends)):
            site.there = there
            site.starts(site.text([there, self.liar]))
            self.of_sites.append(Tended(f"gateway {site.number}", site, site.text([there, self.liar]), NUMBER, REFUSED_BY_SITES))
        self.tended = [*self.places, *self.of_sites]

    def begin_players(self):
        """Two at each place, and one who only listens, where the gateway stays; two who speak to each other; and two across rfc1234."""
        self.party, self.ones, self.across = (Party([], None, numbers=(0, 0, 0)) for _ in range(3))
        self.parties, self.home_of, holders = {"peers": self.party, "peers, to one": self.ones, "rfc1234": self.across}, {}, {}
        homes = self.street.homes
        here = [(self.party, number, home, home.player(FAST)) for number, home in enumerate(homes) for _ in range(2)]
        here += [(self.ones, number, homes[number], to_one(homes[number], f"{HOME}.2")) for number in TO_ONE]
        here += [(self.across, site.number, site, site.player()) for site in self.sites]
        for party, number, home, it in (*here, (self.party, PLACES - 1, homes[-1], homes[-1].player())):
            party.put_in("35 a second" if it.every else "listeners", it)
            party.speakers += [it] if it.every else []
            self.home_of[it] = number
            holders.setdefault(home.place.holder.pid, set()).add(str(os.fstat(it.udp.fileno()).st_ino))
        for party in (self.ones, self.across):
            one, other = party.all
            one.partner, other.partner = other, one
        self.sockets = holders
        for party in self.parties.values():
            party.enter()

    # ---- Troubles ----

    def costs(self, affects, *parties):
        """What happens from now on may cost something between some players, by the places of both."""
        with self.playing.lock:
            pairs = [(one, other) for party in parties or (self.party, self.ones) for one in party.speakers for other in party.all
                     if one is not other and affects(self.home_of[one], self.home_of[other])]
            self.outages.append(Outage(pairs))
        return self.outages[-1]

    def until_back(self, outage, what):
        """Waits until everybody is heard again."""
        with self.playing.lock:
            outage.ends()
        began = time.monotonic()
        while True:
            with self.playing.lock:
                lacking = outage.lacking()
            passed = time.monotonic() - began
            if not lacking:
                break
            assert passed < BACK, f"{len(lacking)} of {len(outage.pairs)} don't hear each other {BACK} s after {what}"
            time.sleep(0.05)
        self.slowest = max(self.slowest, passed)
        self.did.append(f"{what} ({passed:.1f} s)")

    def hub_restarts(self):
        outage = self.costs(lambda one, other: one != other or one == 0)
        self.places[0].starts_again(self.random.choice(AWAY))
        self.until_back(outage, "the hub starts again")

    def place_restarts(self):
        outage = self.costs(lambda one, other: 1 in (one, other))
        self.places[1].starts_again(self.random.choice(AWAY))
        self.until_back(outage, "a place starts again")

    def router_forgets(self):
        number = self.random.randrange(PLACES)
        outage = self.costs(lambda one, other: one != other and (number in (one, other) or number == 0))
        home = self.street.homes[number]
        if home.ports > LAST_MASKED:
            home.ports -= LAST_MASKED // 3
        home.forgets()
        self.until_back(outage, f"router {number} forgets")

    def key_changes(self):
        """All places get another key, one after the other."""
        outage = self.costs(lambda one, other: one != other)
        key_file(os.path.dirname(self.path), new_key())
        for it in self.random.sample(self.places, PLACES):
            it.reload()
        self.until_back(outage, "another key")

    def key_is_wrong(self):
        """A key file that is none, for a moment: all go on with the key that they had."""
        with open(self.path, encoding="ascii") as it:
            whole = it.read()
        wrong = self.random.choice(("", whole[:40], "x" * 64, whole + whole))
        with open(self.path, "w", encoding="ascii") as it:
            it.write(wrong)
        for it in self.places:
            it.reload()
            it.gate.report()
        with open(self.path, "w", encoding="ascii") as it:
            it.write(whole)
        for it in self.places:
            it.reload()
        self.did.append("a key file that is none")

    def lines_change(self):
        """A place calls others, too, or nobody any more: that costs nothing."""
        place = self.random.choice(self.places[1:])
        choices = ([HUB, NOBODY_THERE], [NOBODY_THERE], [], ["localhost:9", HUB], [f"198.51.100.{it}:{PORT}" for it in range(200, 230)])
        for called in self.random.sample(choices, 2):
            place.reload(place_text(self.path, called))
            time.sleep(MOMENT * self.random.random())
        place.reload()
        self.did.append("other lines peer")

    def networks_change(self):
        """More networks, for a moment: that costs nothing."""
        it = self.random.choice(self.places)
        it.reload(it.text + MORE_NETWORKS)
        time.sleep(MOMENT)
        it.reload()
        self.did.append("more networks")

    def hub_is_none(self):
        """The hub calls somebody, so it is none for a moment: the others don't hear each other."""
        outage = self.costs(lambda one, other: one != other and 0 not in (one, other))
        self.places[0].reload(place_text(self.path, [NOBODY_THERE]))
        time.sleep(MOMENT)
        self.places[0].reload()
        self.until_back(outage, "no hub")

    def site_changes(self):
        """Other peers of a gateway with rfc1234, which costs nothing."""
        it = self.random.choice(self.of_sites)
        there = it.home.there
        for peers in self.random.sample(([there], [NOBODY_THERE, there], [self.liar, there, "localhost:213"], [self.liar, there, NOBODY_THERE]), 3):
            it.reload(it.home.text(peers))
            time.sleep(MOMENT * self.random.random())
        it.reload()
        self.did.append("other peers of rfc1234")

    def site_joins_more(self):
        """More networks there, for a moment: its router starts afresh, and must ask for the way to the other's players."""
        it = self.random.choice(self.of_sites)
        outage = self.costs(lambda one, other: True, self.across)
        it.reload(it.text + MORE_NETWORKS)
        time.sleep(MOMENT)
        it.reload()
        self.until_back(outage, "more networks beside rfc1234")

    def site_is_left(self):
        """One of both doesn't know the other for a moment."""
        outage = self.costs(lambda one, other: True, self.across)
        it = self.random.choice(self.of_sites)
        it.reload(it.home.text([self.liar]))
        time.sleep(MOMENT)
        it.reload()
        self.until_back(outage, "a peer of rfc1234 is away")

    def flood(self, spares_hub):
        """A flood from many addresses, of the hub or of a gateway with rfc1234."""
        it = self.random.choice(self.of_sites if spares_hub else self.tended[:1] * 3 + self.of_sites)
        at = (it.home.outside, PORT if it is self.places[0] else TUNNEL_PORT)
        count = int(FLOOD * FLOODED)
        self.floods.append(Flood("forged", self.random.choice(("junk", "mutated", "rip", "sap")), to="{}:{}".format(*at), host=STRANGERS, hosts=MANY,
                                 first=1024, ports=4, rate=FLOOD, count=count, seed=self.random.randrange(1 << 30), gateway=it.gate.run.pid))
        self.counts["of floods"] += count
        self.did.append(f"a flood of {it.name}")

    TROUBLES = (hub_restarts, place_restarts, router_forgets, router_forgets, key_changes, key_is_wrong, lines_change, lines_change, networks_change,
                hub_is_none, site_changes, site_joins_more, site_is_left)

    # ---- Rounds ----

    def begins_again(self, judges=None):
        """Waits for everybody's last words, and looks what was lost. From then on what they say is counted anew."""
        with self.playing.lock:
            came = [it.settle() for it in self.parties.values()]
            if judges is not None:
                judges(came)
            for party in self.parties.values():
                party.begin_again(SIZE)
                for it in party.all:
                    it.due, it.twice = time.monotonic(), 0
                    it.others.clear()

    def round(self):
        self.rounds += 1
        self.outages, self.did = [], []
        end = time.monotonic() + ROUND
        chosen = self.random.sample(self.TROUBLES, EACH_ROUND)
        if self.random.randrange(3):
            self.flood(Soak.hub_restarts in chosen)
        for trouble in chosen:
            trouble(self)
            time.sleep(self.random.random())
        time.sleep(max(0.0, end - time.monotonic()))
        for it in self.floods:
            it.end()
        self.floods.clear()
        self.begins_again(self.judge)

    def judge(self, came):
        """Looks what was lost, and whether the gateways are well."""
        late = {it.name: it.late() for it in self.tended}
        before, self.dropped = self.dropped, dropped_at(self.sockets)
        worst = 0.0
        for (name, party), is_whole in zip(self.parties.items(), came):
            self.counts["of players"] += sum(it.said for it in party.speakers)
            losses = Losses(party, self.outages)
            worst = max(worst, losses.worst())
            if losses.worst() > MOST_LOST or not is_whole:
                lost = ", ".join(f"{self.words(pair)} {lost} of {due}" for pair, (due, lost) in losses.of.items() if lost > MOST_LOST * due)
                self.finds(f"{name}: {100 * losses.worst():.1f} % lost: {lost}{'' if is_whole else '; a last word never comes'}", losses.missing(),
                           self.dropped - before, late)
            if any(it.twice for it in party.all):
                self.finds(f"{name}: a packet comes twice")
        if any(it.others for it in (*self.party.all, *self.ones.all)):
            self.finds("peers: a packet comes that nobody said")
        for it in self.tended:
            it.look()
        if self.harm.fault:
            self.finds(self.harm.fault)
        self.worst = max(self.worst, worst)
        memory = " ".join(str(it.memory[-1] // 1024) for it in self.tended)
        busy = max(late.values())
        figures(f"round {self.rounds}: {', '.join(self.did)}: {100 * worst:.1f} % lost; {memory} MB; late {100 * busy:.0f} %")

    def words(self, pair):
        return "->".join(str(self.home_of[it]) for it in pair)

    def finds(self, fault, missing=0, dropped=0, late=()):
        """Something is wrong. Where packets are missing, that was the machine if the players' own sockets had no room for as many, or a gateway had no
        processor for most of the time."""
        fault = f"round {self.rounds}: {fault} ({', '.join(self.did)}; {dropped} dropped at players' sockets; late: {shares(dict(late))})"
        if 0 < missing and (missing <= dropped or max(dict(late).values()) > MOST_WAITED):
            self.spoiled += 1
            figures(f"spoiled: {fault}")
        else:
            self.faults.append(fault)
            print(f"FAULT   gateway: {fault}", flush=True)

    def run(self):
        figures(f"seed {self.seed}")
        self.playing.start()
        self.harm.start()
        while time.monotonic() < self.end and len(self.faults) < MOST_FAULTS and all(it.gate.run.poll() is None for it in self.tended):
            self.tries(self.round)
        for it in (self.harm, self.playing):
            it.is_over = True
            it.join()
        for it in self.tended:
            self.tries(it.ends)

    def tries(self, does):
        """Does something; what is wrong with it is a fault."""
        try:
            does()
        except (AssertionError, OSError, subprocess.SubprocessError) as fault:
            self.finds(f"{type(fault).__name__}: {fault}")
            for it in self.tended:
                if it.gate.run.poll() is None:
                    it.reload()
            self.begins_again()

    def tell(self):
        self.counts.update(self.harm.counts)
        for it in self.tended:
            for what, number in it.refused.items():
                figures(f"{it.name}: {what}: up to {number}")
                if number == 0 and self.rounds > MANY_ROUNDS:
                    self.finds(f"{it.name} never counts: {what}")
        for what, count in sorted(self.counts.items()):
            figures(f"datagrams {what}: {count}")
        figures(f"{self.rounds} rounds, of which the machine spoiled {self.spoiled}; lost in the worst {100 * self.worst:.1f} %; "
                f"everybody was heard again after {self.slowest:.1f} s at most")
        print(f"{sum(self.counts.values())} datagrams, {len(self.faults)} faults", flush=True)


def inside(minutes):
    """In the network that plays the Internet."""
    build_flood()
    with keyed() as (_, path), Street(PLACES) as street:
        street.homes[0].forwards()
        sites = [Site(*it) for it in zip(SITES, OWN)]
        soak = Soak(street, path, sites, 60 * minutes)
        try:
            soak.run()
            soak.tell()
        finally:
            for it in soak.tended:
                it.gate.__exit__(None if it.gate.run.poll() is not None else AssertionError)
            for it in sites:
                it.close()
    return 1 if soak.faults else 0


def main(minutes):
    lack = None if can_seal() else "no libsodium, or the gateway can't load it"
    lack = lack or lacks()
    way = None if lack else way_inside("soaked places")
    if lack:
        left_out("soaked places", lack)
    return 0 if way is None else subprocess.run([*way, sys.executable, os.path.realpath(__file__), INSIDE, minutes], check=False).returncode


if __name__ == "__main__":
    if sys.argv[1:2] == [INSIDE]:
        sys.exit(inside(float(sys.argv[2])))
    sys.exit(main((sys.argv[1:] or [str(MINUTES)])[0]))

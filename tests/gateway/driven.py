"""Each limit driven over its number for a minute of the system's clock, several at once: whoever says little is heard all the
time, and so is everybody once it is over. tools/gateway soak plays it; played alone, it says how many faults it found.

It runs in networks of its own (spaces.py). What is driven is seen in the gateway's counts, by the word that each limit has there.
"""
import os
import re
import struct
import subprocess
import sys
import time

from attacks import OTHER_PORT, TUNNEL_LINE, Playground, during, flood
from fair import ALL_KINDS, CARDS, GAMES, SIXTH, OnCable, cabled
from frames import Udp, frame
from lab import EVERYONE, GAME, RIP, SAP, TUNNEL, address, packet, rip_response, sap_response, socket_of
from limits import CHAT, place_of
from players import MOST_LOST, NETWORK, NUMBERED, Party, Player
from spaces import GATEWAY, STRANGERS, build_flood, host
from trying import INSIDE, figures, way_inside

MINUTE = 60.0
SLICE = 5.0  # seconds after which it is looked who was heard
REST = 12.0  # seconds after which every limit is as it was before, of which an address that tells the router needs eight
STEP = 0.02  # seconds from one look to the next what is to be said
PATIENCE = 4.0  # seconds in which what is asked is answered
DEAF = 0.2  # the most that is lost in such a while: a machine with much else to do may lose that itself, but not for long
THERE, NOWHERE, TOLD, DRIVEN = 0x20, 0x99, 0x98, 0x97  # networks: another one, one that nobody has, and two that clients tell of
WIRES = {0x30: (5001, 5002), 0x31: (5003, 5004)}  # networks of QEMU, with the gateway's port and the card's
KINDS = 3  # of questions
OF_CLIENTS, OF_PCS = 4, 7  # types of services: who asks, asks for those of the others (who has one on his own cable gets no answer for the nearest)


def questions(kind):
    """Questions to the router: for a route, for all services of a type, and for the nearest."""
    return (RIP, struct.pack(">HIHH", 1, THERE, 16, 1)), (SAP, struct.pack(">HH", 1, kind)), (SAP, struct.pack(">HH", 3, kind))


class Often:
    """Does something so many times a second."""

    def __init__(self, rate, does):
        self.rate, self.does, self.done, self.began = rate, does, 0, None

    def act(self):
        now = time.monotonic()
        self.began = self.began or now
        for _ in range(int((now - self.began) * self.rate) - self.done):
            self.does(self.done)
            self.done += 1


class Asker(Player):
    """A client that counts what the router answers."""

    def __init__(self, *words, **how):
        super().__init__(*words, **how)
        self.answered, self.present = 0, set()

    def hear(self, bytes_):
        is_own = bytes_[10:16] == self.node
        self.answered += is_own and socket_of(bytes_) == CHAT
        if is_own and socket_of(bytes_) == TUNNEL:
            self.present.add(bytes_[22:28])
        super().hear(bytes_)

    def ask(self, k=0):
        to, data = questions(OF_PCS)[k % KINDS]
        self.send(packet(address(self.network, EVERYONE, to), self.at(CHAT), data, kind=1))

    def tell(self, network, hops):
        self.send(rip_response(self.network, self.node, [(network, hops, 2)]))

    def offer(self):
        """There is a service, of which SAP's answers tell other networks."""
        self.send(sap_response(self.network, self.node, [(OF_CLIENTS, "SERVES", self.network, self.node, GAME, 1)]))

    def say_to(self, network, source=GAME, node=EVERYONE, number=0):
        """Says something to another network. (what a program says from the socket of pings is an answer to one)"""
        self.send(packet(address(network, node, GAME), self.at(source), struct.pack(">6sI", NUMBERED, number)))

    def ping_all(self, _=0):
        self.send(packet(address(0, EVERYONE, TUNNEL), self.at(TUNNEL), kind=0))


class Card:
    """A PC in QEMU on a network of its own, which asks and tells."""

    def __init__(self, network):
        self.network, self.node = network, bytes([2, 0, 0, 0, 0, network])
        self.wire = Udp(WIRES[network][1], host(0))
        self.answered = 0

    def send(self, bytes_):
        self.wire.socket.sendto(frame("raw", EVERYONE, self.node, bytes_), (GATEWAY[0], WIRES[self.network][0]))

    def ask(self, k=0):
        to, data = questions(OF_CLIENTS)[k % KINDS]
        self.send(packet(address(self.network, EVERYONE, to), address(self.network, self.node, CHAT), data, kind=1))

    def offer(self):
        self.send(sap_response(self.network, self.node, [(OF_PCS, "CARD", self.network, self.node, GAME, 1)]))

    def tell(self, k):
        self.send(rip_response(self.network, self.node, [(0x1000 + k % 50, 1 + 15 * (k // 50 % 2), 2)]))

    def hear(self):
        self.wire.socket.setblocking(False)
        try:
            while True:
                self.answered += self.wire.socket.recv(65536)[:6] == self.node
        except BlockingIOError:
            pass


class Stage:
    """Players of a network who say little, and whatever is driven beside them."""

    name, text, driven = "", "", ()
    numbers, more = (1, 1, 2), 0

    def __init__(self, seconds):
        self.seconds, self.faults, self.lost = seconds, [], []
        self.floods, self.often, self.cards, self.far = [], [], [], None

    # ---- What is driven ----

    def client(self, k, kind=Asker):
        """One more client, at one of the free addresses."""
        player = kind(self.it.free[k], GATEWAY)
        self.it.party.put_in("beside", player)
        return player

    def flood(self, *words, rate, **how):
        self.floods.append(flood(self.it.gate, *words, rate=rate, count=int(rate * 2 * self.seconds), **how))

    def act(self):
        for it in self.often:
            it.act()
        for it in self.cards:
            it.hear()
        if self.far is not None:
            self.far.hear()

    # ---- What must hold ----

    def until(self, holds, what, again=lambda: None):
        """Waits until something holds, which is a fault where it doesn't; what is done again each second may have been lost."""
        end = time.monotonic() + PATIENCE
        while not holds() and time.monotonic() < end:
            again()
            self.it.party.until(lambda: self.act() or holds(), 1)
        if not holds():
            self.faults.append(f"{self.name}: {what}")

    def expect_answers(self, asks, what):
        """Somebody asks each kind of question of the router, and is answered."""
        for k in range(KINDS):
            before = asks.answered
            asks.ask(k)
            self.until(lambda: asks.answered > before, f"{what} isn't answered: {k}")

    def slice(self, seconds):
        """They play for a while, and each who says little is heard."""
        party, lasts = self.it.party, during(seconds)
        party.begin_again(100)
        party.play(lambda: self.act() or lasts())
        came = party.settle()
        self.lost.append(max([*party.losses().values(), *map(party.not_heard, party.speakers)]))
        if self.lost[-1] > DEAF or not came:
            self.faults.append(f"{self.name}: lost: {party.figures()}{'' if came else '; a last word never came'}")

    def judge(self):
        """What was lost all together, and what was driven."""
        report, lost = self.it.gate.report(), sum(self.lost) / len(self.lost)
        counted = re.findall(r"too (?:many|much)[a-z ]*: \d+", report)
        figures(f"{self.name}: lost {100 * lost:.1f} %, in the worst {SLICE:.0f} s {100 * max(self.lost):.1f} %; {', '.join(counted)}")
        self.faults += [f"{self.name}: lost {100 * lost:.1f} %"] if lost > MOST_LOST else []
        self.faults += [f"{self.name}: nothing is {word}" for word in self.driven if word not in report]

    def rest(self):
        """Nothing is driven any more, until each limit is as it was."""
        for it in self.floods:
            it.run.kill()
            it.run.communicate()
        self.often.clear()
        self.it.party.until(lambda: self.act() or False, REST)

    def play(self):
        """Returns the faults."""
        with Playground(self.text, numbers=self.numbers, more=self.more, begins=False, field=cabled()) as self.it:
            self.begin()
            lasts = during(self.seconds)
            while lasts() and not self.faults:
                self.slice(SLICE)
                self.meanwhile()
            self.judge()
            self.rest()
            self.slice(SLICE)
            self.afterwards()
        return self.faults

    def begin(self):
        """Who is there comes in, and all is driven from then on."""

    def meanwhile(self):
        """What else holds all the time."""

    def afterwards(self):
        """And when it is over."""

    def heard_again(self, *players):
        """Whoever said too much is heard by all again, at once."""
        self.it.party.begin_again(100)
        for player in players:
            player.say(NUMBERED, 0)
        others = [it for it in self.it.party.all if it not in players]
        self.until(lambda: all(player.node in it.heard for player in players for it in others), "who said too much isn't heard again")


class Received(Stage):
    """Two say 1,500 packets a second to all: one to a house of six clients and to a cable, the other to its own house, too."""

    name = "what clients and cables receive"
    text = (f"network {NETWORK:X} 1 1424\nlink dosbox 0.0.0.0:{GATEWAY[1]}\nstrangers none\nrate 800 50 1600\n"
            f"link interface {CARDS[0][0]} auto\n")
    driven = ("too much for a client", "too much for an address", "too much for a link")
    more, flooded, house, own_house = 3, 1500, 6, 3

    def begin(self):
        self.two = [self.client(0), self.client(1)]
        for k in [1] * self.own_house + [2] * self.house:
            self.client(k)
        self.it.party.put_in("on a cable", OnCable(CARDS[0][1]))
        self.it.party.enter()
        for it in self.two:
            self.flood("forged", "chat", rate=self.flooded, **place_of(it))

    def afterwards(self):
        self.heard_again(*self.two)


class AllKinds(Stage):
    """A sixth says 80 packets a second beside five players, on cables with four kinds of frames."""

    name, text, driven = "cables with four kinds of frames", ALL_KINDS, ("too much for a link",)
    numbers, more = (0, 0, GAMES), 1

    def begin(self):
        self.sixth = self.client(0)
        for _, far in CARDS:
            self.it.party.put_in("on a cable", OnCable(far))
        self.it.party.enter()
        self.often.append(Often(SIXTH, lambda k: self.sixth.say(NUMBERED, k)))

    def afterwards(self):
        self.heard_again(self.sixth)


class Heard(Stage):
    """A client, five of one address and a PC ask the router, a client and the PC tell it of routes, and clients say much to other networks;
    others do the same seldom."""

    name = "what the router hears"
    text = (f"{TUNNEL_LINE}strangers none\nnetwork {THERE:X} 1 1424 dosbox 0.0.0.0:{OTHER_PORT}\n" + "".join(
        f"network {it:X} 1 1424 qemu-udp {GATEWAY[0]}:{near} {host(0)}:{far} raw\n" for it, (near, far) in WIRES.items()))
    driven = ("too many questions", "too many advertisements", "too much for the router")
    more = 8

    def begin(self):
        self.asks, self.five = self.client(0), [self.client(1) for _ in range(5)]
        self.tells, self.says, self.answers, self.quiet, self.router = map(self.client, range(2, 7))
        self.card, self.quiet_card = self.cards = [Card(it) for it in WIRES]
        self.it.party.enter()
        self.far = Party([], (GATEWAY[0], OTHER_PORT), numbers=(0, 0, 0))
        self.there = Player(self.it.free[7], (GATEWAY[0], OTHER_PORT))
        self.far.put_in("there", self.there)
        self.there.register()
        self.until(lambda: self.there.network, "nobody comes to the other network", self.there.register)
        self.is_told = False
        self.often += [
            Often(20, self.asks.ask),
            Often(100, lambda k: self.five[k % 5].ask(k // 5)),
            Often(20, lambda k: self.tells.tell(DRIVEN, 16 if k % 2 else 1)),
            Often(800, lambda k: self.says.say_to(NOWHERE)),
            Often(800, lambda k: self.answers.say_to(NOWHERE, source=TUNNEL)),
            Often(60, self.card.ask),
            Often(200, self.card.tell),
        ]

    def has(self, network):
        """Whether the router has a route."""
        return f"{network:08X}" in self.it.gate.report().partition("\nroutes:")[2]

    def offer(self):
        """A client and a PC have a service."""
        self.router.offer()
        self.quiet_card.offer()

    def reaches(self, *players):
        """Whether clients are heard at once on the other network."""
        self.there.heard = {}
        for player in players:
            player.say_to(THERE, node=self.there.node)
        self.until(lambda: all(it.node in self.there.heard for it in players), "who speaks to another network isn't heard")

    def meanwhile(self):
        self.is_told = not self.is_told
        self.offer()
        self.router.tell(TOLD, 1 if self.is_told else 16)
        self.until(lambda: self.has(TOLD) == self.is_told, "who tells of a route seldom isn't heard")
        self.reaches(self.quiet)
        self.expect_answers(self.quiet, "a client that asks seldom")
        self.expect_answers(self.quiet_card, "a PC that asks seldom")

    def afterwards(self):
        self.offer()
        self.tells.tell(DRIVEN, 1)
        self.until(lambda: self.has(DRIVEN), "who told too much isn't heard again")
        self.reaches(self.says, self.answers)
        for it in (self.asks, self.five[0], self.card):
            self.expect_answers(it, "who asked too much")
        self.far.close()


class Answered(Stage):
    """Somebody pings all in a client's name, five of an address register and ping often, strangers register often from one address, and on
    another network from 60,000."""

    name = "what the gateway answers"
    text = f"{TUNNEL_LINE}network {THERE:X} 1 1424 dosbox 0.0.0.0:{OTHER_PORT}\n"
    driven = ("too many pings", "too many answers", "too many strangers")
    more = 4

    def begin(self):
        self.pings, self.five = self.client(0), [self.client(1) for _ in range(5)]
        self.it.party.enter()
        self.flood("forged", "ping", rate=50, **place_of(self.pings))
        self.flood("sockets", "register", rate=200, host="10.79.0.1", first=3000, ports=64)
        self.flood("forged", "register", rate=1000, port=OTHER_PORT, host=STRANGERS, hosts=60000, first=3000, ports=8)
        self.often += [Often(50, lambda k: self.five[k % 5].register()), Often(20, lambda k: self.five[k % 5].ping_all())]

    def comes(self, port, again):
        """Somebody registers who isn't a client yet."""
        guest = Player(self.it.free[2], (GATEWAY[0], port))
        guest.register()
        self.until(lambda: guest.receive() or guest.network, "a newcomer isn't answered", guest.register if again else lambda: None)
        guest.close()

    def meanwhile(self):
        self.comes(GATEWAY[1], True)

    def afterwards(self):
        for port in (GATEWAY[1], OTHER_PORT):
            self.comes(port, False)
        before = self.five[0].network = 0
        self.five[0].register()
        self.until(lambda: self.five[0].network != before, "a client that registered too often isn't answered again")
        self.pings.present.clear()
        self.pings.ping_all()
        nodes = {it.node for it in self.it.party.all if it is not self.pings}
        self.until(lambda: nodes <= self.pings.present, "who pinged too often isn't answered again")


STAGES = (Received, AllKinds, Heard, Answered)


def drive(seconds):
    """Each stage lasts so many seconds. Returns the faults."""
    faults = []
    for stage in STAGES:
        try:
            faults += stage(seconds).play()
        except AssertionError as fault:
            faults.append(f"{stage.name}: {fault}")
    return faults


def inside(seconds):
    """In the network of its own."""
    build_flood()
    faults = drive(seconds)
    for fault in faults:
        print(f"FAULT   gateway: {fault}")
    print(f"{len(STAGES)} stages of {seconds:.0f} s, {len(faults)} faults")
    return 1 if faults else 0


def main(seconds):
    way = way_inside("limits for a minute")
    return 0 if way is None else subprocess.run([*way, sys.executable, os.path.realpath(__file__), INSIDE, seconds], check=False).returncode


if __name__ == "__main__":
    if sys.argv[1:2] == [INSIDE]:
        sys.exit(inside(float(sys.argv[2])))
    sys.exit(main((sys.argv[1:] or [str(MINUTE)])[0]))

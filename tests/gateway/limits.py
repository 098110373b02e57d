"""Clients that flood, and those in whose name somebody else does: whoever plays beside them loses at most 2 %, and nobody leaves.

It runs in networks of its own (spaces.py). A flood in the name of a client's place is the same to the gateway as one that the client sends
itself. Each receiver's count shows that it gets no more than its limit, and one of them reads as slowly as a DOSBox does.
"""
import multiprocessing
import os
import re
import struct
import time

from attacks import LONG_SHARES, OTHER_PORT, QUIET, TUNNEL_LINE, Playground, during, fill, flood, none
from lab import EVERYONE, GAME, LIMIT, RIP, SAP, Clock, address, packet, played_anew, rip_response, socket_of, until
from players import FAST, NETWORK, Listener, Party, Player, Slow
from spaces import GATEWAY, STRANGERS, build_flood, host
from systems import SYSTEM
from trying import begin, figures, named, tried, tried_on_own_system

SECONDS = 6  # that a flood lasts: each client is pinged meanwhile
RATE, SHARE, BURST = 800, 50, 64  # as a network's `rate` says them, and packets that an address hands the router at once
RECEIVED, AT_ONCE = RATE + 2 * SHARE, 5 * SHARE  # packets that a client receives a second, and at once
TWO = f"{TUNNEL_LINE}network 20 1 1424 dosbox 0.0.0.0:{OTHER_PORT}\n"
FULL = f"{TUNNEL_LINE.replace('dosbox', LONG_SHARES)}rate none\n"  # a network whose clients may fill the tables
CHAT = 0x4004  # the socket of what no player says
PING = 2  # the socket of pings, and of their answers
ASKING = 300  # clients of an address that ask the router
QUESTIONS_AT_ONCE = 4  # of one client
ADVERTISED, ADVERTISED_AT_ONCE = 4, 32  # packets of an address that tell of routes and services, a second and at once
PORTS = {NETWORK: GATEWAY[1], 0x20: OTHER_PORT}
HOUSEHOLD = 4  # clients of an address that ask the router
LONGEST = 1424  # bytes of the longest packet
FLOOD = 8000  # packets a second
HOUSE = f"{TUNNEL_LINE}rate {RATE} {SHARE} {10 * RATE}\n"  # whose addresses receive as much of others as ten clients may
STEADY = 560  # packets a second that fill no client's queue
CROWD, FIRST = 200, 20000  # clients of one host, and the first of their ports
LISTENING, HOUSEHOLD_RATE = 800, 16  # clients of one host that only listen, and as much as how many they receive
FILLS_TABLES = 147  # packets that answer a question, where the tables are full
PAGES, PAGES_AT_ONCE = 20, 188  # packets by which the router answers a client, a second and at once
STRANGERS_A_SECOND = 100
ALIKE = ("10.79.0.5", "10.79.16.5")  # two addresses with the same last twelve bits
PORTS_THAT_REGISTER = 64  # more than are answered at once at one address
MUTE, FILLED, PINGED = 9, 4, 11  # addresses; seconds after which their pings are too many; and after which who registered was pinged
BACK, LONG = 4, 18  # who come back; and seconds that strangers register
PINGS_LOST = 10  # or questions, of a flood, on their way to the gateway
ANSWERING, PINGS, ANSWERS, STEP = 5, 15, 200, 0.1  # who answer pings, and how many; packets that look like answers, in so many seconds
BETWEEN_PINGS = 13  # such steps from one ping to the next
MOST_AHEAD = 1.5  # seconds by which a look at the clock may be late here


def most_of(seconds):
    """Packets that one client may receive of a flood."""
    return RECEIVED * (seconds + MOST_AHEAD) + AT_ONCE


def slow_one(it):
    """A player who reads as slowly as a DOSBox joins the party. Returns him."""
    player = Slow(it.free[-1], GATEWAY)
    it.party.put_in(Slow.KIND, player)
    return player


def place_of(player):
    host, port = player.udp.getsockname()
    return {"host": host, "first": port}


def are_answering(it, players):
    """What is wrong where one of some players has left, or hasn't answered for longer than he is silent between two pings."""
    report, late = it.gate.report(), []
    for player in players:
        found = re.search(rf"{player.node.hex().upper()} at \S+, answered (\d+) s ago", report)
        late += [] if found and int(found[1]) <= SECONDS else [player.node.hex()]
    return f"{len(late)} leave, or don't answer: {late[:3]}" if late else ""


def too_many(players, seconds):
    """What is wrong where one of some players received more than he may."""
    most = max(player.beside for player in players)
    figures(f"a player got at most {most} other packets in {seconds:.1f} s")
    return f"{most} packets in {seconds:.1f} s" if most > most_of(seconds) else ""


def stands(it, sent, players, meanwhile=lambda: None):
    """Plays while a flood lasts. Players lose nothing, get no more than they may, and stay."""
    began = time.monotonic()
    lost = it.play(lambda: meanwhile() or sent.lasts())
    figures(sent.end())
    seconds = time.monotonic() - began
    none(lost, too_many(players, seconds), are_answering(it, players))


def flooder(it):
    """One more client, in whose name a flood is sent; it answers pings."""
    player = Player(it.free[0], GATEWAY)
    it.party.put_in("floods", player)
    return player


@played_anew
def floods(kind):
    """A client says 8,000 packets a second to all, or to one."""
    with Playground(more=2, begins=False) as it:
        guilty, victim = flooder(it), slow_one(it)
        it.party.enter()
        to = victim.node.hex()
        stands(it, flood(it.gate, "forged", kind, FLOOD, count=FLOOD * SECONDS, **{"for": to}, **place_of(guilty)), it.party.all)
        report = it.gate.report()
        told = rf"{guilty.node.hex().upper()} at \S+, answered \d+ s ago\n      dropped: \d+ copies of what it said"
        assert re.search(told, report), report


@played_anew
def floods_from_elsewhere(kind, link):
    """Somebody on another network says 8,000 packets a second to all, by a socket that is extended: players lose nothing, since the limits
    of the network where they are hold."""
    text = f"{TUNNEL_LINE}extend {CHAT:X}\nnetwork 20 1 1424 {link}\nextend {CHAT:X}\n"
    with Playground(text, more=2, begins=False) as it:
        slow_one(it)
        it.party.enter()
        there = Party([], (GATEWAY[0], OTHER_PORT), numbers=(0, 0, 0))
        if kind == "chat":
            there.put_in("floods", Player(it.free[0], (GATEWAY[0], OTHER_PORT), port=FIRST))
            there.all[0].register()
            assert there.until(lambda: there.all[0].network, LIMIT), "a registration isn't answered"
        way = "sockets" if kind == "frame" else "forged"
        sent = flood(it.gate, way, kind, FLOOD, count=FLOOD * SECONDS, port=OTHER_PORT, network=0x20, host=it.free[0], first=FIRST)
        stands(it, sent, it.party.all, there.hear)
        assert it.gate.counted(NETWORK, "extended") > FLOOD, it.gate.report()
        there.close()


class Crowd:
    """200 clients of one host, or more, each of which answers pings: in a process of their own, so that they hold up no player."""

    def __init__(self, it, host, count=CROWD):
        self.run = multiprocessing.get_context("fork").Process(target=self.live, args=(host, count), daemon=True)
        self.run.start()
        until(lambda: it.party.hear() or it.gate.counted(NETWORK, "clients") == count + len(it.party.all), "the crowd comes in")

    @staticmethod
    def live(host, count):
        os.nice(10)
        crowd = Party([], GATEWAY, numbers=(0, 0, 0))
        for k in range(count):
            crowd.put_in("crowd", Player(host, GATEWAY, port=FIRST + k))
            crowd.all[-1].register()
        while True:
            crowd.hear(1)

    def __enter__(self):
        return self

    def __exit__(self, *_):
        self.run.kill()
        self.run.join()


def with_a_crowd():
    """A field for 200 clients more, whose gateway isn't slowed down by sanitizers."""
    return Playground(TUNNEL_LINE + "strangers none\n", more=2, begins=False, program=SYSTEM.delivered)


@played_anew
def a_crowd_floods():
    """200 clients of one host say 8,000 packets a second together: who plays beside them loses nothing."""
    with with_a_crowd() as it:
        slow_one(it)
        it.party.enter()
        with Crowd(it, it.free[0]):
            sent = flood(it.gate, "forged", "chat", FLOOD, count=FLOOD // 4, host=it.free[0], first=FIRST, ports=CROWD)
            stands(it, sent, it.party.all)


@played_anew
def a_large_household():
    """Eight players of one address, who say 280 packets a second together, lose nothing while another client says 8,000."""
    with Playground(numbers=(1, 0, 0), more=2, begins=False) as it:
        guilty = flooder(it)
        for _ in range(2 * HOUSEHOLD):
            it.party.put_in("household", Player(it.free[1], GATEWAY, FAST))
        it.party.speakers += it.party.all[-2 * HOUSEHOLD:]
        it.party.enter()
        stands(it, flood(it.gate, "forged", "chat", FLOOD, count=FLOOD * SECONDS, **place_of(guilty)), it.party.all)


@played_anew
def a_house_of_sixteen():
    """16 players of one address, who say 288 packets a second together, lose nothing while a client elsewhere says 8,000, though their
    address receives of others no more than ten may."""
    with Playground(HOUSE, numbers=(0, 0, 0), more=2, begins=False) as it:
        guilty = flooder(it)
        for _ in range(HOUSEHOLD_RATE):
            it.party.put_in("house", Player(it.free[1], GATEWAY, 1 / 18))
        it.party.speakers += it.party.all[-HOUSEHOLD_RATE:]
        it.party.enter()
        stands(it, flood(it.gate, "forged", "chat", FLOOD, count=FLOOD * SECONDS, **place_of(guilty)), it.party.all)
        assert it.gate.counted(NETWORK, "too much for an address") > 0


@played_anew
def a_house_beside_steady_words():
    """16 players of one address, who say 288 packets a second together, lose nothing while a client elsewhere says 560 evenly: it fills no
    queue of a player's, but it is more than their address receives of others."""
    with Playground(HOUSE, numbers=(0, 0, 0), more=2, begins=False, program=SYSTEM.delivered) as it:
        guilty = flooder(it)
        for _ in range(HOUSEHOLD_RATE):
            it.party.put_in("house", Player(it.free[1], GATEWAY, 1 / 18))
        it.party.speakers += it.party.all[-HOUSEHOLD_RATE:]
        it.party.enter()
        stands(it, flood(it.gate, "forged", "chat", STEADY, count=STEADY * SECONDS, **place_of(guilty)), it.party.all)
        assert it.gate.counted(NETWORK, "too much for an address") > 0


@played_anew
def many_that_listen():
    """800 clients of one host only listen, while a client says 400 packets a second: their address receives as much as 16 clients may, and
    players lose nothing."""
    text = f"{TUNNEL_LINE}strangers none\nclients {LISTENING + CROWD}\n"
    with Playground(text, more=3, begins=False, program=SYSTEM.delivered) as it:
        guilty = flooder(it)
        slow_one(it)
        it.party.enter()
        with Crowd(it, it.free[1], LISTENING):
            before = it.gate.counted(NETWORK, "too much for an address")
            stands(it, flood(it.gate, "forged", "chat", RATE // 2, count=RATE // 2 * SECONDS, **place_of(guilty)), it.party.all)
            dropped = it.gate.counted(NETWORK, "too much for an address") - before
        most = (LISTENING - HOUSEHOLD_RATE * RATE / (RATE // 2) * 2) * RATE // 2 * SECONDS
        figures(f"{dropped} copies weren't sent")
        assert dropped > most, f"{dropped} copies weren't sent"


@played_anew
def pings_play(rate):
    with with_a_crowd() as it:
        victim = slow_one(it)
        it.party.enter()
        with Crowd(it, it.free[0]):
            began = time.monotonic()
            stands(it, flood(it.gate, "forged", "ping", rate, count=rate * SECONDS, **place_of(victim)), it.party.all)
        passed = time.monotonic() - began + 2
        assert it.gate.counted(NETWORK, "too many pings") >= rate * SECONDS - passed - PINGS_LOST


def pings_in_its_name():
    """Among 200 clients somebody pings all in a player's name, 50 and 1,000 times a second: he loses nothing, and stays."""
    for rate in (50, 1000):
        pings_play(rate)


@played_anew
def questions_in_its_name(kind):
    """With full tables somebody asks the router in a player's name, 50 times a second."""
    with Playground(f"{FULL}network 20 1 1424 dosbox 0.0.0.0:{OTHER_PORT}\n", numbers=(1, 0, 1), more=5) as it:
        fill(it)
        far = Party(it.free[:4], (GATEWAY[0], OTHER_PORT), numbers=(1, 1, 2))
        victim = Slow(it.free[4], (GATEWAY[0], OTHER_PORT))
        far.put_in(Slow.KIND, victim)
        far.enter()
        before, began = victim.beside, time.monotonic()
        sent = flood(it.gate, "forged", kind, 50, count=50 * SECONDS, port=OTHER_PORT, **place_of(victim))
        far.play(lambda: it.party.hear() or sent.lasts())
        came, seconds = far.settle(), time.monotonic() - began
        figures(f"{sent.end()}; lost: {far.figures()}; the one in whose name it was asked got {victim.beside - before} packets")
        # (and once a minute it broadcasts all that it has)
        most = 2 * PAGES_AT_ONCE + (seconds + 1) * PAGES + len(far.all) * 50 * SECONDS
        none(far.fault(came), are_answering(it, far.all), "" if victim.beside - before <= most else "too many answers")
        assert it.gate.counted(0x20, "too many questions") >= 50 * SECONDS - (seconds + 4) - PINGS_LOST
        far.close()


def honest_players():
    """Players of 35 packets a second lose nothing, and nothing of theirs is dropped."""
    with Playground(numbers=(1, 0, 4)) as it:
        none(it.play(during(SECONDS)))
        report = it.gate.report()
        assert "too much" not in report and "too many" not in report and "dropped:" not in report, report


@played_anew
def forged_strangers():
    """Whoever registers from 60,000 forged addresses, 1,000 times a second, brings at most 100 datagrams a second upon them."""
    with Playground() as it:
        began = time.monotonic()
        sent = flood(it.gate, "forged", "register", 1000, count=1000 * SECONDS, host=STRANGERS, hosts=60000, first=3000, ports=8)
        lost = []
        count, _ = it.received(lambda: lost.append(it.play(sent.lasts)))
        figures(f"{sent.end()}: {count} datagrams to strangers")
        most = STRANGERS_A_SECOND * (time.monotonic() - began + 2 + MOST_AHEAD)
        none(*lost, "" if count <= most else f"{count} datagrams to strangers")


@played_anew
def an_address_like_a_newcomers():
    """Whoever chooses an address with the same last bits as a newcomer's takes none of what that newcomer is answered."""
    with Playground(numbers=(0, 0, 0), clock=Clock()) as it:
        flood(it.gate, "sockets", "register", count=2 * PORTS_THAT_REGISTER, host=ALIKE[0], first=3000, ports=PORTS_THAT_REGISTER).end()
        assert it.gate.counted(NETWORK, "too many strangers") > 0, it.gate.report()
        newcomer = Player(ALIKE[1], GATEWAY)
        it.party.put_in("newcomer", newcomer)
        newcomer.register()
        assert it.party.until(lambda: newcomer.network, LIMIT), "a newcomer isn't answered"


class Mute(Player):
    """Who speaks by its address, and answers no ping."""

    def hear(self, bytes_):
        pass


@played_anew
def who_never_answers(kilobits=None):
    """Nine addresses speak 50 times a second, and answer no ping. Who registers at one of them, or elsewhere, and never says anything, comes in."""
    line = f"line {kilobits}\n" if kilobits else ""
    with Playground(f"{TUNNEL_LINE}{line}nodes by-address\n", numbers=(0, 0, 0), more=MUTE + 1) as it:
        if kilobits:
            narrow(it, kilobits)
        mute = [Mute(host, GATEWAY, 1 / 50) for host in it.free[:MUTE]]
        for player in mute:
            it.party.put_in("mute", player)

        def speak():
            for player in mute:
                player.speak(time.monotonic())

        it.party.until(speak, FILLED)
        assert it.gate.counted(NETWORK, "too many strangers") > 0, it.gate.report()
        for number, host in enumerate((it.free[0], it.free[-1])):
            player = Listener(host, GATEWAY)
            it.party.put_in("listens", player)
            player.register()
            it.party.until(lambda one=player: speak() or one.pings, PINGED)
            assert player.network and it.gate.counted(NETWORK, "clients") == number + 1, "who registers is kept out"


@played_anew
def who_comes_back(rate, kilobits=None):
    """Strangers register again and again from forged addresses; four who say something without having registered are pinged, and come in."""
    line = f"line {kilobits}\n" if kilobits else ""
    with Playground(f"{TUNNEL_LINE}{line}nodes by-address\n", numbers=(0, 0, 0), more=BACK) as it:
        if kilobits:
            narrow(it, kilobits)
        sent = flood(it.gate, "forged", "register", rate, count=rate * LONG, host=STRANGERS, hosts=60000, first=3000)
        it.party.until(lambda: False, FILLED)
        for host in it.free:
            it.party.put_in("comes back", Player(host, GATEWAY, 1 / 35))

        def speak():
            for player in it.party.all:
                player.speak(time.monotonic())

        came = it.party.until(lambda: speak() or all(player.pings for player in it.party.all), PINGED)
        came = came and it.party.until(lambda: it.gate.counted(NETWORK, "clients") == BACK, QUIET)
        figures(sent.end())
        assert came, "who says something is kept out"


def narrow(it, kilobits=1000):
    """The gateway's cards have a line of 1 Mbit/s from now on, or of so many kilobits a second."""
    for card in "g0", "g1":
        it.field.gate.run("tc", "qdisc", "add", "dev", card, "root", "tbf", "rate", f"{kilobits}kbit", "burst", "5kb", "latency", "100ms")


@played_anew
def a_line_is_shared(kind, rate, size, listening):
    """By a line of 1 Mbit/s that the gateway knows a client says packets of a size to four players who say 35 a second each, and to as many
    clients of his own address that only listen; or to one of the players: these lose nothing."""
    text = f"{TUNNEL_LINE}line 1000\nstrangers none\n"
    with Playground(text, numbers=(0, 0, 4), more=1, program=SYSTEM.delivered) as it:
        with Crowd(it, it.free[0], 1 + listening):
            narrow(it)
            places = {"for": it.party.all[0].node.hex(), "host": it.free[0], "first": FIRST}
            stands(it, flood(it.gate, "forged", kind, rate, count=rate * SECONDS, size=size, **places), it.party.all)
        assert it.gate.counted(NETWORK, "too much for the line") > 0, it.gate.report()


@played_anew
def a_narrow_line():
    """By a line of 1 Mbit/s strangers who register 1,000 times a second cost the players nothing."""
    with Playground(numbers=(1, 1, 2)) as it:
        narrow(it)
        sent = flood(it.gate, "sockets", "register", 1000, count=1000 * SECONDS, host="10.79.0.1", hosts=512, first=3000)
        lost = it.play(sent.lasts)
        figures(sent.end())
        none(lost)


# ---- What an address says, by a clock that stands still ----


def come(it, hosts, ports, kind=Player):
    """A client at each of some addresses, each at a port of the gateway's. Returns them."""
    players = [kind(host, (GATEWAY[0], port)) for host, port in zip(hosts, ports)]
    for player in players:
        it.party.put_in("by a clock", player)
        player.register()
    until(lambda: it.party.hear() or sum(it.gate.counted(network, "clients") for network in PORTS) == len(players), "all clients")
    assert it.party.until(lambda: all(player.network for player in players), LIMIT), "a registration isn't answered"
    return players


def an_address_is_one():
    """An address with a client on each of two networks hands the router 64 packets at once on both together, and no more."""
    with Playground(TWO, numbers=(0, 0, 0), more=1, clock=Clock()) as it:
        for player in come(it, it.free * 2, PORTS.values()):
            for _ in range(2 * BURST):
                player.send(packet(address(0x99, player.node, GAME), player.at(), b"far"))
            it.gate.report()
        lost = [it.gate.counted(network, "too much for the router") for network in PORTS]
        assert lost == [BURST, 2 * BURST], lost


class Pings(Player):
    """A player whose program pings all."""

    def __init__(self, *where):
        super().__init__(*where)
        self.answers = []  # the nodes of who answered

    def ping(self):
        self.send(packet(address(0, EVERYONE, PING), self.at(PING), kind=0))

    def hear(self, bytes_):
        if socket_of(bytes_) == PING and bytes_[10:16] == self.node:
            self.answers.append(bytes_[22:28])
        super().hear(bytes_)


@played_anew
def answers_are_flooded():
    """A client says 2,000 packets a second that look like answers to pings: who pings all hears the answers of all."""
    with Playground(TWO, numbers=(0, 0, 0), more=1 + ANSWERING + 1, clock=Clock()) as it:
        pings, *others, floods = come(it, it.free, [GATEWAY[1]] * len(it.free), Pings)
        nodes = [player.node for player in others]

        def answered():
            return sum(node in nodes for node in pings.answers)

        for step in range(PINGS * BETWEEN_PINGS):
            for _ in range(ANSWERS):
                floods.send(packet(address(0, EVERYONE, CHAT), floods.at(PING), bytes(30)))
            it.gate.report()
            if step % BETWEEN_PINGS == 0:
                pings.ping()
                it.party.until(lambda before=answered(): answered() >= before + ANSWERING, QUIET)
            it.let_pass(STEP)
        it.party.until(lambda: False, QUIET)
        figures(f"{answered()} answers of {ANSWERING} others to {PINGS} pings; {pings.beside} other packets")
        assert answered() == ANSWERING * PINGS


def chatter(it, player, count):
    """A client says something to all, so many times at once."""
    for _ in range(count):
        player.send(packet(address(0, EVERYONE, CHAT), player.at(CHAT), b"chatter"))
    it.gate.report()


def what_an_address_receives():
    """20 clients of an address receive 500 packets at once together, and 160 a second; another client, and 20 of a trusted address, all."""
    below = f"strangers none\nrate {RATE} {SHARE} 160\ntrust {host(4)}\n"
    with Playground(TWO.replace("network 20", below + "network 20"), numbers=(0, 0, 0), more=4, clock=Clock()) as it:
        says, *others = come(it, [*it.free[:2], *it.free[2:] * 20], [GATEWAY[1]] * 42)
        for seconds, now in (0, 2 * AT_ONCE), (0.1, 16), (4, 2 * AT_ONCE):
            it.let_pass(seconds)
            before = [player.beside for player in others]
            chatter(it, says, 40)
            it.party.until(lambda: False, QUIET)
            heard = [player.beside - old for player, old in zip(others, before)]
            assert [heard[0], sum(heard[1::2]), sum(heard[2::2])] == [40, now, 800], heard


def answers_to_pings_come_last():
    """Who answers pings of another network can say half as much as without to other networks, however many these are."""
    with Playground(TWO, numbers=(0, 0, 0), more=1, clock=Clock()) as it:
        player, _ = come(it, it.free * 2, PORTS.values())
        for source, heard in (PING, BURST // 2), (GAME, BURST):
            for _ in range(2 * BURST):
                player.send(packet(address(0x99, player.node, GAME), player.at(source), b"far"))
            assert it.gate.counted(NETWORK, "drop NoRoute") == heard, it.gate.report()


def asks_for_all(player):
    """A client asks for all services of all types."""
    player.send(packet(address(player.network, EVERYONE, SAP), player.at(SAP), struct.pack(">HH", 1, 0xFFFF)))


def questions_of_an_address():
    """With full tables 300 clients of an address ask the router for all services: it hears 16 at once, and four a second later, and they get
    as many packets of its answers as four clients may. They register again: the gateway answers twice as often. A second later it answers as
    many of them again, by itself, and so none who registers then."""
    text = f"{FULL}network 20 1 1424 dosbox 0.0.0.0:{OTHER_PORT}\nstrangers none\nclients {ASKING}\n"
    with Playground(text, numbers=(1, 0, 1), more=1, clock=Clock()) as it:
        fill(it)
        asking = [Player(it.free[0], (GATEWAY[0], OTHER_PORT)) for _ in range(ASKING)]
        for player in asking:
            it.party.put_in("asks", player)
            player.register()
        until(lambda: it.party.hear() or it.gate.counted(0x20, "clients") == ASKING, "all clients")
        rounds = ((0, QUESTIONS_AT_ONCE * HOUSEHOLD, PAGES_AT_ONCE * HOUSEHOLD, 2 * QUESTIONS_AT_ONCE * HOUSEHOLD),
                  (1, HOUSEHOLD, PAGES * HOUSEHOLD, 0))
        for passed, answered, pages, told in rounds:
            it.let_pass(passed)
            before, sent = it.gate.counted(0x20, "too many questions"), it.gate.counted(0x20, "out")
            for player in asking:
                asks_for_all(player)
                it.party.hear()
            until(lambda: it.party.hear() or it.gate.counted(0x20, "too many questions") - before >= ASKING - answered, "all ask")
            it.party.until(lambda: False, QUIET)
            lost = it.gate.counted(0x20, "too many questions") - before
            assert lost == ASKING - answered, f"{ASKING - lost} are answered, not {answered}"
            sent = it.gate.counted(0x20, "out") - sent
            # (while that lasts, some time passes by the clock, too)
            assert pages <= sent <= ASKING + pages + PAGES * HOUSEHOLD, f"{sent} packets"
            before, unanswered = it.gate.counted(0x20, "too many answers"), ASKING - told
            for player in asking:
                player.register()
                it.party.hear()
            until(lambda: it.party.hear() or it.gate.counted(0x20, "too many answers") - before >= unanswered, "all register")
            it.party.until(lambda: False, QUIET)
            assert it.gate.counted(0x20, "too many answers") - before == unanswered, it.gate.report()


def answers_of(it):
    """Packets by which the router answered on a network: those that went out, and those that were too many."""
    return it.gate.counted(0x20, "out") + it.gate.counted(0x20, "too many answers")


def answers_of_the_router():
    """With full tables a client asks the router for all services once a second: it gets all of them once, and then so many packets a second."""
    text = f"{FULL}network 20 1 1424 dosbox 0.0.0.0:{OTHER_PORT}\n"
    with Playground(text, numbers=(1, 0, 1), more=1, clock=Clock()) as it:
        fill(it)
        player = Player(it.free[0], (GATEWAY[0], OTHER_PORT))
        it.party.put_in("asks", player)
        player.register()
        until(lambda: it.party.hear() or it.gate.counted(0x20, "clients") == 1, "a client")
        sent, began, most = it.gate.counted(0x20, "out"), time.monotonic(), PAGES_AT_ONCE
        for _ in range(SECONDS):
            it.let_pass(1)
            most += PAGES
            before = answers_of(it)
            asks_for_all(player)
            until(lambda before=before: it.party.hear() or answers_of(it) - before >= FILLS_TABLES, "all answers")
            assert it.gate.counted(0x20, "too many questions") == 0, it.gate.report()
        count = it.gate.counted(0x20, "out") - sent
        # (besides, some time passes by the clock, and the client is pinged)
        assert most - PAGES <= count <= most + (PAGES + 2) * (time.monotonic() - began + 1) + SECONDS, f"{count} packets, not {most}"


def questions_of_a_client(to, data):
    """A client asks the router 20 times: it is heard four times, and once a second later."""
    with Playground(TWO, numbers=(0, 0, 0), more=1, clock=Clock()) as it:
        (player,) = come(it, it.free, PORTS.values())
        lost = 0
        for passed, heard in (0, QUESTIONS_AT_ONCE), (1, 1):
            it.let_pass(passed)
            for _ in range(5 * QUESTIONS_AT_ONCE):
                player.send(packet(address(player.network, EVERYONE, to), player.at(CHAT), data, kind=0))
            lost += 5 * QUESTIONS_AT_ONCE - heard
            assert it.gate.counted(NETWORK, "too many questions") == lost, it.gate.report()


def advertise_in_turns(it, router, count):
    """A route comes and goes, so many times."""
    for k in range(count):
        router.send(rip_response(NETWORK, router.node, [(0x99, 16 if k % 2 else 1, 2)]))
    it.gate.report()


def a_route_that_comes_and_goes():
    """A client advertises a route and withdraws it 100 times: the router hears it 32 times, then 4 a second, and tells others no more."""
    with Playground(TWO, numbers=(0, 0, 0), more=2, clock=Clock()) as it:
        router, far = come(it, it.free, PORTS.values())
        before, heard = far.beside, ADVERTISED_AT_ONCE
        for _ in range(2):
            advertise_in_turns(it, router, 100)
            it.party.until(lambda: far.beside - before >= heard, QUIET)
            assert 0 < far.beside - before <= heard, f"{far.beside - before} packets"
            it.let_pass(1)
            heard += ADVERTISED
        report, lost = it.gate.report(), 200 - heard + ADVERTISED
        assert it.gate.counted(NETWORK, "too many advertisements", report) == lost, report
        assert f"dropped: {lost} advertisements" in report and f"{router.node.hex().upper()} at " in report, report


TESTS = [
    honest_players,
    named("a client says 8,000 packets a second to all", floods, "chat"),
    named("a client says 8,000 packets a second to one, who reads as slowly as a DOSBox", floods, "tell"),
    named("a client of a network with no limit says 8,000 packets a second to all, and to another network", floods_from_elsewhere, "chat",
          f"dosbox 0.0.0.0:{OTHER_PORT}\nrate none"),
    named("8,000 packets a second come from QEMU's network", floods_from_elsewhere, "frame",
          f"qemu-udp {GATEWAY[0]}:{OTHER_PORT} {host(8)}:{FIRST} raw"),
    a_crowd_floods,
    a_large_household,
    a_house_of_sixteen,
    a_house_beside_steady_words,
    many_that_listen,
    pings_in_its_name,
    named("with full tables SAP's queries in a player's name, 50 a second", questions_in_its_name, "sap"),
    named("with full tables RIP's requests in a player's name, 50 a second", questions_in_its_name, "rip"),
    forged_strangers,
    an_address_like_a_newcomers,
    who_never_answers,
    named("the same by a line of 64 kbit/s", who_never_answers, 64),
    named("strangers register 100 times a second, and four come back who only say something", who_comes_back, 100),
    named("the same by a line of 64 kbit/s, twice a second", who_comes_back, 2, 64),
    a_narrow_line,
    named("by a line of 1 Mbit/s that the gateway knows a client says 22 long packets a second", a_line_is_shared, "chat", 22, LONGEST, 0),
    named("by such a line somebody has 16 clients that only listen", a_line_is_shared, "chat", SHARE, 46, 16),
    named("by such a line he floods, by long packets", a_line_is_shared, "chat", FLOOD, LONGEST, 16),
    named("by such a line somebody floods one player", a_line_is_shared, "tell", FLOOD, 46, 0),
    an_address_is_one,
    answers_are_flooded,
    what_an_address_receives,
    answers_to_pings_come_last,
    questions_of_an_address,
    answers_of_the_router,
    named("a client asks the router 20 times by RIP's requests", questions_of_a_client, RIP, struct.pack(">HIHH", 1, 0xFFFFFFFF, 16, 1)),
    named("the same by SAP's queries", questions_of_a_client, SAP, struct.pack(">HH", 1, 4)),
    named("the same by SAP's queries for the nearest", questions_of_a_client, SAP, struct.pack(">HH", 3, 4)),
    a_route_that_comes_and_goes,
]


def inside():
    """In the network of its own."""
    build_flood()
    return tried(*TESTS)


def main():
    return tried_on_own_system(__file__, "limits")


if __name__ == "__main__":
    begin(main, inside)

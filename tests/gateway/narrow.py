"""Narrow lines that the gateway knows: who plays loses at most 2 %, whatever strangers and other clients do with the line.

It runs in networks of its own (spaces.py), whose cards are as narrow as the configuration says. limits.py has floods by such a line, too.
"""
import signal
import socket
import struct

from attacks import OTHER_PORT, QUIET, TUNNEL_LINE, Playground, during, flood, none
from frames import frame
from lab import EVERYONE, GAME, LIMIT, RIP, Clock, address, packet, played_anew, rip_response, socket_of, until
from limits import CHAT, FIRST, FLOOD, LONGEST, SECONDS, Crowd, narrow, stands
from players import HELLO, MOST_LOST, NETWORK, NUMBERED, Listener, Party, Player
from spaces import GATEWAY, STRANGERS, build_flood, host
from systems import SYSTEM
from trying import begin, figures, named, tried, tried_on_own_system

NARROW = 256  # kilobits a second
LINES = 4  # networks that share a line
REGISTERS = 250  # strangers a second, of each of them
PINGED, BETWEEN = 60, 27  # clients that are pinged by such a line, and milliseconds between two of a few pings
LAST_PINGED, FORGOTTEN, SOON = 9, 10, 0.3  # seconds after which who registered is pinged for the last time, and isn't remembered; and a moment
ASKED_AGAIN, WAITS = 5, 4  # seconds after which the library asks who is silent, and for which a ping may wait
NEWCOMERS = 3  # registrations of one who wants to come in
HOUSEHOLD, APART = 4, 2.5  # who only listen at one address, and seconds from one to the next
SLOW, LISTENERS, FEW, COME = 64, 3, 20, 8  # kilobits a second; who only listens there; strangers who register in a second; who are in before
OFTEN, BEHIND, MOST = 27, 3, 100  # registrations a second; seconds from a reload to the next; clients of a network
QUIET_SPEAKER = 11  # seconds after which who said only its first word isn't one of those who speak
STEP, STEPS, MANY = 0.1, 200, 150  # seconds between looks at what a PC floods, how many, and packets in each
ROUTES, FLOODED = 50, 60  # routes that a PC changes in each step, and packets that a client says
ASKS, QUESTIONS = 12, 40  # steps between a client's questions, and how many these are
LITTLE = 10  # parts of what is lost at most of one speaker, of what all may lose


def by_a_line(kilobits, networks=1, below="strangers none\n"):
    """A configuration of some networks that have one line."""
    lines = [TUNNEL_LINE.replace(f"network {NETWORK:X}", f"network {NETWORK + k:X}").replace(f":{GATEWAY[1]}", f":{GATEWAY[1] + k}")
             for k in range(networks)]
    return "".join(f"{line}line {kilobits}\n{below}" for line in lines)


@played_anew
def strangers_share_a_part():
    """By a line of 500 kbit/s, half of which three players use, strangers register 250 times a second on each of four networks from forged
    addresses: the players lose nothing."""
    with Playground(by_a_line(500, LINES, ""), numbers=(0, 0, 3)) as it:
        narrow(it, 500)
        places = {"host": STRANGERS, "hosts": 60000, "first": 3000, "count": REGISTERS * SECONDS}
        floods = [flood(it.gate, "forged", "register", REGISTERS, port=GATEWAY[1] + k, **places) for k in range(LINES)]
        lost = it.play(lambda: any([one.lasts() for one in floods]))
        figures("; ".join(one.end() for one in floods))
        none(lost)


@played_anew
def a_newcomer_comes_in():
    """By a line that a client fills, who registers is answered, and comes in."""
    with Playground(by_a_line(1000, 1, ""), numbers=(0, 0, 2), more=2) as it:
        with Crowd(it, it.free[0], 1):
            narrow(it)
            sent = flood(it.gate, "forged", "chat", 1000, count=1000 * SECONDS, size=LONGEST, host=it.free[0], first=FIRST)
            newcomer = Player(it.free[1], GATEWAY)
            it.party.put_in("newcomer", newcomer)
            for _ in range(NEWCOMERS):
                newcomer.register()
                if it.party.until(lambda: newcomer.network, 1):
                    break
            assert newcomer.network, "a newcomer isn't answered"
            until(lambda: it.party.hear() or it.gate.counted(NETWORK, "clients") == 4, "a newcomer comes in")
            sent.end()


def loses_little(it, lasts, apart):
    """Plays while something lasts, and waits for what is under way: they lose no more than they may, of no speaker much more."""
    it.party.begin_again(it.party.all[0].size)
    it.party.play(lasts, apart)
    it.party.until(lambda: False, 1)
    lost = [it.party.not_heard(speaker) for speaker in it.party.speakers]
    mean = sum(lost) / len(lost)
    figures(f"lost: {100 * mean:.1f} %, of one {100 * max(lost):.1f} %")
    none("" if mean <= MOST_LOST and max(lost) <= LITTLE * MOST_LOST else "too much is lost")


@played_anew
def many_addresses(count, kilobits, every, rate, size):
    """By a line as wide as it says, with many addresses each of which says something now and then, a client says packets of a size."""
    with Playground(by_a_line(kilobits), numbers=(0, 0, count), more=1, begins=False, program=SYSTEM.delivered) as it:
        for player in it.party.all:
            player.register()
            player.every = every
            it.party.hear()
        until(lambda: it.party.hear() or it.gate.counted(NETWORK, "clients") == count, "all clients")
        with Crowd(it, it.free[0], 1):
            narrow(it, kilobits)
            sent = flood(it.gate, "forged", "chat", rate, count=rate * SECONDS, size=size, host=it.free[0], first=FIRST)
            loses_little(it, sent.lasts, every / count)
            figures(sent.end())


@played_anew
def few_of_many_speak():
    """By 5 Mbit/s four of 24 addresses speak, 12 times a second each, beside a client that says 8,000 packets a second: all is heard."""
    with Playground(by_a_line(5000), numbers=(20, 0, 4), more=1, program=SYSTEM.delivered) as it:
        for player in it.party.speakers:
            player.every = 1 / 12
        with Crowd(it, it.free[0], 1):
            it.party.until(lambda: False, QUIET_SPEAKER)
            narrow(it, 5000)
            stands(it, flood(it.gate, "forged", "chat", FLOOD, count=FLOOD * SECONDS, host=it.free[0], first=FIRST), it.party.all)


class Bursts(Player):
    """A player that says several words at once."""

    WORDS = 12

    def speak(self, now):
        if now < self.due:
            return
        self.due = now + self.every
        for _ in range(self.WORDS):
            self.say(NUMBERED, self.said)
            self.said += 1


@played_anew
def many_words_at_once():
    """By a line of 1 Mbit/s that has room one player says 12 words at once, and three others 20 a second each: all are heard."""
    with Playground(by_a_line(1000), numbers=(0, 0, 3), more=1, begins=False) as it:
        for player in it.party.all:
            player.every = 1 / 20
        it.party.put_in("bursts", Bursts(it.free[0], GATEWAY, 1.0))
        it.party.speakers.append(it.party.all[-1])
        it.party.enter()
        narrow(it)
        none(it.play(during(SECONDS)))


@played_anew
def a_flood_from_a_wide_network():
    """A client of a network without a line says 8,000 long packets a second to one with a line of 1 Mbit/s: there players lose nothing."""
    text = f"{by_a_line(1000)}extend {CHAT:X}\nnetwork 20 1 1424 dosbox 0.0.0.0:{OTHER_PORT}\nextend {CHAT:X}\n"
    with Playground(text, numbers=(0, 0, 2), more=1) as it:
        there = Party(it.free, (GATEWAY[0], OTHER_PORT), numbers=(1, 0, 0))
        there.all[0].register()
        assert there.until(lambda: there.all[0].network, LIMIT), "a registration isn't answered"
        narrow(it)
        places = {"host": it.free[0], "first": there.all[0].udp.getsockname()[1], "network": 0x20, "size": LONGEST}
        sent = flood(it.gate, "forged", "chat", FLOOD, count=FLOOD * SECONDS, port=OTHER_PORT, **places)
        stands(it, sent, it.party.all, there.hear)
        assert it.gate.counted(NETWORK, "too much for the line") > 0, it.gate.report()
        there.close()


def pings_of_many():
    """By a line of 256 kbit/s 60 clients that all answered in one moment are pinged one by one, none later than four seconds. (by their
    addresses: who registers is pinged in another second first)"""
    with Playground(by_a_line(NARROW, below="strangers none\nnodes by-address\n"), numbers=(0, 0, 0), more=1, clock=Clock()) as it:
        for _ in range(PINGED):
            player = Player(it.free[0], GATEWAY)
            it.party.put_in("is pinged", player)
            player.say(HELLO)
            it.party.hear()
        until(lambda: it.party.hear() or it.gate.counted(NETWORK, "clients") == PINGED, "all clients")
        first = sum(player.pings for player in it.party.all)
        it.let_pass(ASKED_AGAIN)
        for passed, most in (0, 1), (0.1, 1 + 100 // BETWEEN + 1), (WAITS - 0.1, PINGED):
            it.let_pass(passed)
            it.party.until(lambda: False, QUIET)
            count = sum(player.pings for player in it.party.all) - first
            assert 0 < count <= most, f"{count} pings"
        assert count == PINGED, f"{count} pings"


def who_registers_again_is_pinged():
    """By a line of 256 kbit/s 60 clients register again at one moment: each is pinged nine seconds later, in that second. (if their pings waited for
    each other, somebody who registers in a client's name before its turn would put it out)"""
    with Playground(by_a_line(NARROW), numbers=(0, 0, 0), more=1, clock=Clock()) as it:
        for _ in range(PINGED):
            player = Player(it.free[0], GATEWAY)
            it.party.put_in("is pinged", player)
            player.register()
            it.party.hear()
        until(lambda: it.party.hear() or all(player.network for player in it.party.all), "all are answered")
        for player in it.party.all:
            player.say(HELLO)
            it.party.hear()
        until(lambda: it.party.hear() or it.gate.counted(NETWORK, "clients") == PINGED, "all clients")
        it.let_pass(FORGOTTEN)
        for player in it.party.all:
            player.register()
        it.gate.report()
        it.let_pass(LAST_PINGED - SOON)
        it.party.until(lambda: False, QUIET)
        before = [player.pings for player in it.party.all]
        it.let_pass(SOON)
        it.party.until(lambda: False, QUIET)
        assert all(player.pings > count for player, count in zip(it.party.all, before)), "a ping waits"


def listens(it, host):
    """Somebody registers, who never says anything."""
    player = Listener(host, GATEWAY)
    it.party.put_in("listens", player)
    player.register()
    return player


@played_anew
def who_only_listens_comes_in():
    """By a line of 64 kbit/s three register, who never say anything, and then strangers do, 20 times a second from forged addresses: the three are
    pinged, and come in."""
    with Playground(by_a_line(SLOW, 1, ""), numbers=(0, 0, 0), more=LISTENERS) as it:
        narrow(it, SLOW)
        for at in it.free:
            listens(it, at)
        until(lambda: it.party.hear() or all(player.network for player in it.party.all), "all are answered")
        sent = flood(it.gate, "forged", "register", FEW, host=STRANGERS, hosts=60000, first=3000, count=FEW * FORGOTTEN)
        came = it.party.until(lambda: it.gate.counted(NETWORK, "clients") == LISTENERS, FORGOTTEN)
        assert came, "a listener isn't pinged"
        figures(sent.end())


@played_anew
def a_house_comes_in():
    """By a line of 64 kbit/s four of one house register, one each 2.5 seconds, who never say anything: each is pinged, and comes in."""
    with Playground(by_a_line(SLOW, 1, ""), numbers=(0, 0, 0), more=1) as it:
        narrow(it, SLOW)
        for _ in range(HOUSEHOLD):
            listens(it, it.free[0])
            it.party.until(lambda: False, APART)
        came = it.party.until(lambda: it.gate.counted(NETWORK, "clients") == HOUSEHOLD, 2 * FORGOTTEN)
        assert came and all(player.network for player in it.party.all), "one of a house isn't pinged"


def reads(it, text):
    """The gateway reads another configuration."""
    with open(it.gate.configuration, "w", encoding="utf-8") as file:
        file.write(text)
    it.gate.run.order(signal.SIGHUP)
    it.gate.told("was read again")


@played_anew
def a_line_by_a_reload(text=TUNNEL_LINE):
    """Strangers register 27 times a second from forged addresses, and then a reload says that the line has 64 kbit/s. Who registers thereafter, and
    never says anything, is pinged, and comes in."""
    with Playground(text, numbers=(0, 0, 0), more=1) as it:
        sent = flood(it.gate, "forged", "register", OFTEN, host=STRANGERS, hosts=60000, first=3000, count=OFTEN * LAST_PINGED)
        it.party.until(lambda: not sent.lasts(), 2 * LAST_PINGED)
        figures(sent.end())
        narrow(it, SLOW)
        reads(it, by_a_line(SLOW, 1, ""))
        it.party.until(lambda: False, BEHIND)
        player = listens(it, it.free[0])
        came = it.party.until(lambda: it.gate.counted(NETWORK, "clients") == 1, FORGOTTEN)
        assert came and player.network, "who registers isn't pinged"


@played_anew
def who_waits_beside_clients():
    """Eight register and come in by what they say, three more register who never say anything, and a reload says that the line has 64 kbit/s: the
    three are pinged, and come in."""
    with Playground(numbers=(0, 0, 0), more=COME + LISTENERS) as it:
        for host in it.free[:COME]:
            player = Player(host, GATEWAY)
            it.party.put_in("comes", player)
            player.register()
        until(lambda: it.party.hear() or it.gate.counted(NETWORK, "clients") == COME, "all who speak")
        for host in it.free[COME:]:
            listens(it, host)
        until(lambda: it.party.hear() or all(player.network for player in it.party.all), "all are answered")
        narrow(it, SLOW)
        reads(it, by_a_line(SLOW, 1, ""))
        came = it.party.until(lambda: it.gate.counted(NETWORK, "clients") == COME + LISTENERS, 2 * FORGOTTEN)
        assert came, "a listener isn't pinged"


@played_anew
def who_listens_beside_reloads():
    """By a line and by none, somebody registers who never says anything, and each second a reload changes the network's limits: he is pinged
    nine seconds later at the latest, and comes in."""
    for text in TUNNEL_LINE, by_a_line(SLOW, 1, ""):
        with Playground(text, numbers=(0, 0, 0), more=1) as it:
            player = listens(it, it.free[0])
            for number in range(FORGOTTEN):
                it.party.until(lambda: player.pings, 1)
                reads(it, f"{text}clients {MOST - number}\n")
            assert it.gate.counted(NETWORK, "clients") == 1 and player.network, "a listener isn't pinged"


def many_beside_long_packets():
    """40 addresses by 1 Mbit/s, beside a client that says 40 long packets a second: they lose nothing."""
    many_addresses(40, 1000, 6.0, 40, LONGEST)


def more_than_are_told_apart():
    """70 addresses by 20 Mbit/s, more than are told apart, beside a client that says 200 long packets a second: they lose nothing."""
    many_addresses(70, 20000, 1.0, 200, LONGEST)


class PC:
    """A PC in QEMU, which says something to all."""

    def __init__(self, number, network=NETWORK):
        self.node, self.network = bytes.fromhex("02000000AA") + bytes([number]), network
        self.udp = socket.socket(socket.AF_INET, socket.SOCK_DGRAM)
        self.udp.bind((host(0), FIRST + number))
        self.udp.connect((GATEWAY[0], OTHER_PORT + number))

    @staticmethod
    def link(number):
        """The end of a line that names its link."""
        return f"qemu-udp {GATEWAY[0]}:{OTHER_PORT + number} {host(0)}:{FIRST + number} raw\n"

    def send(self, bytes_):
        self.udp.send(frame("raw", EVERYONE, self.node, bytes_))

    def say(self, what, number=0, port=GAME):
        self.send(packet(address(0, EVERYONE, port), address(self.network, self.node, port), struct.pack(">6sI", what, number)))


class Asks(Player):
    """A player whose program asks the router."""

    answered = 0

    def ask(self, network):
        self.send(packet(address(NETWORK, EVERYONE, RIP), self.at(CHAT), struct.pack(">HIHH", 1, network, 16, 1), kind=1))

    def hear(self, bytes_):
        self.answered += socket_of(bytes_) == CHAT
        super().hear(bytes_)


def a_party_by_a_clock(it):
    """Players at some addresses come in."""
    for free in it.free:
        player = Asks(free, GATEWAY)
        it.party.put_in("by a clock", player)
        player.register()
    until(lambda: it.party.hear() or it.gate.counted(NETWORK, "clients") == len(it.free), "all clients")
    return it.party.all


@played_anew
def a_link_floods():
    """By a line of 1 Mbit/s four players hear what one of them, and a PC at a link of their network, say ten times a second, while a PC at another
    of its links says 1,500 packets a second."""
    text = f"network {NETWORK:X} 1 1424\nlink dosbox 0.0.0.0:{GATEWAY[1]}\nline 1000\nstrangers none\n"
    with Playground(text + "".join(f"link {PC.link(k)}" for k in range(2)), numbers=(0, 0, 0), more=4, clock=Clock()) as it:
        players, floods, says = a_party_by_a_clock(it), PC(0), PC(1)
        for step in range(STEPS):
            for _ in range(MANY):
                floods.say(b"flood", port=CHAT)
            for speaker in says, players[0]:
                speaker.say(NUMBERED, step)
            it.let_pass(STEP)
        it.party.until(lambda: False, QUIET)
        heard = [len(player.heard.get(speaker.node, ())) for speaker in (says, players[0]) for player in players if player is not speaker]
        figures(f"of {STEPS} words they heard {heard}, of the flood {[player.beside for player in players]}")
        assert min(heard) >= (1 - MOST_LOST) * STEPS, f"{heard}"
        assert it.gate.counted(NETWORK, "too much for the line") > 0, it.gate.report()


@played_anew
def a_router_changes_its_routes():
    """By a line of 256 kbit/s a client's questions to the router are answered, while a PC on another network tells 50 routes ten times a second, or
    takes them back, and another client floods the line."""
    text = by_a_line(NARROW) + f"network {NETWORK + 1:X} 1 1424 100 100 {PC.link(0)}rate none\n"
    with Playground(text, numbers=(0, 0, 0), more=4, clock=Clock()) as it:
        players, router = a_party_by_a_clock(it), PC(0, NETWORK + 1)
        it.let_pass(QUIET_SPEAKER)
        for step in range(ASKS * (QUESTIONS + 1)):
            router.send(rip_response(router.network, router.node, [(0x1000 + k, (2, 16)[step % 2], 3) for k in range(ROUTES)]))
            for _ in range(FLOODED):
                players[-1].send(packet(address(0, EVERYONE, GAME), players[-1].at(), bytes(400)))
            it.gate.report()
            if step % ASKS == 0 and step > 0:
                players[0].ask(router.network)
            it.let_pass(STEP)
        it.party.until(lambda: False, QUIET)
        figures(f"{players[0].answered} of {QUESTIONS} questions are answered")
        assert players[0].answered == QUESTIONS
        assert it.gate.counted(NETWORK, "too much for the line") > 0, it.gate.report()


TESTS = [strangers_share_a_part, a_link_floods, a_router_changes_its_routes, a_newcomer_comes_in, many_beside_long_packets, more_than_are_told_apart, few_of_many_speak,
         many_words_at_once, a_flood_from_a_wide_network, pings_of_many, who_registers_again_is_pinged, who_only_listens_comes_in, a_house_comes_in,
         a_line_by_a_reload, named("the same where strangers had no limit there before", a_line_by_a_reload, by_a_line(SLOW)),
         who_waits_beside_clients, who_listens_beside_reloads]


def inside():
    """In the network of its own."""
    build_flood()
    return tried(*TESTS)


def main():
    return tried_on_own_system(__file__, "narrow lines")


if __name__ == "__main__":
    begin(main, inside)

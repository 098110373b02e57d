"""What a client receives where others say more than it reads: each address that speaks has its part. By a clock that the test sets; and by
the system's, what a cable with several kinds of frames receives for a while.

It runs in networks of its own (spaces.py).
"""
import re
import socket
import time

from attacks import OTHER_PORT, QUIET, Playground, during, none
from frames import Packets, frame, unframed
from lab import EVERYONE, GAME, Clock, address, packet, played_anew
from limits import AT_ONCE, BURST, CHAT, HOUSEHOLD, LONGEST, RATE, RECEIVED, SHARE, TWO, chatter, come
from players import NETWORK, NUMBERED, Player
from spaces import GATEWAY, Field, host, ip
from trying import begin, figures, named, tried, tried_on_own_system

LASTS, WHOLE = 2, 0.95  # seconds by that clock, and the least of a part that somebody has of it
STEP = 0.05  # seconds from one look at the clock to the next
CLIENTS_AT_ONCE = 8  # that speak until the gateway has heard them
KEPT = SHARE  # packets at once, of those that a client receives, for who has little there
LONGEST_AT_ONCE, ALL_LONG_AT_ONCE = 32, 64  # of the longest packets that a client receives of one who speaks alone, and of all
WORDS = 20  # packets at once of one who speaks beside another
ALONE = 100  # short packets at once of one who speaks alone
HOUSE_AT_ONCE = 500  # packets that all clients of an address receive at once of one who speaks alone
CARDS = (("g2", "t2"), ("g3", "t3"))  # of the gateway's, each with the one at the other end of its cable
GAMES, SIXTH = 5, 80  # players of 35 packets a second, and how many a sixth says: in four kinds of frames more than a link receives
LONG, AFTER, SLICE = 12, 2, 2  # seconds that they play, and more without the sixth; and after how many it is looked who was heard
ON_CABLE = bytes.fromhex("020000000CC3")
BETWEEN = 11  # networks of DOSBox' beside the usual two, so that 14 links are from one of QEMU to the next
WIRES = ((0x30, 5201, 6201), (0x50, 5202, 6202))  # networks of QEMU, each with its port of the gateway and its PC's
# (one card has the players' network, and to that of the other what they say is extended)
EXTENDS = f"extend {GAME:X}\n"
ALL_KINDS = (f"network {NETWORK:X} 1 1424\nlink dosbox 0.0.0.0:{GATEWAY[1]}\nlink interface {CARDS[0][0]} auto\n{EXTENDS}"
             f"network 20 1 1424 interface {CARDS[1][0]} auto\n{EXTENDS}")


def say_up_to(player, count):
    """A player says numbers to all until it is so many in all."""
    while player.said < count:
        player.say(NUMBERED, player.said)
        player.said += 1


def parts(many, much, others):
    """By a clock: each of many addresses with four clients says so many packets a second to all, and each of some others what is named for
    it. Who says less than his part of what a client receives is heard whole, the others alike, and no more than a client receives."""
    text = TWO.replace("network 20", "strangers none\nnetwork 20")
    with Playground(text, numbers=(0, 0, 0), more=1 + many + len(others), clock=Clock()) as it:
        free = it.free[1:1 + many]
        listener, *crowd = come(it, [it.free[0], *free * HOUSEHOLD, *it.free[1 + many:]], [GATEWAY[1]] * len(it.free * HOUSEHOLD))
        rates = [much / HOUSEHOLD] * (HOUSEHOLD * many) + others
        for step in range(int(LASTS / STEP)):
            for k, (player, rate) in enumerate(zip(crowd, rates)):
                say_up_to(player, rate * STEP * (step + 1))
                if k % CLIENTS_AT_ONCE == 0:
                    it.gate.report()
            it.let_pass(STEP)
        it.party.until(lambda: False, QUIET)
        heard = [len(listener.heard.get(player.node, ())) for player in crowd]
        alike = [sum(heard[k:HOUSEHOLD * many:many]) for k in range(many)]
        part = part_of(RECEIVED, [much] * many + others)
        said = [LASTS * rate for rate in others]
        figures(f"parts of {part:.1f} a second: {alike} of {LASTS * much}, {heard[HOUSEHOLD * many:]} of {said}")
        assert sum(heard) <= RECEIVED * LASTS + AT_ONCE, f"{sum(heard)} packets"
        for rate, count in zip([much] * many + others, alike + heard[HOUSEHOLD * many:]):
            least = LASTS * rate if rate <= WHOLE * part else WHOLE * LASTS * part
            assert count >= least, f"{count} of {LASTS * rate} packets"


def part_of(room, rates):
    """The part by which some have a room: all of what who says less, and as much of each other."""
    rates, left = sorted(rates), room
    for k, rate in enumerate(rates):
        if rate * (len(rates) - k) > left:
            return left / (len(rates) - k)
        left -= rate
    return room


def many_at_once_beside_a_flood():
    """Beside a client that says 200 packets at once, and again 0.2 seconds later, another is heard who says 50 at once as often."""
    with Playground(TWO, numbers=(0, 0, 0), more=3, clock=Clock()) as it:
        listener, floods, says = come(it, it.free, [GATEWAY[1]] * 3)
        for passed in 0, 0.2:
            it.let_pass(passed)
            chatter(it, floods, 4 * SHARE)
            say_up_to(says, says.said + SHARE)
            it.gate.report()
            it.party.until(lambda: len(listener.heard.get(says.node, ())) == says.said, QUIET)
            assert len(listener.heard[says.node]) == says.said, f"{len(listener.heard[says.node])} packets"
        assert 0 < listener.beside <= AT_ONCE + RECEIVED * passed - 2 * SHARE, f"{listener.beside} packets"


def no_more_than_it_reads():
    """24 clients of six addresses say 50 packets each at once: a client is given at most 250, and 90 more a tenth of a second later, so it
    hears pings too; of each address it is given its part of what is kept."""
    with Playground(TWO, numbers=(0, 0, 0), more=7, clock=Clock()) as it:
        listener, *others = come(it, [it.free[0], *it.free[1:] * HOUSEHOLD], [GATEWAY[1]] * (1 + 6 * HOUSEHOLD))
        for passed, part, least, most in (0, KEPT // 8, AT_ONCE - 2 * KEPT, AT_ONCE), (0.1, 0, 0, AT_ONCE + RECEIVED // 10):
            it.let_pass(passed)
            for player in others:
                say_up_to(player, player.said + SHARE)
                it.gate.report()
            it.party.until(lambda: False, QUIET)
            heard = [len(listener.heard.get(player.node, ())) for player in others]
            of_each = [sum(heard[k::6]) for k in range(6)]
            figures(f"{sum(heard)} packets, of each address {of_each}")
            assert least <= sum(heard) <= most and min(of_each) >= part, f"{heard}"


def long_packets_at_once():
    """A client is given no more at once than what its system keeps: 32 of the longest packets of one who speaks, at most 64 of five; and
    100 short ones of one."""
    with Playground(TWO, numbers=(0, 0, 0), more=6, clock=Clock()) as it:
        listener, *speak = come(it, it.free, [GATEWAY[1]] * 6)
        for size, count, least, most in ((LONGEST, 1, LONGEST_AT_ONCE, LONGEST_AT_ONCE), (LONGEST, 5, LONGEST_AT_ONCE, ALL_LONG_AT_ONCE),
                                         (100, 1, ALONE, ALONE + 1)):
            before = listener.beside
            for says in speak[:count]:
                for _ in range(2 * BURST):
                    says.send(packet(address(0, EVERYONE, CHAT), says.at(CHAT), bytes(size - 30)))
                it.gate.report()
            it.party.until(lambda: False, QUIET)
            figures(f"{listener.beside - before} packets of {size} bytes")
            assert least <= listener.beside - before <= most, f"{listener.beside - before} packets of {size} bytes"
            it.let_pass(2)


def one_part_on_two_networks():
    """An address that speaks on two networks at once, one of which is extended to the other, has one queue: a client of the other is given
    100 packets at once of both together."""
    text = TWO.replace("network 20", f"extend {CHAT:X}\nnetwork 20") + f"extend {CHAT:X}\n"
    with Playground(text, numbers=(0, 0, 0), more=2, clock=Clock()) as it:
        listener, there, here = come(it, [it.free[0], it.free[1], it.free[1]], [GATEWAY[1], OTHER_PORT, GATEWAY[1]])
        chatter(it, there, 2 * BURST)
        it.party.until(lambda: listener.beside >= BURST, QUIET)
        assert listener.beside == BURST, f"{listener.beside} packets that are extended"
        chatter(it, here, 2 * BURST)
        it.party.until(lambda: False, QUIET)
        assert ALONE <= listener.beside <= ALONE + 1, f"{listener.beside} packets"


def wired():
    """A configuration with networks of QEMU, the first and the last of the file, from which a socket is extended to one of DOSBox'."""
    first, last = (f"network {it:X} 1 1424 qemu-udp {GATEWAY[0]}:{near} {host(0)}:{far} raw\nextend {CHAT:X}\n" for it, near, far in WIRES)
    between = "".join(f"network {0x100 + k:X} 1 1424 dosbox 0.0.0.0:{OTHER_PORT + 1 + k}\nstrangers none\n" for k in range(BETWEEN))
    return first + TWO.replace("network 20", f"extend {CHAT:X}\nnetwork 20") + between + last


def links_far_apart():
    """What comes from two networks of QEMU has two queues, also where 13 networks of DOSBox' stand between them in the file: after 128 packets
    at once from the one, a client is given all of 20 from the other."""
    with Playground(wired(), numbers=(0, 0, 0), more=1, clock=Clock()) as it:
        client, = come(it, it.free, [GATEWAY[1]])
        for (network, near, far), said, heard in (WIRES[1], 2 * BURST, ALONE), (WIRES[0], WORDS, WORDS):
            before, node = client.beside, ON_CABLE[:5] + bytes([network])
            with socket.socket(socket.AF_INET, socket.SOCK_DGRAM) as wire:
                wire.bind((host(0), far))
                for _ in range(said):
                    word = packet(address(0, EVERYONE, CHAT), address(network, node, CHAT), b"chatter")
                    wire.sendto(frame("raw", EVERYONE, node, word), (GATEWAY[0], near))
            it.gate.report()
            it.party.until(lambda: client.beside - before >= heard, QUIET)
            assert heard <= client.beside - before <= heard + 1, f"{client.beside - before} packets of network {network:X}"


def each_has_its_part_of_an_address():
    """Of 500 packets at once that eight clients of an address receive of one who says 128 to all, each has its own; whoever says 20 then is
    heard whole, and so is one who says 2 more."""
    below = f"strangers none\nrate {RATE} {SHARE} 160\n"
    with Playground(TWO.replace("network 20", below + "network 20"), numbers=(0, 0, 0), more=4, clock=Clock()) as it:
        clients = come(it, [*it.free[:3], *it.free[3:] * 2 * HOUSEHOLD], [GATEWAY[1]] * (3 + 2 * HOUSEHOLD))
        (floods, says, one), household = clients[:3], clients[3:]
        for player, said, heard in (floods, 2 * BURST, HOUSE_AT_ONCE), (says, WORDS, None), (one, 2, None):
            before = [each.beside for each in household]
            chatter(it, player, said)
            it.party.until(lambda: False, QUIET)
            came = [each.beside - old for each, old in zip(household, before)]
            figures(f"{sum(came)} packets, {came}")
            assert sum(came) == (heard or said * len(household)), came


def dropped(gate):
    """How much links with frames didn't receive."""
    return sum(map(int, re.findall(r"too much for a link: (\d+)", gate.report().partition("report after ")[2])))


class OnCable(Player):
    """A PC at the far end of a card's cable, which hears raw frames and says nothing."""

    def __init__(self, card):
        super().__init__(host(0), GATEWAY)
        self.udp.close()
        self.udp = Packets(card, "raw").socket
        self.node, self.network = ON_CABLE, NETWORK

    def send(self, bytes_):
        """(nobody is to learn what kind it uses: so all kinds go on)"""

    def hear(self, bytes_):
        found = unframed("raw", bytes_)
        if found is not None:
            super().hear(found)


def cabled():
    """A field whose gateway has two more cards."""
    field = Field()
    for near, far in CARDS:
        ip("link", "add", far, "type", "veth", "peer", "name", near)
        ip("link", "set", near, "netns", str(field.gate.holder.pid))
        field.gate.ip("link", "set", near, "up")
        ip("link", "set", far, "up")
    return field


class Kinds:
    """Five players and a sixth, and PCs at the ends of cables with four kinds of frames, which hear the five all the time."""

    def __init__(self, it):
        self.it, self.sixth = it, Player(it.free[0], GATEWAY, 1 / SIXTH)
        self.pcs = [OnCable(far) for _, far in CARDS]
        it.party.put_in("sixth", self.sixth)
        for pc in self.pcs:
            it.party.put_in("on a cable", pc)
        it.party.enter()

    def slice(self, speaks):
        """They play for a while. Returns what is wrong with what the five's packets became."""
        lasts = during(SLICE)
        self.sixth.due = time.monotonic()
        self.it.party.begin_again(100)
        fault = self.it.play(lambda: lasts() and (not speaks or self.sixth.speak(time.monotonic()) or True))
        figures(f"of the sixth the PCs heard {[len(it.heard.get(self.sixth.node, ())) for it in self.pcs]} of {self.sixth.said}")
        return fault

    def play(self, seconds, after=AFTER):
        """They play for so many seconds, and for some more without the sixth, who says one more word in the end."""
        faults = [self.slice(True) for _ in range(0, seconds, SLICE)] + [self.slice(False) for _ in range(0, after, SLICE)]
        self.sixth.say(NUMBERED, 0)
        came = self.it.party.until(lambda: all(self.sixth.node in it.heard for it in self.pcs), QUIET)
        none(*faults, "" if came else "the sixth isn't heard in the end")


@played_anew
def cables_of_four_kinds():
    """For 12 s five players say 35 packets a second and a sixth 80: PCs on cables with four kinds of frames, one on their network and one
    on another to which that is extended, hear the five all the time."""
    with Playground(ALL_KINDS, numbers=(0, 0, GAMES), more=1, begins=False, field=cabled()) as it:
        Kinds(it).play(LONG)
        assert dropped(it.gate) > 0, it.gate.report()


TESTS = [
    named("by a clock, two addresses: eight clients of one say 280 a second, the other 800", parts, 1, 800, [280]),
    named("by a clock, 16 addresses say 200 a second each, one of 40 a second loses nothing", parts, 16, 200, [40]),
    named("by a clock, 32 addresses say 200 a second each, one of 40 a second has its part", parts, 32, 200, [40]),
    named("by a clock, what four say less than their parts three have that say more", parts, 1, 1200, [400, 600, 20, 40, 60, 80]),
    named("by a clock, 25 players of 35 a second", parts, 0, 0, [35] * 25),
    many_at_once_beside_a_flood,
    no_more_than_it_reads,
    long_packets_at_once,
    one_part_on_two_networks,
    links_far_apart,
    each_has_its_part_of_an_address,
    cables_of_four_kinds,
]


def inside():
    """In the network of its own."""
    return tried(*TESTS)


def main():
    return tried_on_own_system(__file__, "parts of what clients receive")


if __name__ == "__main__":
    begin(main, inside)

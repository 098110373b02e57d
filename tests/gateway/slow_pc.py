"""What a PC on a link with frames receives where DOSBox' clients say more than it reads: players are heard, and who floods loses.

It runs in networks of its own (spaces.py). One PC reads as slowly as a DOSBox does; the others are counted by a clock that the test sets.
"""
import re
import socket
import struct
import sys
import time

from attacks import OTHER_PORT, QUIET, Playground, flood, none
from fair import LASTS, STEP, dropped, say_up_to
from frames import frame
from lab import EVERYONE, GAME, RIP, ROOM, Clock, address, packet, played_anew, rip_response
from limits import AT_ONCE, CHAT, FIRST, FLOOD, RATE, RECEIVED, SECONDS, are_answering, come, place_of
from players import HELLO, NETWORK, TUNNEL, Player, Slow
from spaces import GATEWAY, build_flood, host
from trying import begin, figures, named, tried, tried_on_own_system

PC_PLACE = ("2.0.0.0", 0xAA1)
PC_NODE = socket.inet_aton(PC_PLACE[0]) + struct.pack(">H", PC_PLACE[1])  # what a flood says to that place goes to this node
MAC_HEADER = 14  # bytes before the packet of a raw frame
MANY = 8  # addresses that flood another network: each hands the router 400 packets a second
ASKED = 100  # questions at once
WIRE = f"qemu-udp {GATEWAY[0]}:{OTHER_PORT} {host(0)}:{FIRST} raw"


def several(below=""):
    """One network of DOSBox and of a PC in QEMU."""
    return f"network {NETWORK:X} 1 1424\nlink dosbox 0.0.0.0:{GATEWAY[1]}\nstrangers none\nlink {WIRE}\n{below}"


def beside(below=""):
    """The same PC on a network of its own, to which what players and flooders say is extended."""
    extended = f"extend {GAME:X} {CHAT:X}\n"
    return f"network {NETWORK:X} 1 1424 dosbox 0.0.0.0:{GATEWAY[1]}\nstrangers none\n{extended}network 20 1 1424 {WIRE}\n{extended}{below}"


class PC(Slow):
    """A PC in QEMU that reads a frame a millisecond, and says nothing of itself."""

    KIND = "a PC in QEMU"

    def __init__(self, keeps=Slow.KEPT, network=NETWORK):
        super().__init__(host(0), (GATEWAY[0], OTHER_PORT))
        self.udp.close()
        self.udp = socket.socket(socket.AF_INET, socket.SOCK_DGRAM)
        self.udp.setsockopt(socket.SOL_SOCKET, socket.SO_RCVBUF, keeps)
        self.udp.bind((host(0), FIRST))
        self.udp.connect((GATEWAY[0], OTHER_PORT))
        self.node, self.network = PC_NODE, network

    def send(self, bytes_):
        super().send(frame("raw", EVERYONE, self.node, bytes_))

    def register(self):
        """It is there."""
        self.say(HELLO)

    def hear(self, bytes_):
        super().hear(bytes_[MAC_HEADER:])


class Eager(PC):
    """The same, but one that reads all."""

    KIND = "a PC that reads all"

    def __init__(self, network=NETWORK):
        super().__init__(ROOM, network)

    def receive(self, most=sys.maxsize):
        Player.receive(self, most)


@played_anew
def a_pc_is_flooded(text, kind, count, rate):
    """Some clients flood; what players say is heard by the PC."""
    with Playground(text, more=count, begins=False) as it:
        guilty = [Player(free, GATEWAY) for free in it.free]
        for player in guilty:
            it.party.put_in("floods", player)
        it.party.put_in(PC.KIND, PC())
        it.party.enter()
        sent = [flood(it.gate, "forged", kind, rate, count=rate * SECONDS, network=NETWORK, **{"for": PC_NODE.hex()}, **place_of(player))
                for player in guilty]
        began = time.monotonic()
        lost = it.play(lambda: [flooding for flooding in sent if flooding.lasts()])
        seconds = time.monotonic() - began
        figures(f"{sent[0].end()}; the PC got {it.party.all[-1].beside} other packets in {seconds:.1f} s")
        for flooding in sent[1:]:
            flooding.end()
        none(lost, are_answering(it, it.party.all[:-1]), "" if dropped(it.gate) > 0 else "nothing was dropped")


def by_a_clock(text, rates, least, most, kinds=("raw",)):
    """Clients of as many addresses say so many packets a second for two seconds: of each at least so many come to the PC, and at most so many
    frames of all. Computers of some kinds of frames are there."""
    if "network 20" not in text:
        text += "network 20 1 1424 dosbox 0.0.0.0:0\n"
    with Playground(text, numbers=(0, 0, 0), more=len(rates), clock=Clock()) as it:
        players = come(it, it.free, [GATEWAY[1]] * len(rates))
        pc = Eager()
        it.party.put_in(PC.KIND, pc)
        for k, kind in enumerate(kinds):
            pc.udp.send(frame(kind, EVERYONE, PC_NODE[:5] + bytes([k]), packet(address(0, EVERYONE, CHAT), pc.at(CHAT))))
        it.gate.report()
        for step in range(int(LASTS / STEP)):
            for player, rate in zip(players, rates):
                say_up_to(player, int(rate * STEP * (step + 1)))
                it.gate.report()
            it.let_pass(STEP)
        it.party.until(lambda: False, QUIET)
        heard = [len(pc.heard.get(player.node, ())) for player in players]
        lost = dropped(it.gate)
        figures(f"of {[int(LASTS * rate) for rate in rates]} the PC heard {heard}; {lost} were dropped")
        assert sum(heard) + pc.twice <= most, f"{sum(heard)} packets, and {pc.twice} more frames"
        assert all(count >= floor for count, floor in zip(heard, least)), f"{heard}"
        said = sum(player.said for player in players)
        assert len(kinds) > 1 or sum(heard) + lost == said, f"{heard}, {lost} dropped"


def changes_of_a_route():
    """A PC in QEMU changes a route 600 times, and a second later 200 times: the router hears it 400 times, then 100, and tells DOSBox's
    clients no more."""
    with Playground(beside(), numbers=(0, 0, 0), more=1, clock=Clock()) as it:
        (client,), pc = come(it, it.free, [GATEWAY[1]]), PC(network=0x20)
        for count, heard in (600, 400), (200, 500):
            for k in range(count):
                pc.send(rip_response(0x20, pc.node, [(0x99, 16 if k % 2 else 1, 2)]))
                if k % 50 == 0:
                    it.gate.report()
            it.gate.report()
            it.party.until(lambda: False, QUIET)
            figures(f"the client heard {client.beside} packets")
            assert 0 < client.beside <= heard, f"{client.beside} packets"
            it.let_pass(1)
        assert it.gate.counted(0x20, "too many advertisements") == 300, it.gate.report()
        pc.close()


def questions_of_a_pc():
    """A PC on one of several links asks the router 100 times in the name of a client of another, who gets nothing of that. In its own name
    it asks 100 times: it is answered 80 times, and 20 times a second later."""
    with Playground(several() + "network 20 1 1424 dosbox 0.0.0.0:0\n", numbers=(0, 0, 0), more=1, clock=Clock()) as it:
        (client,), pc = come(it, it.free, [GATEWAY[1]]), Eager()
        it.party.put_in(PC.KIND, pc)
        router = it.gate.nodes[NETWORK]
        request = struct.pack(">HIHH", 1, 0xFFFFFFFF, 0xFFFF, 0xFFFF)

        def asks(node, network=0):
            before, of_client = pc.beside, client.beside
            for _ in range(ASKED):
                question = packet(address(network, router, RIP), address(network, node, RIP), request, kind=1)
                pc.udp.send(frame("raw", router, PC_NODE, question))
            it.gate.report()
            it.party.until(lambda: False, QUIET)
            return pc.beside - before, client.beside - of_client

        for node, network, answered in (client.node, 0, 0), (client.node, NETWORK, 0), (PC_NODE, 0, 80):
            assert asks(node, network) == (answered, 0), f"{node.hex()} asks"
        it.let_pass(1)
        assert asks(PC_NODE) == (20, 0), it.gate.report()
        lost = re.findall(r"(?:source of another|too many questions): (\d+)", it.gate.report())
        assert sorted(map(int, lost)) == [2 * ASKED - 100, 2 * ASKED], lost


def pings_of_a_pc(text, network):
    """A PC in QEMU pings all 100 times at once, and again a second later: DOSBox's clients get eight of these pings, and four more."""
    with Playground(text, numbers=(0, 0, 0), more=1, clock=Clock()) as it:
        (client,), pc = come(it, it.free, [GATEWAY[1]]), Eager()
        for passed, heard in (0, 8), (1, 4):
            it.let_pass(passed)
            before = client.pings
            for _ in range(ASKED):
                pc.send(packet(address(NETWORK, EVERYONE, TUNNEL), address(network, PC_NODE, TUNNEL), kind=0))
            it.gate.report()
            it.party.until(lambda: client.pings >= before + heard, QUIET)
            assert client.pings == before + heard, f"{client.pings - before} pings"
        assert re.findall(r"too many pings: (\d+)", it.gate.report()) == [str(2 * ASKED - 12)], it.gate.report()
        pc.close()


ALL = 10 * FLOOD
MOST = RECEIVED * LASTS + AT_ONCE
TWO_KINDS = ("raw", "ethernet2")
ON_ONE_LINK = beside() + f"network 30 1 1424 {WIRE.replace(' raw', ' ethernet2')}\nextend {GAME:X}\n"
TESTS = [
    named("beside a PC on the same network a client says 8,000 packets a second to all", a_pc_is_flooded, several(), "chat", 1, FLOOD),
    named("a client says 8,000 packets a second to a PC on the same network", a_pc_is_flooded, several(), "tell", 1, FLOOD),
    named("clients of eight addresses say as much as they may to a network on which a PC is", a_pc_is_flooded, beside(), "chat", MANY, RATE),
    named("by a clock, of 2,000 packets a second that a client says the PC gets what a client gets, and of 40 and 200 of others all",
          by_a_clock, several(), [2000, 40, 200], [1300, 80, 400], MOST),
    named("the same where the PC's link has two kinds of frames, so that each packet goes out twice", by_a_clock,
          several().replace(" raw", " auto"), [2000, 40, 200], [400, 80, 280], MOST, TWO_KINDS),
    named("the same where two networks are on its link", by_a_clock, ON_ONE_LINK, [350, 40, 200], [280, 80, 240], MOST, TWO_KINDS),
    named("by a clock, with a rate of 100 below the PC's link", by_a_clock, several("rate 100 10\n"), [400, 40], [80, 80], 500),
    named("by a clock, with no limit below it", by_a_clock, several("rate none\n"), [2000, 40], [4000, 80], ALL),
    named("the same where two networks are on its link, below one of which a rate stands", by_a_clock,
          ON_ONE_LINK + "rate 799\n", [350, 40, 200], [270, 80, 230], MOST, TWO_KINDS),
    changes_of_a_route,
    questions_of_a_pc,
    named("a PC on the same network pings all again and again", pings_of_a_pc, several("network 20 1 1424 dosbox 0.0.0.0:0\n"), NETWORK),
    named("a PC on another network does", pings_of_a_pc, beside(), 0x20),
]


def inside():
    """In the network of its own."""
    build_flood()
    return tried(*TESTS)


def main():
    return tried_on_own_system(__file__, "what a PC receives")


if __name__ == "__main__":
    begin(main, inside)

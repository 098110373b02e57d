"""An internet over wires of its own, whose routers are played one by one with `ipxr replay`: what is sent arrives late, in another order,
twice or never; and clocks differ."""
import collections
import re
import subprocess

from .internets import LONGEST, Internet, Port
from .packets import ALL_NODES
from .played import AGES, PROGRAM, Broken
from .ways import Ways

# A packet that each router drops in the same way, and what it says of it, while it runs and while it doesn't: all that it says before is of
# earlier lines.
MARK, MARKED, STOPPED = "in 0 00", b"drop Malformed:Short\n", b"drop NotRunning\n"
OUT = re.compile(rb"^out (\d+) (\w+) (\w+)$", re.M)
# After a packet of one kind was lost on the way from a port to another, so many beats no other is: of two broadcasts in a row one arrives.
APART = 62

# More than this flies in no internet of a study: where packets overtake each other, news may multiply.
MOST_FLYING = 200_000

# What wires do: the most beats that a packet takes, how many of a hundred are lost, and repeated; and how many hundredths of a second the
# fastest clock has in a beat, where the slowest has a hundred.
Wires = collections.namedtuple("Wires", "delay lost repeated fastest")


class Router:
    """A router that runs in a process of its own."""

    def __init__(self, ports):
        self.run = subprocess.Popen([PROGRAM, "replay"], stdin=subprocess.PIPE, stdout=subprocess.PIPE)
        self.runs = False
        self.says(*(f"port {it.network:08X} {it.node:012X} {it.cost} {LONGEST}" for it in ports))

    def says(self, *lines):
        """What it says to lines; to a stopped router only its ports are told, and that it starts, or shows a table."""
        self.runs = lines[-1] == "start" or self.runs and lines[-1] != "stop"
        mark = MARKED if self.runs else STOPPED
        self.run.stdin.write("".join(it + "\n" for it in (*lines, MARK)).encode())
        self.run.stdin.flush()
        text = b""
        while not text.endswith(mark):
            line = self.run.stdout.readline()
            if not line:
                raise Broken("a router ends early")
            text += line
        return text[: -len(mark)]


class Wired:
    """An internet under way, which of its ports are up, and what flies: by beat the events that happen in it. All of its routers are started, unless
    it is said otherwise."""

    def __init__(self, internet, chance, wires, are_started=True):
        self.internet, self.chance, self.wires = internet, chance, wires
        self.script, self.up, self.beat = [], set(internet.places), 0
        self.routers = [Router(it) for it in internet.routers]
        self.flies, self.lost_at = collections.defaultdict(list), {}
        self.rates = [chance.between(100, wires.fastest) for _ in self.routers]
        for router in range(len(self.routers)) if are_started else ():
            self.routers[router].says("start")

    def end(self):
        for it in self.routers:
            it.run.communicate()
            if it.run.returncode:
                raise Broken(f"a router ends with status {it.run.returncode}")

    def give_up(self):
        for it in self.routers:
            it.run.kill()
            it.run.communicate()

    # ---- what happens

    def happens(self, router, line):
        """A line of a router's script, and what it sends then; what comes to a stopped router is as if it didn't."""
        self.script.append(f"{router} {line}")
        if not self.routers[router].runs and line != "start":
            return
        for port, node, text in OUT.findall(self.routers[router].says(line)):
            self.send(router, int(port), int(node, 16), text.decode())

    def send(self, router, port, node, text):
        """What a router sends is on the way to each port that is meant."""
        network = self.internet.routers[router][port].network
        for place in self.internet.on[network]:
            if place.router != router and node in (ALL_NODES, self.internet.port(place).node):
                for _ in range(1 + self.chance.happens(self.wires.repeated)):
                    if not self.is_lost((router, port, place, text[32:36])):
                        arrives = self.beat + self.chance.between(0, self.wires.delay)
                        self.flies[arrives].append((place.router, f"in {place.port} {text}"))

    def is_lost(self, way):
        """Whether a packet is lost, by the ports between which it flies and the socket that it is for."""
        lost = self.beat - self.lost_at.get(way, -APART) >= APART and self.chance.happens(self.wires.lost)
        if lost:
            self.lost_at[way] = self.beat
        return lost

    def seconds(self, router):
        """How many seconds its clock has in this beat."""
        rate = self.rates[router]
        return (self.beat + 1) * rate // 100 - self.beat * rate // 100

    def pass_beat(self):
        """Each router's seconds, and all that arrives, in any order."""
        if sum(map(len, self.flies.values())) > MOST_FLYING:
            raise Broken("too much is on the way")
        happens = self.flies[self.beat]
        happens += [(it, "second 1") for it in range(len(self.routers)) for _ in range(self.seconds(it))]
        while happens:
            if len(happens) > MOST_FLYING:
                raise Broken("too much is on the way")
            self.happens(*happens.pop(self.chance.below(len(happens))))
        del self.flies[self.beat]
        self.beat += 1

    # ---- the same as of an internet that `ipxr internet` plays

    def start(self, router):
        """It runs already."""

    def quiet(self):
        """Nothing is ever quiet."""

    def port_down(self, place):
        self.happens(place.router, f"down {place.port}")
        self.up.discard(place)

    def port_up(self, place):
        self.happens(place.router, f"up {place.port}")
        self.up.add(place)

    def hear(self, place, packet):
        self.happens(place.router, f"in {place.port} {packet}")

    def tell(self, *lines):
        """Lines by which packets come from outside."""
        for line in lines:
            _, router, *words = line.split()
            self.happens(int(router), f"in {' '.join(words)}")

    def pass_seconds(self, count, asked="routes", meanwhile=lambda: ()):
        """The tables of all routers, without ages, after each of so many beats."""
        several = []
        for _ in range(count):
            self.tell(*meanwhile())
            self.pass_beat()
            several.append(self.tables(asked))
        return several

    def tables(self, asked="routes"):
        return [AGES.sub(b"", it.says(asked)) for it in self.routers]

    def ways(self):
        return Ways(self.internet, frozenset(self.up))


# ---- scripts

# Lines of a script of an internet that happen to one router, or show a table of it.
HAPPEN, SHOWN = ("start", "stop", "down", "up", "in"), ("routes", "services")


def internet_of(lines):
    """The internet that a script begins with, and the lines behind."""
    routers, left = [], [it.split() for it in lines if it.split() and not it.startswith("#")]
    while left and left[0][0] in ("router", "port"):
        word, *words = left.pop(0)
        if word == "router":
            routers.append([])
        else:
            routers[-1].append(Port(int(words[0], 16), int(words[1], 16), int(words[2])))
    return Internet(routers), left


def play(lines, chance, wires):
    """What a script of an internet says over wires, piece by piece: of `second N` each second is a beat; `settle` and `trace` say nothing."""
    internet, left = internet_of(lines)
    played = Wired(internet, chance, wires, are_started=False)
    for word, *words in left:
        if word == "second":
            for _ in range(int(words[0])):
                played.pass_beat()
        elif word in HAPPEN:
            played.happens(int(words[0]), " ".join([word, *words[1:]]))
        elif word in SHOWN:
            yield played.routers[int(words[0])].says(word).decode()
    played.end()

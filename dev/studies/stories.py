"""What happens to an internet in each study, and what is measured then."""
import collections

from . import internets, judges, packets
from .played import Broken, Played
from .wired import Wired

# How long a record lives without being heard again, and how far apart broadcasts of all are, in seconds.
LIFETIME, PERIOD = 180, 60
# Tables that are good for so long stay so.
STAYS = LIFETIME + PERIOD
SECONDS_AT_ONCE = 30
# The bounds of laws, in seconds; a network is unreachable from sixteen hops on.
GONE = 16 * LIFETIME
RIGHT, AT_ONCE = GONE + PERIOD, PERIOD


class Server(collections.namedtuple("Server", "network hops")):
    """A file server on a network, so many hops from it as it says."""

    NAME, KIND, NODE, SOCKET = "FILES", 4, 0xFE, 0x0451

    def word(self):
        address = self.network, self.NODE, self.SOCKET
        return packets.services(self.network, self.NODE, [(self.KIND, self.NAME, address, self.hops)])

    def as_told(self, hops):
        """What a line of a table says of it."""
        words = f"{self.KIND:04X} {self.NAME} {self.network:08X} {self.NODE:012X} {self.SOCKET:04X} {hops}"
        return tuple(words.encode().split())


class Watch:
    """Since which second the tables are good, by each measure."""

    def __init__(self, measured):
        self.measured, self.since, self.second = measured, dict.fromkeys(measured), -1

    def stays(self, tables):
        """Takes the tables of a further second; whether all have been good for long."""
        self.second += 1
        for name, (judge, bound) in self.measured.items():
            if not judge.are_good(tables):
                self.since[name] = None
                if self.second >= bound:
                    raise Broken(f"{name}: not after {self.second} seconds")
            elif self.since[name] is None:
                self.since[name] = self.second
        return all(it is not None and self.second - it >= STAYS for it in self.since.values())


class Case:
    """One seed of a study: its choices and the internet that is played."""

    def __init__(self, chance, least, most, wires=None):
        self.chance = chance
        internet = internets.internet(chance, chance.between(least, most))
        self.played = Wired(internet, chance, wires) if wires else Played(internet)
        self.internet, self.server, self.second = self.played.internet, None, 0
        self.meanwhile = tuple

    # ---- what happens

    def announced(self):
        """A server that says once a minute, at a second of its own, that it is there."""
        self.server, first = Server(self.chance.one_of(sorted(self.internet.on)), 1), self.chance.below(PERIOD)

        def lines():
            self.second += 1
            return self.announcement() if self.second % PERIOD == first else ()

        self.meanwhile = lines

    def announcement(self):
        """The lines by which all routers of its network hear the server."""
        return [f"in {it.router} {it.port} {self.server.word()}" for it in self.internet.on[self.server.network] if it in self.played.up]

    def started(self):
        """Starts all routers, within a minute or at once, in any order."""
        apart = self.chance.one_of((0, 1, 59))
        for router in self.chance.in_any_order(range(len(self.internet.routers))):
            self.played.start(router)
            if self.chance.happens(50):
                self.played.quiet()
                self.pass_seconds(self.chance.below(apart + 1))
        self.played.quiet()

    def pass_seconds(self, count):
        if count:
            self.played.pass_seconds(count, meanwhile=self.meanwhile)

    def begun(self):
        """Starts all, and lets so many seconds pass that all have advertised; then the tables are right."""
        self.started()
        self.pass_seconds(PERIOD + self.chance.below(PERIOD))
        self.check(self.right(), "not right a minute after the start")

    def in_part(self):
        """Starts all, then takes down some ports and stops some routers, until all tables are right again."""
        self.started()
        for place in self.chance.some_of(self.internet.places, 3):
            self.played.port_down(place)
        if self.chance.happens(50):
            self.played.stop(self.chance.below(len(self.internet.routers)))
        self.played.quiet()
        self.until({"right": (self.right(), RIGHT)})
        self.pass_seconds(self.chance.below(PERIOD))

    def losses(self):
        """Networks whose ports all go down, and routers that stop: the steps."""
        shared = [it for it, places in sorted(self.internet.on.items()) if len(places) > 1]
        lost = [place for it in self.chance.some_of(shared, 2) for place in self.internet.on[it] if place in self.played.up]
        steps = [(self.played.port_down, it) for it in lost]
        if self.chance.happens(30):
            steps.append((self.played.stop, self.chance.below(len(self.internet.routers))))
        return self.chance.in_any_order(steps)

    def gains(self):
        """Ports that come up, and routers that start: the steps."""
        off = [it for it in range(len(self.internet.routers)) if it not in self.played.running]
        down = [it for it in self.internet.places if it not in self.played.up and it.router not in off]
        steps = [(self.played.start, it) for it in off] + [(self.played.port_up, it) for it in down]
        return self.chance.some_of(steps, 4) if steps else []

    def happen(self, steps):
        """Steps one after another, with some deliveries in between."""
        for step, what in steps:
            step(what)
            if self.chance.happens(50):
                self.played.settle(self.chance.below(20))
        self.played.quiet()

    def one_end(self):
        """One port goes down, of a network on which others go on."""
        beside = self.played.ways().beside
        if ends := [it for it in self.internet.places if it in self.played.up and beside(it)]:
            self.happen([(self.played.port_down, self.chance.one_of(ends))])

    def check(self, judge, why):
        """A law that is said of the tables as they are."""
        if not judge.are_good(self.played.tables(judge.asked)):
            raise Broken(why)

    # ---- what is measured

    def right(self, networks=None):
        return judges.AreRight(self.played.ways(), networks)

    def reached(self):
        return judges.AreReached(self.played.ways())

    def real(self):
        return judges.AreReal(self.played.ways())

    def known(self):
        return judges.AreKnown(self.played.ways(), self.server)

    def until(self, measured):
        """For each measure, a judge and a bound, the second from which on its tables stay good. All judges ask for the same tables."""
        asked = next(iter(measured.values()))[0].asked
        watch, several = Watch(measured), [self.played.tables(asked)]
        while not any(map(watch.stays, several)):
            several = self.played.pass_seconds(SECONDS_AT_ONCE, asked, self.meanwhile)
        return watch.since

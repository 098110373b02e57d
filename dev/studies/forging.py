"""What a network may hear from outside: packets of hosts and forged ones, and true words that aren't the latest."""
from . import packets
from .internets import Place
from .judges import routes_in
from .ways import MOST_HOPS

HOST = 0xEE
# Networks that no router has.
FALSE = (0x01, 0x99, 0xFFFE)
SOCKETS = packets.RIP, packets.SAP, packets.OTHER


class Outside:
    """Makes up packets that come to a played internet."""

    def __init__(self, chance, played):
        self.chance, self.internet = chance, played.internet
        self.networks = [*sorted(self.internet.on), *FALSE]

    def speaker(self, network):
        """A node: a host, or what is the node of a router's port."""
        return self.chance.one_of([HOST, *(self.internet.port(it).node for it in self.internet.on[network])])

    def entry(self):
        """A network, with hops and ticks of any number."""
        ticks = self.chance.one_of((self.chance.between(1, 40), self.chance.between(1, 65535)))
        return self.chance.one_of(self.networks), self.chance.between(0, MOST_HOPS + 1), ticks

    def service(self):
        address = self.chance.one_of(self.networks), HOST, 0x0451
        return self.chance.between(4, 6), self.chance.one_of("AB"), address, self.chance.between(0, MOST_HOPS + 1)

    def heard(self, network, node, true):
        """Something that a router hears; only what tells of no route, if it is to be true."""
        kind = self.chance.below(100)
        if kind < 50 and not true:
            return packets.routes(network, node, [self.entry() for _ in range(self.chance.between(1, 6))])
        if kind < 65:
            return packets.services(network, node, [self.service() for _ in range(self.chance.between(1, 6))])
        if kind < 75:
            return packets.request(network, node, self.chance.one_of(SOCKETS))
        if kind < 85:
            return packets.query(network, node, self.chance.one_of([it for it in SOCKETS if it != packets.RIP] if true else SOCKETS))
        if kind < 90:
            return packets.propagated(network, node)
        return packets.data(network, node, self.chance.one_of(self.networks))

    def packet(self, true=False):
        """A place, and what comes there; some of it is for another network, and has gone through some routers."""
        place = self.chance.one_of(self.internet.places)
        network = self.internet.port(place).network
        text = self.heard(network, self.speaker(network), true)
        if self.chance.happens(10):
            text = packets.sent_far(text, self.chance.one_of(self.networks), self.chance.below(MOST_HOPS + 1))
        return place, text


def anything(chance, played):
    """Leaves tables of anything behind, and in half of the cases something that waits."""
    outside = Outside(chance, played)
    for _ in range(chance.between(1, 5)):
        for _ in range(chance.between(1, 8)):
            played.hear(*outside.packet())
        change = chance.one_of((played.port_down, played.port_up))
        if chance.happens(50):
            change(chance.one_of(played.internet.places))
        if chance.happens(70):
            played.quiet()
            played.pass_seconds(chance.between(1, 100))
    if chance.happens(50):
        played.quiet()


class Walker:
    """Makes up real ways, of any length, along ports that are up."""

    def __init__(self, chance, ways):
        self.chance, self.ways, self.internet = chance, ways, ways.internet

    def word(self, source, network, most_hops):
        """What a port's router says there of a network, by a random way of at most so many hops: hops and ticks, or None if it got lost."""
        cost = self.internet.port(source).cost
        if own := self.ways.own(source.router, network):
            others = [it for it in own if it in self.ways.up and it != source]
            return (1, self.internet.port(others[0]).cost + cost) if others else None
        ports = (Place(source.router, it) for it in range(len(self.internet.routers[source.router])) if it != source.port)
        steps = [it for port in ports if port in self.ways.up for it in self.ways.beside(port)]
        if most_hops < 2 or not steps:
            return None
        rest = self.word(self.chance.one_of(steps), network, most_hops - 1)
        return rest and (rest[0] + 1, rest[1] + cost)


def other_real_words(chance, played):
    """Lets neighbours say real ways that aren't the best of theirs: tables of real routes, of any age."""
    for _ in range(chance.between(10, 60)):
        walker, places = Walker(chance, played.ways()), [it for it in played.internet.places if it in played.up]
        tables = played.tables()
        place = chance.one_of(places)
        routes = [it for it in routes_in(tables[place.router]) if it[3] == place.port]
        if routes:
            network, _, _, _, node = chance.one_of(routes)
            source = walker.ways.neighbour(place, node)
            words = [walker.word(source, network, MOST_HOPS) for _ in range(5)]
            told = [(network, *it) for it in words if it]
            if told:
                played.hear(place, packets.routes(played.internet.port(place).network, node, [chance.one_of(told)]))
                played.quiet()
        if chance.happens(10):
            played.pass_seconds(chance.between(1, 59))

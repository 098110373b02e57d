"""What tables should have, computed from the ports of an internet and those of them that are up, and from nothing that the program says."""
import functools

from .internets import Place

MOST_HOPS = 15
MOST_TICKS = 65535


def best(ways):
    """The way of the fewest ticks, then of the fewest hops; a way is its ticks and its hops."""
    return min((it for it in ways if it), default=None)


class Ways:
    """The ways of an internet whose ports in `up` are up."""

    def __init__(self, internet, up):
        self.internet, self.up = internet, up
        self.real = functools.lru_cache(None)(self.is_real)
        self.least = functools.lru_cache(None)(functools.partial(self.within, MOST_HOPS))

    def beside(self, place):
        """The ports of other routers on a port's network that are up."""
        network = self.internet.port(place).network
        return [it for it in self.internet.on[network] if it in self.up and it.router != place.router]

    def own(self, router, network):
        """The ports of a router on a network, up or not."""
        return [it for it in self.internet.on[network] if it.router == router]

    def further(self, ways, router):
        """The best way of a router by its neighbours, where those are theirs."""
        mine = [it for it in self.internet.places if it.router == router and it in self.up]
        return best((ways[it.router][0] + self.internet.port(it).cost, ways[it.router][1] + 1)
                    for port in mine for it in self.beside(port) if ways[it.router])

    def within(self, hops, network):
        """The best way of each router of at most that many hops."""
        ways = {}
        for router in range(len(self.internet.routers)):
            ways[router] = best((self.internet.port(it).cost, 0) for it in self.own(router, network) if it in self.up)
        for _ in range(hops):
            longer = {it: ways[it] if self.own(it, network) else self.further(ways, it) for it in ways}
            if longer == ways:
                break
            ways = longer
        return ways

    def fifteen_suffice(self, network):
        """Whether no router's best way of at most sixteen hops has sixteen, unless it has no shorter one."""
        few, more = self.least(network), self.within(MOST_HOPS + 1, network)
        return all(more[it] == few[it] or few[it] is None for it in few if not self.own(it, network))

    def tables(self):
        """For each router the route that it should have to each network of the internet: network, hops and ticks."""
        tables = [[] for _ in self.internet.routers]
        for network in sorted(self.internet.on):
            for router, way in self.least(network).items():
                if way and not self.own(router, network):
                    tables[router].append((network, way[1], way[0]))
        return tables

    def neighbour(self, place, node):
        """The port of another router that a route heard by a port came from, both of them up; None if there is none."""
        return next((it for it in self.beside(place) if self.internet.port(it).node == node), None) if place in self.up else None

    def fewest_ticks(self, router, network):
        way = self.least(network)[router]
        return way[0] if way else MOST_TICKS + 1

    def is_real(self, router, network, hops, ticks, port, node):
        """Whether a route is of a way that there is. No way has too many ticks for an entry, as no port is so dear."""
        source = self.neighbour(Place(router, port), node)
        if source is None or self.own(router, network) or hops > MOST_HOPS:
            return False
        rest = ticks - self.internet.port(source).cost
        if own := self.own(source.router, network):
            return hops == 1 and any(it in self.up and it.port != source.port and rest == self.internet.port(it).cost for it in own)
        if hops == 1 or rest < self.fewest_ticks(source.router, network):
            return False
        others = (it for it in range(len(self.internet.routers[source.router])) if it != source.port)
        return any(self.real(source.router, network, hops - 1, rest, by, self.internet.port(it).node)
                   for by in others for it in self.beside(Place(source.router, by)))

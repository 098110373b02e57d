"""Whether tables are right, by the ways that the ports have and not by what the program says elsewhere."""
import re

ROUTE = re.compile(rb"^route (\w+) (\d+) (\d+) (\d+) (\w+)$", re.M)
SERVICE = re.compile(rb"^service (\w+) (\S+) (\w+) (\w+) (\w+) (\d+) \d+$", re.M)
MOST_HOPS = 15


def routes_in(text):
    """The routes of a table: network, hops, ticks, port and node."""
    return [(int(network, 16), int(hops), int(ticks), int(port), int(node, 16)) for network, hops, ticks, port, node in ROUTE.findall(text)]


class Judge:
    """Says whether all tables are good, each text judged once."""

    asked = "routes"

    def __init__(self):
        self.known = {}

    def are_good(self, tables):
        return all(self.is_good(router, text) for router, text in enumerate(tables))

    def is_good(self, router, text):
        key = router, text
        if key not in self.known:
            self.known[key] = self.judge(router, text)
        return self.known[key]

    def judge(self, router, text):
        raise NotImplementedError


class AreRight(Judge):
    """Each router has the least way to each network, and no other route; of some networks alone, if they are given."""

    def __init__(self, ways, networks=None):
        super().__init__()
        self.networks = networks
        self.tables = [[it for it in table if self.counts(it[0])] for table in ways.tables()]

    def counts(self, network):
        return self.networks is None or network in self.networks

    def judge(self, router, text):
        return [it[:3] for it in routes_in(text) if self.counts(it[0])] == self.tables[router]


class AreReached(Judge):
    """No router has a route to a network to which it has no way."""

    def __init__(self, ways):
        super().__init__()
        self.networks = [{it[0] for it in table} for table in ways.tables()]

    def judge(self, router, text):
        return all(it[0] in self.networks[router] for it in routes_in(text))


class AreReal(Judge):
    """Each route is of a way that there is."""

    def __init__(self, ways):
        super().__init__()
        self.ways = ways

    def judge(self, router, text):
        return all(self.ways.real(router, *it) for it in routes_in(text))


class AreKnown(Judge):
    """Each router with a way to the server's network has the server, with the fewest hops, and no router has any other service."""

    asked = "services"

    def __init__(self, ways, server):
        super().__init__()
        self.server, self.hops = server, {}
        heard = {it.router for it in ways.internet.on[server.network] if it in ways.up}
        for hops in range(server.hops, MOST_HOPS + 1):
            self.hops |= {it: hops for it in heard}
            near = (other.router for place in ways.up if place.router in heard for other in ways.beside(place))
            heard = {it for it in near if it not in self.hops}

    def judge(self, router, text):
        wanted = [self.server.as_told(self.hops[router])] if router in self.hops else []
        return SERVICE.findall(text) == wanted

"""Random internets: routers, the networks that their ports are on, and what these cost."""
import collections

# What scripts allow.
MOST_PORTS = 8
LONGEST = 1500
# The law of right tables asks that no port cost more ticks.
MOST_COST = 4095

Port = collections.namedtuple("Port", "network node cost")
Place = collections.namedtuple("Place", "router port")


class Internet:
    """Routers, each a list of ports."""

    def __init__(self, routers):
        self.routers = routers
        self.places = [Place(router, port) for router, ports in enumerate(routers) for port in range(len(ports))]
        self.on = collections.defaultdict(list)
        for place in self.places:
            self.on[self.port(place).network].append(place)

    def port(self, place):
        return self.routers[place.router][place.port]

    def lines(self):
        """The lines of a script that make it."""
        for ports in self.routers:
            yield "router"
            yield from (f"port {it.network:08X} {it.node:012X} {it.cost} {LONGEST}" for it in ports)


class Plan:
    """Which networks each router has, while it is being made up."""

    def __init__(self, chance, count):
        self.chance, self.made, self.networks = chance, 0, [[] for _ in range(count)]
        # How often two routers meet on a network that is there, rather than on one of their own.
        self.sharing = chance.one_of((0, 30, 80))

    def has_room(self, *routers):
        return all(len(self.networks[it]) < MOST_PORTS for it in routers)

    def add(self, *routers):
        """One more network, of those routers."""
        for router in routers:
            self.networks[router].append(self.made)
        self.made += 1

    def meet(self, router, other):
        """Puts two routers on a common network, if there is room."""
        others = [it for it in self.networks[other] if it not in self.networks[router]]
        if others and self.has_room(router) and (self.chance.happens(self.sharing) or not self.has_room(other)):
            self.networks[router].append(self.chance.one_of(others))
        elif self.has_room(router, other):
            self.add(router, other)


def plan(chance, count):
    """Routers that are all joined, some pairs of them more than once, and some networks of one router."""
    made, in_a_row, alone = Plan(chance, count), chance.one_of((0, 50, 100)), chance.one_of((20, 60, 100))
    for router in range(1, count):
        made.meet(router, router - 1 if chance.happens(in_a_row) else chance.below(router))
    for _ in range(chance.below(count)):
        router, other = chance.below(count), chance.below(count)
        if router != other:
            made.meet(router, other)
    for router in range(count):
        if made.has_room(router) and (chance.happens(alone) or not made.networks[router]):
            made.add(router)
    return made


def cost_of(chance):
    """What a port on a network costs, by a rule that is drawn once: each network by itself, or each port."""
    choices = chance.one_of(((1,), (1, 2, 3), (1, 20), range(1, 21), range(1, MOST_COST + 1)))
    if chance.happens(50):
        return lambda network: chance.one_of(choices)
    kept = {}
    return lambda network: kept.setdefault(network, chance.one_of(choices))


def internet(chance, count):
    """A random internet of that many routers."""
    made, cost = plan(chance, count), cost_of(chance)
    numbers = chance.in_any_order(range(0x10, 0x10 + made.made))
    routers = []
    for router, networks in enumerate(made.networks):
        mixed = enumerate(chance.in_any_order(networks))
        routers.append([Port(numbers[it], (0x02 << 40) + 256 * (router + 1) + port, cost(it)) for port, it in mixed])
    return Internet(routers)

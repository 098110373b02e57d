"""The studies by their names: each plays one seed and says what it measured."""
import collections

from . import forging
from .chance import Chance
from .played import Broken
from .stories import AT_ONCE, GONE, PERIOD, RIGHT, Case
from .ways import MOST_HOPS
from .wired import Wires

# What a study says of itself, the fewest and the most routers, what its wires do, and what it does with a case.
Study = collections.namedtuple("Study", "says least most wires measure")
# Where something waits at first, a law's bound is a second more.
FIRST = 1
# The beats of a delay after which nothing is left of what was under way at first.
FLYING = 18
# The rounds of the law, beside one for each router: whatever waits, and of what routers send by themselves.
ROUNDS, OWN_ROUNDS = 34, 17
STUDIES = {}


def study(name, says, least=2, most=8, wires=None):
    def add(measure):
        STUDIES[name] = Study(says, least, most, wires, measure)
        return measure

    return add


def measured(name, seed):
    """What a study measures of a seed, the script that was played, and the law that was broken, if one was."""
    of = STUDIES[name]
    case = Case(Chance(f"{name} {seed}"), of.least, of.most, of.wires)
    try:
        found = of.measure(case)
        case.played.end()
        return found, case.played.script, None
    except Broken as broken:
        return {}, case.played.script, broken
    finally:
        case.played.give_up()


# ---- routes


@study("any-tables", "from tables of anything: seconds until no route is left to what can't be reached, and until all are right")
def any_tables(case):
    case.started()
    forging.anything(case.chance, case.played)
    return case.until({"gone": (case.reached(), GONE + FIRST), "right": (case.right(), RIGHT + FIRST)})


@study("hosts-speak", "the same, while hosts send requests, services and data, with forged sources too: seconds until all tables are right")
def hosts_speak(case):
    outside = forging.Outside(case.chance, case.played)

    def lines():
        heard = [outside.packet(true=True) for _ in range(case.chance.below(4))]
        return [f"in {place.router} {place.port} {text}" for place, text in heard]

    case.started()
    forging.anything(case.chance, case.played)
    case.meanwhile = lines
    return case.until({"right": (case.right(), RIGHT + FIRST)})


@study("many-routers", "the same with 17 to 32 routers, where fifteen hops suffice: seconds until all tables are right", 17, 32)
def many_routers(case):
    case.started()
    forging.anything(case.chance, case.played)
    ways = case.played.ways()
    networks = {it for it in case.internet.on if ways.fifteen_suffice(it)} | set(forging.FALSE)
    return case.until({"right": (case.right(networks), RIGHT + FIRST)})


@study("real-tables", "from tables of true routes that needn't be the best, of any age: seconds until all tables are right")
def real_tables(case):
    case.begun()
    forging.other_real_words(case.chance, case.played)
    case.check(case.real(), "a route that isn't of a real way was made up")
    return case.until({"right": (case.right(), AT_ONCE)})


@study("cold-start", "all routers start, at once or within minutes: seconds after the last until all tables are right")
def cold_start(case):
    case.started()
    return case.until({"right": (case.right(), AT_ONCE)})


@study("link-lost", "from right tables: networks lose all their ports, or routers stop: seconds until all tables are right again")
def link_lost(case):
    case.begun()
    case.happen(case.losses())
    case.check(case.real(), "a route isn't of a real way after the loss")
    return case.until({"right": (case.right(), AT_ONCE)})


@study("port-up", "from right tables: ports come up and routers start: seconds until all tables are right again")
def port_up(case):
    case.in_part()
    case.happen(case.gains())
    return case.until({"right": (case.right(), AT_ONCE)})


@study("mixture", "from right tables: losses and gains, in any order at once: seconds until all tables are right again")
def mixture(case):
    case.in_part()
    case.happen(case.chance.in_any_order([*case.losses(), *case.gains()]))
    return case.until({"right": (case.right(), RIGHT)})


@study("one-end", "from right tables: a port goes down, and nobody else on its network notices: seconds until all tables are right again")
def one_end(case):
    case.begun()
    case.one_end()
    return case.until({"gone": (case.reached(), GONE), "right": (case.right(), RIGHT)})


@study("at-once", "the same, just after all have advertised in one second; 3 to 5 routers: seconds until all tables are right again", 3, 5)
def at_once(case):
    for router in range(len(case.internet.routers)):
        case.played.start(router)
    case.played.quiet()
    case.pass_seconds(PERIOD)
    case.one_end()
    return case.until({"gone": (case.reached(), GONE), "right": (case.right(), RIGHT)})


# ---- over real wires: bounds are in beats, each a second of the slowest clock


def on_wires(case, window):
    """From tables of anything, and with anything under way, by the laws of wires on which neighbours are heard in a window of so many beats."""
    delay = case.played.wires.delay
    gone = GONE + (MOST_HOPS * delay) + 1 + FLYING * delay
    case.started()
    forging.anything(case.chance, case.played)
    return case.until({"gone": (case.reached(), gone), "right": (case.right(), gone + MOST_HOPS * (window + delay))})


@study("lossy-wires", "as any-tables, over wires that take up to 3 s, lose one in ten, but of two in a row never both, and double one in ten", 2, 5,
       Wires(delay=3, lost=10, repeated=10, fastest=100))
def lossy_wires(case):
    return on_wires(case, 124)


@study("drifting-clocks", "as any-tables, over wires that take up to 3 s, where clocks go up to twice as fast as others", 2, 5,
       Wires(delay=3, lost=0, repeated=10, fastest=200))
def drifting_clocks(case):
    return on_wires(case, 64)


@study("service-lossy-wires", "as lossy-wires, and a server announces itself each minute: seconds until all know it, by the fewest hops", 2, 5,
       Wires(delay=3, lost=10, repeated=10, fastest=100))
def service_lossy_wires(case):
    window, delay = 124, case.played.wires.delay
    case.started()
    forging.anything(case.chance, case.played)
    case.announced()
    gone = GONE + MOST_HOPS * delay + 1 + FLYING * delay
    return case.until({"known": (case.known(), gone + window + (MOST_HOPS - 1) * (window + delay))})


# ---- services: the bound of the law grows with the hops, and isn't waited for


@study("service", "from tables of anything; a server announces itself each minute: seconds until all know it, by the fewest hops")
def service(case):
    case.started()
    forging.anything(case.chance, case.played)
    case.announced()
    return case.until({"known": (case.known(), RIGHT + FIRST)})


@study("service-new", "the server announces itself for the first time: seconds until all know it")
def service_new(case):
    case.begun()
    case.announced()
    case.played.tell(*case.announcement())
    case.played.quiet()
    return case.until({"known": (case.known(), RIGHT)})


@study("service-link-lost", "the server is known: networks lose all their ports, or routers stop: seconds until it is known again")
def service_link_lost(case):
    case.begun()
    case.announced()
    case.until({"known": (case.known(), RIGHT)})
    case.happen(case.losses())
    return case.until({"known": (case.known(), RIGHT)})


@study("service-port-up", "the server is known: ports come up and routers start: seconds until it is known again")
def service_port_up(case):
    case.in_part()
    case.announced()
    case.until({"known": (case.known(), RIGHT)})
    case.happen(case.gains())
    return case.until({"known": (case.known(), RIGHT)})


@study("service-one-end", "the server is known: a port goes down, and nobody else on its network notices: seconds until it is known again")
def service_one_end(case):
    case.begun()
    case.announced()
    case.until({"known": (case.known(), RIGHT)})
    case.one_end()
    return case.until({"known": (case.known(), RIGHT)})


# ---- rounds


def rounds(case, allowed):
    """The rounds in which all that waits is handed out, each with what is sent meanwhile left for the next."""
    count, waits = 0, case.played.settle(0)
    while waits:
        count, waits = count + 1, case.played.settle(waits)
    most = allowed + len(case.internet.routers)
    if count > most:
        raise Broken(f"{count} rounds, and {most} are allowed")
    return {"rounds": count, "fewer": most - count}


@study("rounds", "from tables of anything, with forged packets waiting: rounds until nothing waits, and how many fewer than allowed")
def rounds_of_anything(case):
    case.started()
    forging.anything(case.chance, case.played)
    outside = forging.Outside(case.chance, case.played)
    for _ in range(case.chance.between(1, 30)):
        case.played.hear(*outside.packet())
    return rounds(case, ROUNDS)


@study("own-rounds", "the same after starts, stops, ports that go down or up, seconds: rounds until nothing waits, and how many fewer")
def rounds_of_their_own(case):
    case.started()
    forging.anything(case.chance, case.played)
    case.played.quiet()
    routers = range(len(case.internet.routers))
    for _ in range(case.chance.between(1, 10)):
        change = case.chance.one_of((case.played.start, case.played.stop, case.played.port_down, case.played.port_up))
        of_routers = change in (case.played.start, case.played.stop)
        change(case.chance.one_of(routers if of_routers else case.internet.places))
    if case.chance.happens(50):
        case.played.tell(f"second {case.chance.between(1, 60)}")
    return rounds(case, OWN_ROUNDS)

"""Attacks on DOSBox' tunnel, kept so that the gateway stands them: while somebody floods it, forges addresses, fills its tables or switches
PCs off, the players who are there lose at most 2 % of what they say.

It runs in networks of its own (spaces.py). The floods come from flood.c at the rates that are named, and the rate that was reached is printed.
"""
import math
import resource
import time

from lab import ALL_THERE_IS, EVERYONE, GAME, LIMIT, Clock, Gateway, address, packet, until
from players import GUEST, NETWORK, Party, Player
from spaces import CROWD, GATEWAY, NEIGHBOURS, STRANGERS, VICTIM, Field, Flood, build_flood, ip, leave, own_addresses
from systems import SYSTEM
from troubles import ROUTES, SERVICES, advertise, is_held
from trying import begin, figures, named, tried, tried_on_own_system

SECONDS = 2  # that a flood lasts
WITHOUT_CARRIER = 4  # seconds in which clients without a word are taken for gone, and the kernel for the first time gives up to look for them
LOOKED_FOR = 12  # seconds in which the kernel finds out that somebody is gone, and has looked for him again
PATIENCE = 33  # seconds after which a client that doesn't answer is gone
OWN = 30  # bytes of the gateway's own answers and pings
MOST_OWN = 4  # of them for a datagram
QUIET = 0.2  # seconds in which what was sent has come
TUNNEL_LINE = f"network {NETWORK:X} 1 1424 dosbox 0.0.0.0:{GATEWAY[1]}\n"
LONG_SHARES = f"{ALL_THERE_IS} dosbox"
OTHER_PORT = GATEWAY[1] + 1
OTHER_CABLE = "10.80.0"  # the first numbers of the addresses on one more cable of the gateway's
# (what may be sent without it is as much as any program may)
WITHOUT_RIGHTS = ("setpriv", "--bounding-set=-net_admin")
# (the clock of these stands still, and so would a limit)
STILL = TUNNEL_LINE + "rate none\nstrangers none\n"
TWO = STILL.replace("dosbox", LONG_SHARES) + f"network 20 1 1424 dosbox 0.0.0.0:{OTHER_PORT}\nstrangers none\n"
VICTIMS_PORT = 5000


def flood(gate, way, kind, rate=1000, count=None, port=GATEWAY[1], knows=True, **places):
    """A flood that begins, for one of the gateway's ports. It knows the node of each place in whose name it speaks, as if it had heard all that
    players say; or none."""
    known = {"key": gate.key().hex()} if knows else {}
    return Flood(way, kind, to=f"{GATEWAY[0]}:{port}", gateway=gate.run.pid, rate=rate, count=count or rate * SECONDS, **known, **places)


class Playground:
    """A field with a gateway and a party that plays there."""

    def __init__(self, text=TUNNEL_LINE, numbers=(2, 2, 3), more=0, clock=None, environment=None, field=None, begins=True,
                 program=None, rights=(), options=()):
        self.begins = begins
        self.field = field or Field()
        hosts = own_addresses(1, sum(numbers) + more)
        self.free = hosts[sum(numbers):]
        how = {"program": SYSTEM.fast, "environment": clock.environment()} if clock else {"program": program, "environment": environment}
        self.clock = clock
        self.gate = Gateway(text, before=[*self.field.gate.within, *rights], options=options, **how)
        self.party = Party(hosts, GATEWAY, numbers=numbers)

    def __enter__(self):
        if self.begins:
            self.party.enter()
        return self

    def __exit__(self, kind, *_):
        self.party.close()
        try:
            self.gate.__exit__(kind)
        finally:
            self.field.close()

    def let_pass(self, seconds):
        """Time passes by the gateway's clock, a second at most at once; meanwhile the players answer pings."""
        for first in range(math.ceil(seconds)):
            self.clock.let_pass(min(1, seconds - first))
            self.gate.report()
            self.party.until(lambda: False, 0.01)

    def play(self, lasts):
        """They play while something lasts. Returns what is wrong with what they heard; what was lost is printed."""
        self.party.play(lasts)
        came = self.party.settle()
        figures(f"lost: {self.party.figures()}{'' if came else '; a last word never came'}")
        return self.party.fault(came)

    def received(self, do):
        """Datagrams that come to others than the players while something is done, and the bytes in them."""
        before = self.field.victim.received()
        do()
        self.gate.report()
        time.sleep(QUIET)
        return tuple(now - old for now, old in zip(self.field.victim.received(), before))

    def too_much(self, do, came):
        """What is wrong where others than the players get more than four short datagrams for each that comes in their name; it is printed."""
        datagrams, size = self.received(do)
        figures(f"{came} datagrams in others' names: {datagrams} to these, of {size} bytes together")
        is_fair = datagrams <= MOST_OWN * came and size <= MOST_OWN * OWN * came
        return "" if is_fair else f"{datagrams} datagrams of {size} bytes for {came}"

    def strangers(self):
        """What is wrong where more come, by the gateway's lines, than play."""
        self.gate.report()
        came = sum(" comes to " in it for it in self.gate.lines)
        return f"{came} came" if came > len(self.party.all) else ""


def none(*faults):
    """Ends a test."""
    found = [it for it in faults if it]
    assert not found, "; ".join(found)


def during(seconds):
    end = time.monotonic() + seconds
    return lambda: time.monotonic() < end


# ---- Floods ----


def invite(it, gateway=GATEWAY):
    """Guests at the free addresses come, and are heard."""
    guests = [Player(host, gateway) for host in it.free]
    for guest in guests:
        guest.register()

    def are_here():
        for guest in guests:
            guest.receive()
            guest.say(GUEST)
        return all(guest.node in it.party.all[0].guests for guest in guests)

    assert it.party.until(are_here, LIMIT), "the guests aren't heard"
    return guests


def stands(way, kind, rate, **places):
    """Players lose nothing while a flood lasts, and nobody gets more than is due."""
    with Playground() as it:
        sent = flood(it.gate, way, kind, rate, **places)
        fault = it.too_much(lambda: it.party.play(sent.lasts), rate * SECONDS) if way == "forged" else ""
        lost = it.play(sent.lasts)
        figures(sent.end())
        none(fault, lost, it.strangers())


def a_newcomer():
    """While 512 ports register, 6400 a second, somebody comes who registers once, and plays with the others."""
    with Playground(more=1) as it:
        sent = flood(it.gate, "sockets", "register", 6400, **PORTS)
        (guest,) = invite(it)
        fault = it.play(sent.lasts)
        sent.end()
        guest.receive()
        guest.close()
        hears_all = guest.heard.keys() == {speaker.node for speaker in it.party.speakers}
        none(fault, "" if hears_all else "the newcomer doesn't hear all")


def a_crowd_answers():
    """200 ports of a host register, and answer pings: nobody leaves for them."""
    with Playground(TUNNEL_LINE + "strangers none\n", more=1) as it:
        crowd = Party(it.free * 200, GATEWAY, numbers=(200, 0, 0))
        for player in crowd.all:
            player.register()
        lasts = during(SECONDS)
        fault = it.play(lambda: crowd.hear() or lasts())
        crowd.close()
        none(fault)


def false_sources():
    """A client's packets name other players as their source: nobody hears them."""
    with Playground(more=1) as it:
        liar = Player(it.free[0], GATEWAY)
        liar.register()
        it.party.until(lambda: liar.receive() or liar.network, QUIET)
        lasts, count = during(SECONDS), 0

        def lies():
            nonlocal count
            liar.receive()
            for other in it.party.all:
                liar.send(packet(address(0, EVERYONE, GAME), address(NETWORK, other.node, GAME), b"a lie that nobody hears"))
                count += 1
            return lasts()

        fault = it.play(lies)
        figures(f"{count} packets with false sources")
        liar.close()
        none(fault)


# ---- PCs that are switched off ----


def gone(number):
    """Players switch their PCs off: after 30 s nothing is sent to them, and what the others say isn't lost."""
    with Playground(STILL, more=number, clock=Clock()) as it:
        for guest in invite(it):
            guest.close()
        leave(it.free)
        for host in it.free:
            it.field.gate.ip("neigh", "del", host, "dev", "g0")
        it.let_pass(PATIENCE)
        faults = []
        for size in (100, 1000):
            it.party.begin_again(size)
            figures(f"{number} are gone, packets of {size} bytes")
            faults.append(it.play(during(SECONDS)))
        none(*faults)


def just_gone(number):
    """While the kernel looks for players who have just switched their PCs off, what the others say isn't lost."""
    with Playground(more=number) as it:
        # (it looks after seconds already, and not when they would have left)
        for name, value in ("base_reachable_time_ms", 1000), ("delay_first_probe_time", 1):
            it.field.gate.set(f"ipv4/neigh/g0/{name}", value)
        for guest in invite(it):
            guest.close()
        leave(it.free)
        it.party.begin_again(1000)
        none(it.play(during(LOOKED_FOR)))


def more_cable(field, count):
    """One more cable of the gateway's, and addresses of the test's own there."""
    ip("link", "add", "t1", "type", "veth", "peer", "name", "g2")
    ip("link", "set", "g2", "netns", str(field.gate.holder.pid))
    field.gate.ip("addr", "add", f"{OTHER_CABLE}.1/24", "dev", "g2")
    field.gate.ip("link", "set", "g2", "up")
    ip("link", "set", "t1", "up")
    hosts = [f"{OTHER_CABLE}.{2 + k}" for k in range(count)]
    for it in hosts:
        ip("addr", "add", f"{it}/24", "dev", "t1")
    return hosts


def without_carrier(number):
    """Players are gone whose cable has lost its carrier: what is for them doesn't keep from others who speak what these should hear, also where
    the gateway may send no more at once than any program."""
    with Playground(TUNNEL_LINE + "strangers none\n", numbers=(0, 2, 3), rights=WITHOUT_RIGHTS) as it:
        it.free = more_cable(it.field, number)
        for guest in invite(it, (f"{OTHER_CABLE}.1", GATEWAY[1])):
            guest.close()
        ip("link", "set", "t1", "down")
        it.party.play(during(WITHOUT_CARRIER))
        it.party.settle()
        it.party.begin_again(1000)
        none(it.play(during(LOOKED_FOR)))


# ---- Much for little ----


def fill(it):
    """A client fills the tables."""
    filler = it.party.speakers[0]
    until(lambda: advertise(filler, ROUTES, SERVICES) or it.party.hear() or is_held(it.gate, ROUTES, SERVICES), "full tables")


def forged(it, kind, count, **places):
    """Datagrams in the victim's name, all of which the gateway has heard: on the network where all that it knows is advertised."""
    flood(it.gate, "forged", kind, count=count, port=OTHER_PORT, host=VICTIM, first=VICTIMS_PORT, **places).end()
    it.gate.report()


def asked_for_others(kind):
    """With full tables, queries in a victim's name bring it no more than short datagrams."""
    with Playground(TWO, numbers=(1, 0, 1), clock=Clock()) as it:
        fill(it)
        none(it.too_much(lambda: forged(it, kind, 10), 10))


def forged_clients():
    """63 register in a victim's name, and speak every ten seconds, as long as nobody knows the victim's nodes: in 125 seconds it gets no more than
    four short datagrams each time."""
    with Playground(TWO, numbers=(1, 0, 1), clock=Clock()) as it:
        fill(it)

        def two_minutes():
            forged(it, "register", 63, ports=63)
            for _ in range(12):
                forged(it, "speak", 63, ports=63, knows=False)
                it.let_pass(10)
            it.let_pass(5)

        none(it.too_much(two_minutes, 13 * 63))


# ---- All of them ----

PORTS = {"host": "10.77.1.1", "first": 3000, "ports": 512}
ADDRESSES = {"host": CROWD, "hosts": 512, "first": 3000}
NOBODYS = {"host": STRANGERS, "hosts": 60000, "first": 3000, "ports": 8}
ABSENT = {"host": NEIGHBOURS, "hosts": 400, "first": 3000}  # (few: the kernel keeps a thousand neighbours, for all networks together)

TESTS = [
    *(named(f"512 ports of a host register, {rate} a second", stands, "sockets", "register", rate, **PORTS) for rate in (640, 6400, 20000)),
    *(named(f"512 addresses register, {rate} a second", stands, "sockets", "register", rate, **ADDRESSES) for rate in (64, 6400)),
    named("512 ports guess what answers a ping, 20000 a second", stands, "sockets", "guess", 20000, **PORTS),
    a_newcomer,
    a_crowd_answers,
    named("registrations from forged addresses, 6400 a second", stands, "forged", "register", 6400, **NOBODYS),
    named("packets for all from forged addresses, 6400 a second", stands, "forged", "speak", 6400, **NOBODYS),
    named("registrations from addresses of the same Ethernet that nobody has, 20000 a second", stands, "forged", "register", 20000, **ABSENT),
    false_sources,
    named("4 players switch their PCs off", gone, 4),
    named("8 players switch their PCs off", gone, 8),
    named("8 players have just switched their PCs off", just_gone, 8),
    named("48 players are gone whose cable lost its carrier, and the gateway has the room of any program", without_carrier, 48),
    named("SAP's queries in a victim's name, with full tables", asked_for_others, "sap"),
    named("RIP's requests in a victim's name, with full tables", asked_for_others, "rip"),
    forged_clients,
]


def inside():
    """In the network of its own."""
    began = time.monotonic()
    build_flood()
    counts = tried(*TESTS)
    used = [resource.getrusage(of) for of in (resource.RUSAGE_SELF, resource.RUSAGE_CHILDREN)]
    figures(f"attacks: {time.monotonic() - began:.0f} s, {sum(it.ru_utime + it.ru_stime for it in used):.0f} processor seconds")
    return counts


def main():
    return tried_on_own_system(__file__, "attacks")


if __name__ == "__main__":
    begin(main, inside)

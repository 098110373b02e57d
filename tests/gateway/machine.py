"""What a machine with much else to do loses of a test's datagrams itself, by the system's own counters: so that it isn't taken for a fault of
the gateway's, and no fault for it."""
import os
import re
import time

MOST_WAITED = 0.5  # of the time, for which who has the processor isn't the gateway though it has something to do: then it is late for everybody


def text_of(process, name):
    """A file that the system has of a process, or of its network; empty where there is none."""
    try:
        with open(f"/proc/{process}/{name}", encoding="ascii") as it:
            return it.read()
    except OSError:
        return ""


def full_sockets(process):
    """How many datagrams found no room at a socket, of all in a process' network."""
    names, numbers = re.findall(r"(?m)^Udp: (.*)$", text_of(process, "net/snmp"))
    return int(dict(zip(names.split(), numbers.split()))["RcvbufErrors"])


def dropped_by_card(process, name):
    """How many packets a card of its network dropped, coming and going."""
    rows = dict(line.split(":", 1) for line in text_of(process, "net/dev").splitlines() if ":" in line)
    row = {it.strip(): words.split() for it, words in rows.items()}[name]
    return int(row[3]) + int(row[11])


def dropped_by_processors():
    """How many packets the system's processors dropped, for all networks of the machine together."""
    return sum(int(line.split()[1], 16) for line in text_of("self", "net/softnet_stat").splitlines())


def waited(process):
    """Seconds for which a process waited for a processor."""
    words = text_of(process, "schedstat").split()
    return int(words[1]) / 1e9 if len(words) == 3 else 0.0


def dropped_at(sockets):
    """How many datagrams found no room at these sockets of this process'."""
    own = {str(os.fstat(it.fileno()).st_ino) for it in sockets}
    rows = [line.split() for line in text_of("self", "net/udp").splitlines()[1:]]
    return sum(int(row[12]) for row in rows if row[9] in own)

WAITED, PASSED = "seconds that the gateway waited for a processor", "seconds in all"


class Machine:
    """The counters, from one look to the next."""

    def __init__(self, gateway, sockets):
        self.gateway, self.sockets = gateway, sockets
        self.before = self.counters()
        self.found, self.all = dict.fromkeys(self.before, 0), dict.fromkeys(self.before, 0)

    def counters(self):
        return {
            "at the players' own sockets": dropped_at(self.sockets),
            "by the players' card": dropped_by_card("self", "t0"),
            "by the gateway's card to them": dropped_by_card(self.gateway, "g0"),
            "at sockets of the gateway's network": full_sockets(self.gateway),
            "by processors, for all of the machine": dropped_by_processors(),
            WAITED: waited(self.gateway),
            PASSED: time.monotonic(),
        }

    def look(self):
        """Sees what was lost since one looked last."""
        now = self.counters()
        self.found = {name: now[name] - self.before[name] for name in now}
        self.all = {name: self.all[name] + self.found[name] for name in now}
        self.before = now

    def own(self):
        """How many the players' own sockets had no room for, which no gateway can help."""
        return self.found["at the players' own sockets"]

    def is_late(self):
        """Whether the gateway had to wait for a processor so long that it had to lose something."""
        return self.found[WAITED] > MOST_WAITED * self.found[PASSED]

    def words(self, found=None):
        """What was lost then, or what is given, in words."""
        words = [f"{name}: {number:.1f}" if isinstance(number, float) else f"{name}: {number}" for name, number in (found or self.found).items()
                 if number]
        return "lost by the machine: " + (", ".join(words) or "nothing")

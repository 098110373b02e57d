"""An internet while `ipxr internet` plays it, line by line."""
import os
import re
import subprocess

from .ways import Ways

TOP = os.path.dirname(os.path.dirname(os.path.dirname(os.path.realpath(__file__))))
PROGRAM = os.environ.get("IPXR", f"{TOP}/crates/ipxr/out/ipxr")
# More than waits in any internet of a study.
MOST = 1_000_000
PIECE = 1 << 16
# A line by which an answer ends: what waits.
WAITS = re.compile(rb"^(?:quiet|left (\d+))\n", re.M)
AGES = re.compile(rb" \d+$", re.M)


class Broken(Exception):
    """What a law says, or is expected, isn't so."""


class Played:
    """An internet under way: its script so far, the program that plays it, and which ports are up."""

    def __init__(self, internet):
        self.internet, self.script, self.up, self.running = internet, [], set(), set()
        self.run = subprocess.Popen([PROGRAM, "internet"], stdin=subprocess.PIPE, stdout=subprocess.PIPE)
        self.tell(*internet.lines())

    def end(self):
        """Lets the program come to its end."""
        self.run.communicate()
        if self.run.returncode:
            raise Broken(f"the program ends with status {self.run.returncode}")

    def give_up(self):
        """Ends the program, if it hasn't ended."""
        self.run.kill()
        self.run.communicate()

    def tell(self, *lines):
        self.script += lines
        self.run.stdin.write("".join(it + "\n" for it in lines).encode())

    def ask(self, lines, parts):
        """What is answered to lines that end so many parts with what waits: each part, and how much waits then."""
        self.tell(*lines)
        self.run.stdin.flush()
        text, ended, seen = b"", 0, 0
        while ended < parts:
            more = os.read(self.run.stdout.fileno(), PIECE)
            if not more:
                raise Broken("the program ends early")
            text += more
            whole = text.rfind(b"\n") + 1
            ended, seen = ended + len(WAITS.findall(text, seen, whole)), whole
        ends = [*WAITS.finditer(text)]
        begins = [0, *(it.end() for it in ends)]
        return [(text[begin : end.start()], int(end[1] or 0)) for begin, end in zip(begins, ends)]

    def settle(self, most=MOST):
        """Hands out what waits, at most so many deliveries; answers how many are left."""
        return self.ask([f"settle {most}"], 1)[0][1]

    def quiet(self):
        if self.settle():
            raise Broken("a million deliveries aren't enough")

    # ---- what happens

    def start(self, router):
        self.tell(f"start {router}")
        if router not in self.running:
            self.running.add(router)
            self.up |= {it for it in self.internet.places if it.router == router}

    def stop(self, router):
        self.tell(f"stop {router}")
        self.running.discard(router)
        self.up -= {it for it in self.internet.places if it.router == router}

    def port_down(self, place):
        self.tell(f"down {place.router} {place.port}")
        self.up.discard(place)

    def port_up(self, place):
        self.tell(f"up {place.router} {place.port}")
        if place.router in self.running:
            self.up.add(place)

    def hear(self, place, packet):
        """A packet comes from outside."""
        self.tell(f"in {place.router} {place.port} {packet}")

    def pass_seconds(self, count, asked="routes", meanwhile=lambda: ()):
        """The tables of all routers, without ages, after each of so many seconds; what comes meanwhile comes before its second."""
        routers, lines = range(len(self.internet.routers)), []
        for _ in range(count):
            lines += [*meanwhile(), "second 1", f"settle {MOST}"]
            lines += [line for it in routers for line in (f"{asked} {it}", "settle 0")]
        answers = self.ask(lines, count * (len(routers) + 1))
        if any(waits for _, waits in answers):
            raise Broken("a million deliveries aren't enough")
        texts = [AGES.sub(b"", text) for text, _ in answers]
        return [texts[at + 1 : at + 1 + len(routers)] for at in range(0, len(texts), len(routers) + 1)]

    def tables(self, asked="routes"):
        """The tables of all routers as they are, without ages."""
        routers = range(len(self.internet.routers))
        answers = self.ask([line for it in routers for line in (f"{asked} {it}", "settle 0")], len(routers))
        return [AGES.sub(b"", text) for text, _ in answers]

    def ways(self):
        return Ways(self.internet, frozenset(self.up))

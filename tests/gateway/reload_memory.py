"""Memory that is refused while the configuration is read anew, one request after the other."""
import functools
import itertools
import json
import os
import tempfile

from changed import Changed
from frames import Station, Udp
from lab import GAME, LIMIT, Client, Clock, address, free_ports, reaches, rip_response, until
from links import STATION
from status import answer_of
from systems import SYSTEM
from troubles import advertise, is_held, let_pass
from trying import begin, tried

WIDE = 10000000  # kilobits of a line, by which pings wait for a moment all the same
LEARNED = 500  # routes, of which to say that they are gone takes more memory than to hear of each
PINGED = 5  # seconds after which clients are pinged that have answered


class Order:
    """Which of a reload's requests for memory is refused: the first, the second, .., or with 0 none. Then how many there were."""

    def __init__(self):
        self.folder = tempfile.TemporaryDirectory()
        self.name = os.path.join(self.folder.name, "order")
        self.write(0)

    def write(self, number):
        with open(self.name, "w", encoding="ascii") as it:
            it.write(str(number))

    def read(self):
        with open(self.name, encoding="ascii") as it:
            return int(it.read())


class Scene:
    """A gateway with something of all kinds: clients, one of whom is waited for by a narrow line, PCs, routes, and who is shown events."""

    def __init__(self):
        self.clock, self.order = Clock(), Order()
        self.place, other, *self.free = free_ports(6)
        self.wires = [Udp(), Udp()]
        udp = [f"link qemu-udp {port} {wire.port} {kind}\nrate none\n" for port, wire, kind in zip(self.free, self.wires, ("raw", "llc"))]
        few, line = "clients 5\nrate none\nstrangers none\n", f"line {WIDE}\n"
        tunnel = f"network 10 1 1424 dosbox {self.place}\n"
        several = f"network 20 1 1424\nlink dosbox {other}\n{few}{udp[0]}"
        ends = f"network 30 1 1490 qemu-tcp listen {self.free[2]} raw\nrate none\n"
        self.texts = (
            tunnel + few + line + several + udp[1] + ends,
            # (the router stays: a line goes, with other clients, and links are others)
            tunnel + few + "allow 127.0.0.1\n" + several.replace("strangers none", "strangers 100") + udp[1].replace("llc", "snap")
            + ends.replace(f"listen {self.free[2]}", f"listen {self.free[3]}"),
            # (networks and links come and go)
            tunnel + few + several + "link qemu-tcp listen 127.0.0.1:0 raw\n" + f"network 40 1 1424 dosbox 127.0.0.1:0\n{few}"
            + "network 50 2 1424\nlink dosbox 127.0.0.1:0\nlink qemu-tcp listen 127.0.0.1:0 llc\n",
        )
        environment = {**self.clock.environment(), "TROUBLE_RELOADS": self.order.name}
        self.gate = Changed(self.texts[0], program=SYSTEM.troubled, environment=environment)
        self.follows = self.gate.connects(b"show events json\n")
        self.wires[0].to = self.free[0]
        node = self.gate.nodes[0x20]
        self.anna, self.ben = Client(self.place), Client(self.place)
        self.carl = Client(other, gateway=node)
        self.pc = Station(self.wires[0], "raw", 0x20, STATION, node)

    def let_pass(self, seconds):
        """Seconds pass, in which the routes are advertised."""
        self.anna.send(rip_response(0x10, self.anna.node, [(0x77, 2, 3), (0x78, 2, 3)]))
        let_pass(self.gate, self.clock, seconds, self.anna, self.ben, self.carl)

    def plays(self):
        """Whether those who are on links that stay whatever is read hear each other."""
        ring = (self.anna, self.ben, self.carl, self.pc)
        return all(reaches(one, other) for one, other in zip(ring, (*ring[1:], ring[0])))

    def knows_who_is_absent(self):
        """Whether the router knows that nobody is connected on network 30, so that there is no way to it."""
        before = self.gate.counted(0x10, "drop NoRoute")
        self.anna.say(address(0x30, STATION, GAME), b"Is anybody there?")
        return self.gate.counted(0x10, "drop NoRoute") == before + 1

    def seen(self):
        """What is the same as long as nothing changed."""
        shown = json.loads(self.asked("show json"))
        clients = [(it["network"], it["client"], it["trusted"]) for it in shown["clients"]]
        return shown["links"], clients, [{**it, "age": 0} for it in shown["routes"]]

    def states(self):
        return [(it["network"], it["cost"], it["node"], it["state"]) for it in self.seen()[0]]

    def asked(self, line):
        """What it answers, without the bytes around it that say how it is meant."""
        with self.gate.connects(f"{line}\n".encode()) as it:
            return answer_of(it).decode()[1:-2]

    def reload(self, text, refused):
        """Another text is read, and memory refused when it is wanted for the nth time. Returns whether all that was wanted was there, and
        what is wrong, or nothing."""
        self.order.write(refused)
        self.gate.write(text)
        said = self.asked("reload")
        return self.order.read() < refused or refused == 0, "" if " was read again: " in said else said

    def changes(self, now, then):
        """From one text to another, with memory that is refused for the first time that it is wanted, the second, .. Where it is done all
        the same, the router hears a second later of links that went down, or came up."""
        late = []
        for which in itertools.count(1):
            self.let_pass(PINGED)
            before = self.seen()
            is_whole, complaint = self.reload(then, which)
            if complaint:
                assert "emory" in complaint and not is_whole, complaint
                assert self.seen() == before, f"memory was refused for the {which}. time"
            assert self.plays()
            if is_whole:
                assert all(it == self.states() for it in late), (late, self.states())
                return which
            self.let_pass(1)
            assert self.knows_who_is_absent(), f"memory was refused for the {which}. time"
            if not complaint:
                late.append(self.states())
            is_whole, complaint = self.reload(now, 0)
            assert is_whole and not complaint
            assert self.plays() and self.seen()[0][0] == before[0][0]

    def ends(self):
        """It ends well: it complained of memory alone."""
        self.gate.run.terminate()
        _, complaint = self.gate.run.communicate(timeout=LIMIT)
        told = {line for line in complaint.decode().splitlines() if "emory" not in line}
        assert self.gate.run.returncode == 0 and not told, complaint.decode()[-4000:]
        self.follows.close()


def memory_for_a_reload():
    """A reload for which memory is refused changes nothing, whichever of its requests that is, and who plays plays on; the next is done."""
    scene = Scene()
    with scene.gate:
        for now, then in zip(scene.texts, (*scene.texts[1:], scene.texts[0])):
            is_whole, complaint = scene.reload(now, 0)
            assert is_whole and not complaint
            assert scene.changes(now, then) > 10
        scene.ends()


def tries_to_change(gate, order, texts, prepare, stays):
    """From one text to another, with memory that is refused for the first time that it is wanted, the second, .. Whatever is refused it
    stays as it is. Returns how often memory is wanted where all is there."""
    for which in itertools.count(1):
        prepare()
        order.write(which)
        gate.write(texts[1])
        with gate.connects(b"reload\n") as it:
            said = answer_of(it).decode()
        wanted = order.read()
        assert " was read again: " in said or "emory" in said and stays(), said
        order.write(0)
        gate.reload(texts[0])
        if wanted < which:
            return wanted


def memory_to_take_leave():
    """The same where the router is to take leave: where it has no memory to say of all routes that they are gone, it stays, and has them."""
    clock, order = Clock(), Order()
    text = "".join(f"network {number} 1 1424 2048 1024 dosbox 127.0.0.1:0\nrate none\n" for number in (10, 20))
    texts = text, text + "network 30 1 1424 dosbox 127.0.0.1:0\n"
    with Changed(text, program=SYSTEM.troubled, environment={**clock.environment(), "TROUBLE_RELOADS": order.name}) as gate:
        a, b = Client(gate.ports[0x10]), Client(gate.ports[0x20])

        def learns(routes):
            until(lambda: advertise(a, routes, 0) or is_held(gate, routes, 0), f"{routes} routes")

        def stays(routes):
            return is_held(gate, routes, 0) and reaches(a, b) and reaches(b, a)

        how_many = 0, LEARNED
        wanted = [tries_to_change(gate, order, texts, functools.partial(learns, it), functools.partial(stays, it)) for it in how_many]
        assert wanted[1] > wanted[0] > 0, f"memory for so many routes isn't wanted: {wanted}"
        gate.run.terminate()
        _, complaint = gate.run.communicate(timeout=LIMIT)
        assert gate.run.returncode == 0 and all("emory" in it for it in complaint.decode().splitlines()), complaint.decode()[-4000:]


def main():
    return tried(memory_for_a_reload, memory_to_take_leave)


if __name__ == "__main__":
    begin(main)

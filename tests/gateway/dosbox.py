"""Real DOSBox' without a screen, most with a small DOS program of ours: two on two networks, and some that come and go."""
import os
import re
import shutil
import subprocess
import tempfile
import time

from frames import Station, Udp
from lab import AGAIN, Client, Gateway, address, free_ports, packet, reaches, tunnels, until, until_wine_lets_go
from players import NETWORK, Player
from status import Watched
from systems import TOP
from trying import Counts, begin, has_linux, left_out, tried

DOS = os.path.join(TOP, "tests", "gateway", "dos")
CARD = bytes.fromhex("020000000BB2")
MOST = 300  # seconds until a DOSBox is taken for lost
BETWEEN_LOOKS = 0.2  # seconds, where some are awaited for half a minute
CONFIGURATION = """[sdl]
output=surface
[mixer]
nosound=true
[cpu]
core=normal
cycles=fixed {cycles}
[ipx]
ipx=true
[autoexec]
mount c {folder}
c:
ipxnet connect 127.0.0.1 {port} > connect.txt
"""
PROGRAM = """{name}.com > {name}.txt
exit
"""


class DosBox:
    """One that connects to the gateway, runs a program, and ends; what the program printed is in a file. Without a program it waits at its
    prompt, and says nothing."""

    def __init__(self, folder, name, port, has_program=True, cycles=20000):
        self.folder = os.path.join(folder, name)
        self.name = name
        os.mkdir(self.folder)
        text = CONFIGURATION
        if has_program:
            subprocess.run(["nasm", "-f", "bin", "-o", f"{self.folder}/{name}.com", f"{name}.asm"], cwd=DOS, check=True)
            text += PROGRAM
        configuration = os.path.join(folder, f"{name}.conf")
        with open(configuration, "w", encoding="ascii") as it:
            it.write(text.format(folder=self.folder, port=port, name=name, cycles=cycles))
        environment = {**os.environ, "SDL_VIDEODRIVER": "dummy", "SDL_AUDIODRIVER": "dummy", "HOME": folder}
        how = {"stdin": subprocess.DEVNULL, "stdout": subprocess.DEVNULL, "stderr": subprocess.DEVNULL}
        self.run = subprocess.Popen(["dosbox", "-conf", configuration], env=environment, **how)

    def text(self, name):
        """What stands in a file that DOSBox wrote, or nothing."""
        for file in os.listdir(self.folder):
            if file.lower() == f"{name}.txt":
                with open(os.path.join(self.folder, file), encoding="ascii", errors="replace") as it:
                    return it.read()
        return ""

    def connects(self):
        """What IPXNET said to who connected, once it has said it."""
        line = r"IPX Tunneling Client .*\."
        return until(lambda: time.sleep(BETWEEN_LOOKS) or re.search(line, self.text("connect")), "IPXNET says whether it is connected")[0]

    def printed(self):
        """What the program printed, once DOSBox has ended."""
        try:
            self.run.wait(timeout=MOST)
        finally:
            self.kill()
        printed = self.text(self.name)
        assert printed, f"{self.name} printed nothing"
        return printed

    def kill(self):
        if self.run.poll() is None:
            self.run.kill()
            self.run.wait()


def two_dosboxes():
    """Two real DOSBox' on two networks find each other by RIP and SAP, and exchange packets of 30 to 1423 bytes and of type 20."""
    with Gateway(tunnels(2)) as gate, tempfile.TemporaryDirectory() as folder:
        reply = DosBox(folder, "reply", gate.ports[0x20])
        ask = DosBox(folder, "ask", gate.ports[0x10])
        try:
            asked, replied = ask.printed(), reply.printed()
        finally:
            ask.kill()
            reply.kill()
        own = re.search(r"ASK at (00000010\w{12}4004)\n", asked.replace("\r", ""))
        server = re.search(r"REPLY at (00000020\w{12}4003)\n", replied.replace("\r", ""))
        assert own and server, asked + replied
        node = server[1][8:20]
        lines = [f"ASK at {own[1]}", "route 00000020 0001 0002", f"service REPLY {server[1]} 0002", f"by {node}"]
        lines += [f"echo {30 + size:04X} 01" for size in (0, 1, 100, 546, 1000, 1393)]
        lines += ["crossed 00000010", "ASK ends"]
        assert asked.splitlines() == lines, asked
        assert replied.splitlines()[-1] == "REPLY ends", replied
        report = gate.report()
        assert "0004 REPLY at 00000020." in report and gate.counted(0x20, "clients", report) == 1


def no_room():
    """A DOSBox that has room says that it is connected. One that has none, and one that isn't allowed, say that they failed to connect."""
    with tempfile.TemporaryDirectory() as folder:
        for name, extra, said in (
            ("room", "", "connected"),
            ("full", "clients 1\n", "failed to connect"),
            ("other", "allow 127.0.0.2\n", "failed to connect"),
        ):
            with Gateway(tunnels(1, extra=extra)) as gate:
                first = Client(gate.ports[0x10], host="127.0.0.2")
                box = DosBox(folder, name, gate.ports[0x10], has_program=False)
                try:
                    assert box.connects() == f"IPX Tunneling Client {said} to server at 127.0.0.1.", box.connects()
                    assert reaches(first, first), "who is there stays"
                finally:
                    box.kill()


def told(gate, what):
    """The nodes of the clients that come or leave, by the lines that the gateway has written."""
    gate.report()
    found = (re.search(rf"client (\w{{12}}) {what} {NETWORK:08X}", it) for it in gate.lines)
    return [bytes.fromhex(it[1]) for it in found if it]


def echoes(player, node):
    """Waits until REPLY sends back what a player says to it."""
    def is_back():
        player.send(packet(address(0, node, 0x4003), player.at(), b"echo" + node))
        player.receive()
        return b"echo" + node in player.others

    until(is_back, "REPLY sends back what it gets")


class Guests:
    """DOSBox' on one network, by name, and their nodes: two run REPLY, and two wait at their prompt."""

    CYCLES = 3000  # (slow ones: there are four, for half a minute)
    PROGRAMS = {"stays": True, "is killed": True, "waits": False, "waits, and is killed": False}

    def __init__(self, folder, gate):
        self.boxes, self.nodes = {}, {}
        for number, (name, has_program) in enumerate(self.PROGRAMS.items()):
            own = os.path.join(folder, str(number))
            os.mkdir(own)
            self.boxes[name] = DosBox(own, "reply", gate.ports[NETWORK], has_program, self.CYCLES)
            try:
                until(lambda: len(told(gate, "comes to")) > len(self.nodes), f"the one comes that {name}")
            except AssertionError:
                self.kill_all()
                raise
            self.nodes[name] = told(gate, "comes to")[-1]

    def kill_all(self):
        for box in self.boxes.values():
            box.kill()


def some_leave(gate, guests, player):
    """Of four, two are killed, and these alone leave."""
    dead = {"is killed", "waits, and is killed"}
    for name in dead:
        guests.boxes[name].kill()

    def are_gone():
        time.sleep(BETWEEN_LOOKS)
        player.receive()
        return {guests.nodes[name] for name in dead} <= set(told(gate, "leaves"))

    until(are_gone, "who is killed leaves")
    for name in guests.nodes.keys() - dead:
        assert guests.nodes[name] not in told(gate, "leaves"), f"it leaves, though it {name}"


def played_again():
    """DOSBox', of whom some leave, and whose gateway is killed and started again. Returns whether it could start."""
    with tempfile.TemporaryDirectory() as folder, Gateway(f"network {NETWORK:X} 1 1424 dosbox {free_ports(1)[0]}\n") as gate:
        player = Player("127.0.0.1", ("127.0.0.1", gate.ports[NETWORK]))
        guests = Guests(folder, gate)
        stays = guests.nodes["stays"]
        try:
            player.register()
            echoes(player, stays)
            echoes(player, guests.nodes["is killed"])
            some_leave(gate, guests, player)
            echoes(player, stays)
            if not has_linux("DOSBox' whose gateway is started anew", "Windows keeps no key of their nodes, so all have to connect again"):
                return True
            if not gate.starts_again():
                return False
            until(lambda: stays in told(gate, "comes to"), "it comes again")
            echoes(player, stays)
            return True
        finally:
            player.close()
            guests.kill_all()


def come_and_go():
    """DOSBox' come, play, and stay though one says nothing; killed, they leave; where the gateway is started anew the others come again."""
    until_wine_lets_go(played_again)


def on_one_network():
    """A real DOSBox is on one network with an emulator's card: its program sends back to the card what that says to it."""
    wire = Udp()
    text = f"network {NETWORK:X} 1 1424\nlink dosbox 127.0.0.1:0\nlink qemu-udp 0 {wire.port} raw\n"
    with Gateway(text) as gate, tempfile.TemporaryDirectory() as folder:
        while len(gate.lines) < 2:
            gate.line()
        own, wire.to = (int(re.search(r" 127\.0\.0\.1:(\d+)", line)[1]) for line in gate.lines[:2])
        box = DosBox(folder, "reply", own)
        try:
            (node,) = until(lambda: told(gate, "comes to"), "it is a client")
            card = Station(wire, "raw", NETWORK, CARD, gate.nodes[NETWORK])

            def is_back():
                card.say(address(NETWORK, node, 0x4003), b"to and fro", node=node)
                return card.hear(lambda it: it[30:] == b"to and fro", AGAIN) is not None

            until(is_back, "REPLY sends back what it gets")
        finally:
            box.kill()


def answers_pings():
    """A real DOSBox that waits at its prompt answers the gateway's pings, and stays a client."""
    with Watched(tunnels(1)) as gate, tempfile.TemporaryDirectory() as folder:
        box = DosBox(folder, "pinged", gate.ports[0x10], has_program=False)
        try:
            (client,) = until(lambda: time.sleep(BETWEEN_LOOKS) or gate.shown("clients"), "it is a client")
            out = gate.asked("ping", f"{client['network']}.{client['client']}")
            print(f"        {re.search('in (.*),', out)[1]}", flush=True)
            assert out.endswith("\n4 asked, 4 answered\n"), out
            assert len(gate.shown("clients")) == 1
        finally:
            box.kill()


def main():
    missing = [it for it in ("dosbox", "nasm") if not shutil.which(it)]
    if missing:
        left_out("real DOSBox", f"no {missing[0]}")
        return Counts()
    counts = tried(two_dosboxes, no_room, come_and_go, on_one_network)
    if has_linux("pings that a real DOSBox answers", "the status socket is Linux' own"):
        counts.run(answers_pings)
    return counts


if __name__ == "__main__":
    begin(main)

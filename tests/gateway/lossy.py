"""Players whose datagrams are lost, late, and overtake each other, in both directions: whoever is told that they are connected is heard.

A DOSBox takes whatever comes first for the answer to its registration, and waits five seconds for it. Dead is one that is connected so by
another datagram, or by an answer for somebody else: nothing that it says is heard. Beside real DOSBox', where they are there, players of our
own connect that do the same. The seed of what is lost is printed; when it is lost depends on the machine too.

Alone it connects real DOSBox' for some minutes, which make soak does: lossy.py MINUTES. The last line is 'N connects, M faults'.
"""
import contextlib
import heapq
import os
import random
import select
import shutil
import socket
import sys
import tempfile
import threading
import time

from dosbox import DosBox
from lab import EVERYONE, GAME, LIMIT, TUNNEL, Client, Gateway, address, packet, played_anew, registration, socket_of, tunnels, until
from players import NETWORK, Player
from trying import Counts, begin, figures, left_out, tried

LOST, TWICE, LATEST = 0.2, 0.05, 1.5  # the parts of datagrams that are lost, and repeated; the most seconds that one is under way
WAITS = 5  # seconds that a DOSBox waits for an answer
HUNDRED, AT_ONCE = 100, 20  # connects at one time, and real ones
OF_ONE = 50  # of one address: fewer than are remembered
COMES_IN = 9 + 3 * LATEST  # seconds after which who says nothing was pinged twice, and has answered
MOST_OUT = 1 / 3  # of those who say nothing, whose pings or answers were lost both times
CYCLES = 3000  # (slow ones, since there are many)
TEXT = tunnels(1, extra="strangers none\nclients 1000\nrate none\n")


class Door:
    """A port of the way, at which one player speaks with the gateway, from an address that the gateway hears."""

    def __init__(self, host, gateway):
        self.near, self.far = (socket.socket(socket.AF_INET, socket.SOCK_DGRAM) for _ in range(2))
        self.near.bind(("127.0.0.1", 0))
        self.far.bind((host, 0))
        self.far.connect(gateway)
        self.port, self.place = self.near.getsockname()[1], self.far.getsockname()
        self.player = None

    def hear(self, one):
        """What came at one of its sockets, and what passes it on."""
        if one is self.far:
            return one.recv(65536), lambda bytes_: self.player and self.near.sendto(bytes_, self.player)
        bytes_, self.player = one.recvfrom(65536)
        return bytes_, self.far.send

    def close(self):
        self.near.close()
        self.far.close()


class Way(threading.Thread):
    """The way between players and a gateway, which hears them from addresses of a network."""

    def __init__(self, port, lost=LOST, network=1):
        super().__init__(daemon=True)
        self.seed, self.network = random.randrange(1 << 30), network
        self.random, self.lost, self.gateway = random.Random(self.seed), lost, ("127.0.0.1", port)
        self.poll, self.doors, self.due, self.count, self.is_over = select.epoll(), {}, [], 0, False

    def door(self):
        door = Door(f"127.0.{self.network}.{len(self.doors) // 2 // OF_ONE}", self.gateway)
        for one in door.near, door.far:
            self.doors[one.fileno()] = door, one
            self.poll.register(one.fileno(), select.EPOLLIN)
        return door

    def take(self, number):
        """Something came: it goes on later, once or twice, or is lost."""
        door, one = self.doors[number]
        with contextlib.suppress(OSError):
            bytes_, on = door.hear(one)
            for _ in range((self.random.random() >= self.lost) + (self.random.random() < TWICE)):
                self.count += 1
                heapq.heappush(self.due, (time.monotonic() + self.random.uniform(0, LATEST), self.count, bytes_, on))

    def run(self):
        while not self.is_over:
            patience = max(0.0, min(0.1, self.due[0][0] - time.monotonic())) if self.due else 0.1
            for number, _ in self.poll.poll(patience):
                self.take(number)
            while self.due and self.due[0][0] <= time.monotonic():
                _, _, bytes_, on = heapq.heappop(self.due)
                with contextlib.suppress(OSError):
                    on(bytes_)

    def __enter__(self):
        self.start()
        return self

    def __exit__(self, *_):
        self.is_over = True
        self.join()
        for door, _ in self.doors.values():
            door.close()
        self.poll.close()


class Box(Player):
    """A player who connects as a DOSBox does, and says nothing."""

    says_first = False

    def __init__(self, door):
        super().__init__("127.0.0.1", ("127.0.0.1", door.port))
        self.is_connected, self.until = None, time.monotonic() + WAITS
        self.register()

    def hear(self, bytes_):
        if self.is_connected is None:
            self.is_connected = time.monotonic() < self.until
            self.node, self.network = bytes_[10:16], int.from_bytes(bytes_[6:10], "big")
        elif self.is_connected:
            super().hear(bytes_)

    def learn(self, answer):
        """(whatever is told later)"""

    def look(self):
        self.receive()
        if self.is_connected is None and time.monotonic() >= self.until:
            self.is_connected = False


class Crowd:
    """Players who connect at the same time, each by a door of its own."""

    def __init__(self, ways):
        self.began = time.monotonic()
        self.boxes = [Box(way.door()) for way in ways]

    def hear(self, seconds=0.02):
        ready, _, _ = select.select([it.udp for it in self.boxes], [], [], seconds)
        for it in self.boxes if not ready else [it for it in self.boxes if it.udp in ready]:
            it.look()

    def until(self, holds, seconds):
        end = time.monotonic() + seconds
        while not holds() and time.monotonic() < end:
            self.hear()
        return holds()

    def connect(self):
        """Waits until each knows whether it is connected. Returns those that are."""
        self.until(lambda: all(it.is_connected is not None for it in self.boxes), LIMIT)
        return [it for it in self.boxes if it.is_connected]

    def wait(self):
        """Waits until those are let in who say nothing."""
        self.until(lambda: False, self.began + COMES_IN - time.monotonic())

    def close(self):
        for it in self.boxes:
            it.close()


def clients_of(gate):
    """The nodes of the clients that came, by the lines that the gateway has written: none leaves while this lasts."""
    gate.report()
    return {bytes.fromhex(it.split(" client ", 1)[1].split(" ", 1)[0]) for it in gate.lines if " comes to " in it}


def say_until_heard(crowd, connected, witness):
    """Those who are connected say something to all, again and again, until a witness has heard each. Returns who is never heard."""
    def are_heard():
        witness.receive()
        return {it.node for it in connected} <= witness.heard.keys()

    due = 0.0

    def holds():
        nonlocal due
        if time.monotonic() >= due:
            due = time.monotonic() + 1
            for it in connected:
                if it.node not in witness.heard:
                    it.say(b"number", 1)
        return are_heard()

    crowd.until(holds, LIMIT)
    return [it for it in connected if it.node not in witness.heard]


def witness_of(gate):
    """A player without losses."""
    player = Player("127.0.0.1", ("127.0.0.1", gate.ports[NETWORK]))
    player.register()
    until(lambda: player.receive() or gate.counted(NETWORK, "clients") == 1, "a witness")
    return player


def let_in(gate, boxes):
    """How many of some are clients."""
    return len({it.node for it in boxes} & clients_of(gate))


@played_anew
def two_hundred_players():
    """A hundred connect at once as a DOSBox does, by a way that loses much: most are connected, most of these are let in by their pings, and each
    is heard once it speaks: none is dead. Of a hundred more, whose datagrams are late and overtake each other, each is let in, and hears."""
    with Gateway(TEXT) as gate, Way(gate.ports[NETWORK]) as lossy, Way(gate.ports[NETWORK], lost=0.0, network=2) as late:
        witness = witness_of(gate)
        crowd = Crowd([lossy] * HUNDRED + [late] * HUNDRED)
        connected = crowd.connect()
        lucky, listeners = [[it for it in connected if it in part] for part in (crowd.boxes[:HUNDRED], crowd.boxes[HUNDRED:])]
        crowd.wait()
        count, all_in = let_in(gate, lucky), let_in(gate, listeners)
        witness.say(b"number", 1)
        has_heard = crowd.until(lambda: all(witness.node in it.heard for it in listeners), LIMIT)
        dead = say_until_heard(crowd, lucky, witness)
        crowd.close()
        witness.close()
        figures(f"seeds {lossy.seed}, {late.seed}: {len(lucky)} of {HUNDRED} are connected, {count} let in before they speak, {len(dead)} are dead")
        assert not dead, [it.node.hex() for it in dead]
        assert len(lucky) >= HUNDRED / 2 and len(lucky) - count <= MOST_OUT * len(lucky)
        assert len(listeners) == all_in == HUNDRED and has_heard, f"{len(listeners)} are connected, and {all_in} let in"


class Echo(Client):
    """A client without losses, to which REPLY sends back what it says."""

    def is_back(self, node):
        """Says something to a node. Returns whether that has come back, by now."""
        self.say(address(0, node, 0x4003), b"echo" + node)
        return self.hear(lambda it: it[30:] == b"echo" + node and it[22:28] == node, 0.0) is not None


def node_at(gate, place):
    """The node of the client at a place, once it has come."""
    gate.report()
    told = (it for it in gate.lines if it.endswith(f", {place[0]}:{place[1]}") and " comes to " in it)
    return bytes.fromhex(next(told).split(" client ", 1)[1].split(" ", 1)[0])


def one_wave(folder, number, gate, way, echo):
    """Real DOSBox' that connect at one time, each with REPLY. Returns how many are connected, and who of them is dead."""
    doors = [way.door() for _ in range(AT_ONCE)]
    boxes, connected, dead = [], 0, []
    try:
        for k, door in enumerate(doors):
            own = os.path.join(folder, f"{number}-{k}")
            os.mkdir(own)
            boxes.append(DosBox(own, "reply", door.port, cycles=CYCLES))
        for box, door in zip(boxes, doors):
            if "failed" in box.connects():
                continue
            connected += 1
            try:
                node = until(lambda door=door: has_come(gate, door.place) and node_at(gate, door.place), "it comes")
                until(lambda node=node: time.sleep(0.1) or echo.is_back(node), "it is heard")
            except AssertionError:
                dead.append(door.place)
    finally:
        for box in boxes:
            box.kill()
    return connected, dead


def has_come(gate, place):
    gate.report()
    return any(it.endswith(f", {place[0]}:{place[1]}") and " comes to " in it for it in gate.lines)


def waves(is_over):
    """Waves of DOSBox', until it is over. Returns how many were started, and connected, and those who are dead."""
    started = connected = 0
    dead = []
    with Gateway(TEXT) as gate, Way(gate.ports[NETWORK]) as way, tempfile.TemporaryDirectory() as folder:
        echo = Echo(gate.ports[NETWORK])
        while not is_over(started):
            found, lost = one_wave(folder, started, gate, way, echo)
            started, connected, dead = started + AT_ONCE, connected + found, dead + lost
        figures(f"seed {way.seed}: {connected} of {started} DOSBox' are connected, {len(dead)} are dead")
    return started, connected, dead


@played_anew
def twenty_dosboxes():
    """Of twenty real DOSBox' that connect at once, each that says it is connected is heard, and hears."""
    started, connected, dead = waves(lambda count: count > 0)
    assert not dead, dead
    assert connected >= started / 2, f"{connected} are connected"


def has_dosbox():
    missing = [it for it in ("dosbox", "nasm") if not shutil.which(it)]
    if missing:
        left_out("real DOSBox' whose datagrams are lost", f"no {missing[0]}")
    return not missing


def main():
    counts = tried(two_hundred_players)
    return counts + tried(twenty_dosboxes) if has_dosbox() else counts


def soak(minutes):
    """Connects real DOSBox' for some minutes."""
    if not has_dosbox():
        print("0 connects, 0 faults")
        return 0
    end = time.monotonic() + 60 * minutes
    started, _, dead = waves(lambda _: time.monotonic() > end)
    for place in dead:
        print(f"FAULT   gateway: a DOSBox at {place} is connected, and not heard")
    print(f"{started} connects, {len(dead)} faults")
    return 1 if dead else 0


if __name__ == "__main__":
    if sys.argv[1:]:
        sys.exit(soak(float(sys.argv[1])))
    begin(main)

"""Links by WebSocket, at switches of VDE and on groups of multicast, and browsers that ask for the status, while all else comes that soak.py does.

Each has players on it, two by two, who may lose 2 % at most, and beside them on the same links whoever does harm: connections that are made up
and cut at any moment, pages, stations and members that flood, a switch that goes and comes, answers late, wrongly or never, and visitors of the
page of the status who say nothing, a byte a second, or read nothing. All of it is done by a process of its own: so what takes its time here
takes it from nobody in soak.py.
"""
import collections
import contextlib
import json
import os
import random
import select
import socket
import struct
import subprocess
import sys
import time

from altered import Frames
from groups import Member
from lab import EVERYONE, GAME, LIMIT, ROOM, address, packet, registration
from machine import dropped_at
from pages import BINARY, CLOSE, CONTINUED, PING, PONG, TEXT, WebSocket, head
from pages import frame as message
from pair import ON_WIRE, OnWire, Pair
from players import BETWEEN_LAST, FAST, LAST, LIMIT_OF_LAST, MOST_LOST, Player
from spaces import GATEWAY, host, own_addresses
from switches import passes
from trying import INSIDE
from vde import PLACE, Played, place_of

PAGES, SEATS, GROUP, SWITCH, JOINED = 0x70, 0x71, 0x72, 0x74, 0x60
NETWORKS = (PAGES, SEATS, GROUP, SWITCH)
WEB, TURNS_WEB, STATUS = 5021, 5022, 8080  # ports of the gateway's, by TCP
GROUP_CLIENTS, SWITCH_CLIENTS = GATEWAY[1] + 3, GATEWAY[1] + 4  # and by UDP
CALM, LOUD, TURNS = ("239.77.9.1", 5031), ("239.77.9.2", 5032), ("239.77.9.3", 5033)  # groups: of players, of who floods, and one that goes and comes
STAYS, GOES, TURNED = "stays", "goes", "turned"  # switches
FIRST = 300  # the number of the first address
OTHER = bytes.fromhex("52540000000C")  # the node of a second PC
BETWEEN_LOOKS = 0.002  # seconds until it is looked again what has come
BETWEEN_HARM = 0.004  # seconds between two turns of who does harm
LOUDEST = 10  # messages that a page or a station which floods has under way
EACH_LOUD = 2  # frames of a member, or of a PC at a switch, that floods, each time it is their turn
SELDOM = 40  # of how many frames that nobody takes one is for all, on a link that has players
MOST_OPEN = 60  # connections at an address
BETWEEN_COMINGS = 0.02  # seconds until one more comes
LONGEST_STAY = 20.0  # seconds of who says nothing, or a byte a second
BETWEEN_TURNS = 1.1  # seconds between two changes of a switch
KEPT = 512  # frames that wait at a switch: as many as systemd lets Linux keep
LATE = 1.0  # seconds until a browser that was answered asks again
ASKS = f"GET /status.json HTTP/1.1\r\nHost: {GATEWAY[0]}\r\n\r\n".encode()
LAST_CHUNK = b"\r\n0\r\n\r\n"
JUDGE, READY = "judge", "ready"
TURNED_SWITCHES = "switches that came or went, or a port of theirs"
NO_DATAGRAMS = (TURNED_SWITCHES,)


def text_of(folder):
    """Their part of a configuration."""
    return f"""network {PAGES:X} 1 1424 100 100 web {GATEWAY[0]}:{WEB}
network {SEATS:X} 1 1490 100 100 web {GATEWAY[0]}:{WEB} raw
network {GROUP:X} 1 1424 100 100
link dosbox 0.0.0.0:{GROUP_CLIENTS}
link qemu-mcast {CALM[0]}:{CALM[1]} via {GATEWAY[0]} raw
link qemu-mcast {LOUD[0]}:{LOUD[1]} via {GATEWAY[0]} auto
network {SWITCH:X} 1 1424 100 100
link dosbox 0.0.0.0:{SWITCH_CLIENTS}
link vde {folder}/{STAYS} raw
link vde {folder}/{GOES} auto
"""


def more_of(folder):
    """Links that a configuration has, or hasn't, below a network of several."""
    return f"""link web {GATEWAY[0]}:{TURNS_WEB} raw
link qemu-mcast {TURNS[0]}:{TURNS[1]} via {GATEWAY[0]} auto
link vde {folder}/{TURNED} raw
"""


def options():
    return ["--status-web", f"{GATEWAY[0]}:{STATUS}"]


# ---- Players ----


def whole_packet(bytes_):
    """The packet of a raw frame, or None: what others say is as wrong as they like."""
    length = int.from_bytes(bytes_[16:18], "big")
    return bytes_[14 : 14 + length] if bytes_[14:16] == b"\xff\xff" and 30 <= length <= len(bytes_) - 14 else None


class InFrames(OnWire):
    """A player in a PC whose raw frames go by whatever is given."""

    def __init__(self, by, own, network, node=ON_WIRE):
        super().__init__(own, 0, GATEWAY, network, "raw")
        self.udp.close()
        self.udp, self.node = by, node

    def unframed(self, bytes_):
        return whole_packet(bytes_)


class OnGroup(InFrames):
    """The same on a group, which hears itself, too."""

    def __init__(self, group, own, network):
        super().__init__(Member(group[1], group[0], host(0)).socket, own, network)
        self.group = group

    def put(self, bytes_):
        self.udp.sendto(bytes_, self.group)


class ByMessages:
    """What is common to who plays by a connection of WebSocket: that it ends is a fault."""

    def receive(self, most=sys.maxsize):
        self.udp.read(socket.MSG_DONTWAIT)
        messages, self.udp.messages = self.udp.messages, []
        for it in messages:
            if len(it) >= 30:
                self.hear(it)


class OnPage(ByMessages, Player):
    """A player in a page."""

    def __init__(self, own):
        super().__init__(own, GATEWAY, FAST)
        self.udp.close()
        self.udp = WebSocket(WEB, f"/ipx/{PAGES:X}", own, to=GATEWAY[0])


class OnSeat(ByMessages, InFrames):
    """A player in a page that says frames."""

    def __init__(self, own, node):
        super().__init__(WebSocket(WEB, f"/ethernet/{SEATS:X}", own, to=GATEWAY[0]), own, SEATS, node)


class Loud:
    """Whoever floods by a connection of WebSocket, of which nothing is played: as much as the gateway takes, and at most LOUDEST at once."""

    def __init__(self, player, next_message, counts):
        self.player, self.next, self.counts, self.rest = player, next_message, counts, b""
        player.udp.socket.setblocking(False)
        player.udp.send = self.say

    def say(self, bytes_):
        self.rest += message(BINARY, bytes_)

    def act(self):
        with contextlib.suppress(BlockingIOError):
            self.player.receive()
        self.player.others.clear()
        if not self.rest:
            for _ in range(LOUDEST):
                self.say(self.next())
            self.counts["messages of pages that flood"] += LOUDEST
        with contextlib.suppress(BlockingIOError):
            self.rest = self.rest[self.player.udp.socket.send(self.rest) :]


# ---- Connections that are cut ----


class Stranger:
    """A connection that says some bytes, in pieces or a byte a second, and is cut after a while, or at any moment."""

    def __init__(self, chance, to, own, said, slow=False, reads=True, stays=0.0):
        self.chance, self.said, self.slow, self.reads = chance, said, slow, reads
        self.end, self.due = time.monotonic() + stays, 0.0
        self.stays = stays
        self.socket = socket.socket()
        self.socket.setblocking(False)
        if chance.randrange(2):  # (who is cut so says nothing of it before what is under way is lost)
            self.socket.setsockopt(socket.SOL_SOCKET, socket.SO_LINGER, struct.pack("ii", 1, 0))
        if not reads:
            self.socket.setsockopt(socket.SOL_SOCKET, socket.SO_RCVBUF, 4096)
        self.socket.bind((own, 0))
        self.socket.connect_ex((GATEWAY[0], to))

    def says(self):
        now = time.monotonic()
        if not self.said or now < self.due:
            return
        self.due = now + 1.0 if self.slow else 0.0
        piece = self.said[:1] if self.slow else self.said[: self.chance.randrange(1, 2 * len(self.said) + 1)]
        self.said = self.said[self.socket.send(piece) :]

    def hears(self):
        """Returns whether the gateway has closed it."""
        return self.reads and self.socket.recv(1 << 16) == b""

    def lasts(self):
        """Does something. Returns whether it isn't over."""
        try:
            self.says()
            if self.hears():
                return False
        except BlockingIOError:
            pass
        except OSError:
            return False
        return time.monotonic() < self.end if self.stays else self.chance.randrange(60) > 0


class Strangers:
    """Those at an address, each of which is made up by a function."""

    def __init__(self, makes, what, counts):
        self.makes, self.what, self.counts, self.open, self.due = makes, what, counts, [], 0.0

    def act(self):
        now = time.monotonic()
        if len(self.open) < MOST_OPEN and now >= self.due:
            self.due = now + BETWEEN_COMINGS
            self.open.append(self.makes())
            self.counts[self.what] += 1
        for it in list(self.open):
            if not it.lasts():
                self.open.remove(it)
                it.socket.close()


# ---- Links ----


class Soaked:
    """What is common to links: two players, and who does harm beside them."""

    def __init__(self, name, pair):
        self.name, self.pair, self.harm = name, pair, []

    def does_harm(self):
        for it in self.harm:
            it.act()


def made_message(frames):
    """A message of WebSocket that may be no right one, nor hold a right packet."""
    chance = frames.random
    number = chance.choice((CONTINUED, TEXT, CLOSE, PING, PONG, 3)) if chance.randrange(6) == 0 else BINARY
    data = chance.choice((frames.next, frames.packet, registration, lambda: chance.randbytes(chance.randrange(1600))))()
    return message(number, data[:125] if number > 2 else data, chance.randrange(8) > 0, length=None)


def web_stranger(frames, owns, port, paths):
    """Somebody who connects to a link by WebSocket, asks rightly or wrongly, and says what is made up."""
    chance = frames.random
    request = head(chance.choice(paths), Host=GATEWAY[0])
    said = (request if chance.randrange(4) else frames.altered(request)) + b"".join(made_message(frames) for _ in range(chance.randrange(30)))
    slow = chance.randrange(20) == 0
    return Stranger(chance, port, chance.choice(owns), b"" if chance.randrange(20) == 0 else said, slow, chance.randrange(10) > 0,
                    chance.uniform(0, LONGEST_STAY) if slow else 0.0)


class Pages(Soaked):
    """Two players in pages, a page that floods their network, and whoever connects and is cut."""

    def __init__(self, owns, frames, counts):
        super().__init__("pages", Pair(OnPage(owns.pop()), OnPage(owns.pop())))
        flooder = OnPage(owns.pop())
        flooder.register()
        chance = frames.random
        paths = [f"/ipx/{PAGES:X}", f"/ipx/{PAGES:X}", f"/ethernet/{SEATS:X}", "/", "/ipx/10"]

        def says():
            return frames.altered(packet(address(0, EVERYONE, GAME), flooder.at(), bytes(chance.randrange(600)))) or b"?"

        self.harm = [Loud(flooder, says, counts),
                     Strangers(lambda: web_stranger(frames, owns, WEB, paths), "connections by WebSocket", counts),
                     Strangers(lambda: web_stranger(frames, owns, TURNS_WEB, [f"/ethernet/{JOINED:X}"]), "connections where a link goes", counts)]


class Seats(Soaked):
    """Two players in pages that say frames, and a third page, which floods them."""

    def __init__(self, owns, frames, counts):
        super().__init__("pages with frames", Pair(OnSeat(owns.pop(), ON_WIRE), OnSeat(owns.pop(), OTHER)))
        self.harm = [Loud(OnSeat(owns.pop(), bytes([2, 0, 0, 0, 0xF, 1])), frames.next, counts)]


def aside(frames):
    """A frame that nobody hands on: for the player on the link itself, of whatever kind, or none; seldom one for all."""
    made = frames.next()
    return made if frames.random.randrange(SELDOM) == 0 else ON_WIRE + made[6:]


class Group(Soaked):
    """A DOSBox and a PC on a group of multicast; others on that group, and on another one that the network has, too, and that they flood."""

    def __init__(self, owns, frames, counts):
        client = Player(owns.pop(), (GATEWAY[0], GROUP_CLIENTS), FAST)
        super().__init__("a group of multicast", Pair(client, OnGroup(CALM, owns.pop(), GROUP)))
        self.frames, self.counts = frames, counts
        self.says = socket.socket(socket.AF_INET, socket.SOCK_DGRAM)
        self.says.setsockopt(socket.IPPROTO_IP, socket.IP_MULTICAST_IF, socket.inet_aton(host(0)))
        self.says.setblocking(False)

    def say(self, bytes_, group):
        with contextlib.suppress(OSError):
            self.says.sendto(bytes_, group)
        self.counts["frames on groups"] += 1

    def does_harm(self):
        self.say(aside(self.frames), CALM)
        for _ in range(EACH_LOUD):
            self.say(self.frames.next(), LOUD)
        self.say(self.frames.next(), TURNS)


class Turning:
    """A switch that goes and comes. It gives a port, or takes the call and hangs up, says nothing, says it late and in pieces, or says what no
    switch does, with open connections beside it; and PCs at its ports flood."""

    def __init__(self, folder, frames, counts):
        self.folder, self.frames, self.counts, self.chance = folder, frames, counts, frames.random
        os.mkdir(folder)
        self.switch, self.ports, self.late, self.due = None, [], [], 0.0

    def turn(self):
        """It comes, goes, or ends a port."""
        self.counts[TURNED_SWITCHES] += 1
        if self.switch is None:
            self.switch = Played(self.folder)
            self.switch.listener.setblocking(False)
        elif self.chance.randrange(3) == 0:
            self.switch.close()
            self.switch = None
        if self.chance.randrange(2):
            self.drop()

    def drop(self):
        for it in (*self.ports, *(port for _, port, _ in self.late)):
            it.close()
        self.ports, self.late = [], []

    def answers(self, port):
        """Answers a call in one of the ways that there are."""
        whole, way = place_of(port.path), self.chance.randrange(10)
        if way == 0:
            port.close()
            return
        if way < 3:  # (who says nothing is late for good)
            self.late.append((time.monotonic() + (1.0 if way == 1 else LIMIT), port, whole))
            return
        self.ports.append(port)
        if way == 3:
            port.call.sendall(self.chance.randbytes(PLACE.size))
        elif way == 4:
            passes(port.call, whole, socket.socketpair())
        else:
            port.call.sendall(whole)

    def called(self):
        """Takes who calls, if anybody does; who has called may be gone."""
        with contextlib.suppress(OSError):
            self.answers(self.switch.called())

    def act(self):
        now = time.monotonic()
        if now >= self.due:
            self.due = now + BETWEEN_TURNS
            self.turn()
        if self.switch is not None:
            self.called()
        for it in [it for it in self.late if it[0] <= now]:
            self.late.remove(it)
            self.says_late(*it[1:])
        for it in self.ports:
            self.flood(it)

    def says_late(self, port, whole):
        self.ports.append(port)
        with contextlib.suppress(OSError):
            port.call.sendall(whole[:7])
            port.call.sendall(whole[7:])

    def flood(self, port):
        """(what the gateway says there is read, and dropped)"""
        for _ in range(EACH_LOUD):
            with contextlib.suppress(OSError):
                port.socket.send(self.frames.next(), socket.MSG_DONTWAIT)
            self.counts["frames at switches"] += 1
        with contextlib.suppress(OSError):
            while port.socket.recv(65536, socket.MSG_DONTWAIT):
                pass


class Switch(Soaked):
    """A DOSBox and a PC at a switch that stays; others at that switch, and at another one of the network, which goes and comes."""

    def __init__(self, folder, owns, frames, counts):
        os.mkdir(f"{folder}/{STAYS}")
        self.switch = Played(f"{folder}/{STAYS}")
        self.port = self.switch.gives()
        self.port.socket.setsockopt(socket.SOL_SOCKET, socket.SO_SNDTIMEO, struct.pack("ll", LIMIT, 0))
        self.port.socket.setsockopt(socket.SOL_SOCKET, socket.SO_RCVBUF, ROOM)
        client = Player(owns.pop(), (GATEWAY[0], SWITCH_CLIENTS), FAST)
        super().__init__("a switch", Pair(client, InFrames(self.port.socket, owns.pop(), SWITCH)))
        self.frames, self.counts = frames, counts
        self.turning = [Turning(f"{folder}/{it}", frames, counts) for it in (GOES, TURNED)]

    def does_harm(self):
        with contextlib.suppress(OSError):
            self.port.socket.send(aside(self.frames), socket.MSG_DONTWAIT)
        self.counts["frames at switches"] += 1
        for it in self.turning:
            it.act()


class Browser:
    """A browser that asks for all of the status, reads it, and asks again a second later; if it is put out for others, it asks again at once."""

    def __init__(self, own, counts):
        self.own, self.counts, self.socket, self.due, self.answered = own, counts, None, 0.0, 0

    def begin(self):
        self.socket, self.text, self.asked = socket.socket(), b"", False
        self.socket.setblocking(False)
        self.socket.bind((self.own, 0))
        self.socket.connect_ex((GATEWAY[0], STATUS))

    def end(self, later):
        self.socket.close()
        self.socket = None
        self.due = time.monotonic() + later

    def whole(self):
        """What it was answered, out of its pieces."""
        text, rest = b"", self.text.partition(b"\r\n\r\n")[2]
        while rest:
            size, _, rest = rest.partition(b"\r\n")
            text, rest = text + rest[: int(size, 16)], rest[int(size, 16) + 2 :]
        return json.loads(text)

    def act(self):
        if self.socket is None and time.monotonic() >= self.due:
            self.begin()
        if self.socket is None:
            return
        try:
            if not self.asked:
                self.asked = self.socket.send(ASKS) == len(ASKS)
            piece = self.socket.recv(1 << 16)
            self.text += piece
            if self.text.endswith(LAST_CHUNK):
                assert self.whole()["links"], "no links in the status"
                self.answered += 1
                self.counts["answers about the status"] += 1
                self.end(LATE)
            elif not piece:
                self.end(0.0)
        except BlockingIOError:
            pass
        except OSError:
            self.end(0.0)


class Visitors:
    """A browser that must be answered, while others come to the page of the status, and say nothing, a byte a second, or what is made up."""

    def __init__(self, owns, frames, counts):
        self.name, self.pair, self.browser = "the page of the status", None, Browser(owns.pop(), counts)
        self.strangers = Strangers(lambda: self.stranger(frames.random, frames, owns), "visitors of the status", counts)

    @staticmethod
    def stranger(chance, frames, owns):
        said = chance.choice((b"", ASKS, ASKS, ASKS[: chance.randrange(len(ASKS))], frames.altered(ASKS), chance.randbytes(9000),
                              ASKS.replace(b"/status.json", b"/")))
        slow = chance.randrange(4) == 0
        stays = chance.uniform(0, LONGEST_STAY) if slow or not said else 0.0
        return Stranger(chance, STATUS, chance.choice(owns), said, slow, chance.randrange(3) > 0, stays)

    def does_harm(self):
        self.browser.act()
        self.strangers.act()


# ---- All of them, in a process of their own ----


class Links:
    """All of them."""

    def __init__(self, folder, seed):
        with open("/proc/sys/net/unix/max_dgram_qlen", "w", encoding="ascii") as it:
            it.write(str(KEPT))
        self.counts, self.frames = collections.Counter(), Frames(seed, (PAGES, SEATS, GROUP, SWITCH, JOINED))
        owns = own_addresses(FIRST, 16)
        given = self.frames, self.counts
        self.all = [Switch(folder, owns, *given), Pages(owns, *given), Seats(owns, *given), Group(owns, *given), Visitors(owns, *given)]
        self.played = [it for it in self.all if it.pair is not None]
        self.udp = [player.udp for it in self.played for player in it.pair.all if isinstance(player.udp, socket.socket)
                    and player.udp.family == socket.AF_INET]
        self.dropped = dropped_at(self.udp)
        for it in self.played:
            it.pair.enter()
        self.browser, self.answered, self.due = self.all[-1].browser, 0, 0.0
        self.late, self.acted = 0.0, time.monotonic()  # the longest while from one look to the next

    def act(self):
        now = time.monotonic()
        self.late, self.acted = max(self.late, now - self.acted), now
        for it in self.played:
            it.pair.act()
        if time.monotonic() >= self.due:
            self.due = time.monotonic() + BETWEEN_HARM
            for it in self.all:
                it.does_harm()

    def settle(self):
        """Waits for everybody's last words. What does harm rests meanwhile."""
        end, due = time.monotonic() + LIMIT_OF_LAST, 0.0
        while not all(it.pair.has_ended() for it in self.played) and time.monotonic() < end:
            if time.monotonic() >= due:
                due = time.monotonic() + BETWEEN_LAST
                for it in self.played:
                    it.pair.say(LAST)
            for it in self.played:
                it.pair.hear()
            time.sleep(0.002)

    def judge(self):
        """What was lost, and what is wrong."""
        self.settle()
        dropped, before = dropped_at(self.udp), self.dropped
        told = {"faults": [], "lost": {}, "dropped": dropped - before, "late": self.late, "counts": dict(self.counts)}
        for it in self.played:
            missing, said = told["lost"][it.name] = it.pair.count()
            if missing > MOST_LOST * said:
                lacks = " and ".join(map(str, it.pair.lacks()))
                told["faults"].append((f"{it.name}: of {said} packets {missing} are lost, {lacks} of the two players", missing))
            elif not it.pair.has_ended():
                told["faults"].append((f"{it.name}: a last word never comes", 0))
            if any(player.twice for player in it.pair.all):
                told["faults"].append((f"{it.name}: a packet comes twice", 0))
            it.pair.begin()
        if self.browser.answered == self.answered:
            told["faults"].append(("a browser that asks for the status is never answered", 0))
        self.answered, self.dropped, self.late, self.acted = self.browser.answered, dropped, 0.0, time.monotonic()
        self.counts.clear()
        return told


class Beside:
    """That process, as soak.py has it."""

    def __init__(self, folder, seed):
        self.run = subprocess.Popen([sys.executable, os.path.realpath(__file__), INSIDE, folder, str(seed)], stdin=subprocess.PIPE,
                                    stdout=subprocess.PIPE, text=True)
        self.hears(READY)

    def hears(self, word=None):
        line = self.run.stdout.readline().strip()
        assert line and (word is None or line == word), f"who plays on links by WebSocket, groups and switches ends: {line}"
        return line

    def judge(self):
        """What has become of its players since they were judged last."""
        with contextlib.suppress(BrokenPipeError):
            self.run.stdin.write(f"{JUDGE}\n")
            self.run.stdin.flush()
        return json.loads(self.hears())

    def end(self):
        self.run.stdin.close()
        self.run.wait()


def main(folder, seed):
    """Until nobody asks any more."""
    links = Links(folder, seed)
    print(READY, flush=True)
    while True:
        links.act()
        ready, _, _ = select.select([sys.stdin], [], [], BETWEEN_LOOKS)
        if not ready:
            continue
        if not os.read(sys.stdin.fileno(), 64):
            return
        print(json.dumps(links.judge()), flush=True)


if __name__ == "__main__":
    random.seed(int(sys.argv[3]))
    main(sys.argv[2], int(sys.argv[3]))

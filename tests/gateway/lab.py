"""What the tests of the gateway speak with: gateways that are started and asked, packets, and clients of DOSBox' tunnel.

No test depends on how fast the machine is. A test waits for what is to happen, and LIMIT ends it only where it fails. That nothing
comes is shown by what comes next: what is said in order is heard in order. Where a test needs hours, it sets the clock itself.

The programs lie in build/, where tools/gateway puts them; systems.py knows which is tried, and how it runs.
"""
import functools
import itertools
import os
import queue
import random
import re
import select
import socket
import struct
import subprocess
import tempfile
import threading
import time
import weakref

from systems import SYSTEM, Windows
from trying import left_out

LIMIT = 60  # seconds until a test that fails gives up
PLAYS = 3  # of what a machine with much else to do may spoil
AGAIN = 0.5  # seconds until something is said again, where it may have been lost
TRIES = 5  # of what Wine may spoil
ROOM = 1 << 20  # bytes that a socket of a test keeps, as far as the system allows it, while the test looks elsewhere
EVERYONE = b"\xff" * 6
NOBODY = bytes(6)
GATEWAY = bytes([0, 0, 0, 0, 0, 1])  # its node on a network of the tunnel
COOKIE, KEYED = 0x06, 0x02  # the first byte of what its pings name as their source, and of a client's node
GAME = 0x4003
RIP, SAP = 0x453, 0x452
TUNNEL = 2  # the socket of registrations and pings


def until_wine_lets_go(plays):
    """Plays what kills a gateway and starts it again, until its address was free; that it never was is told."""
    if not any(plays() for _ in range(TRIES)):
        left_out("what a gateway hears that is killed and started again", f"Wine kept its address, {TRIES} times")


# ---- Packets ----


def address(network, node, port):
    return struct.pack(">I6sH", network, node, port)


def packet(to, source, data=b"", kind=4, control=0, length=None):
    """A packet with addresses of twelve bytes."""
    size = 30 + len(data) if length is None else length
    return struct.pack(">HHBB", 0xFFFF, size, control, kind) + to + source + data


def rip_response(source_network, node, routes):
    data = struct.pack(">H", 2) + b"".join(struct.pack(">IHH", *it) for it in routes)
    return packet(address(source_network, EVERYONE, RIP), address(source_network, node, RIP), data, kind=1)


def sap_response(source_network, node, services):
    """Each service: type, name, network, node, socket, hops."""
    data = struct.pack(">H", 2)
    for kind, name, network, at, port, hops in services:
        data += struct.pack(">H48sI6sHH", kind, name.encode(), network, at, port, hops)
    return packet(address(source_network, EVERYONE, SAP), address(source_network, node, SAP), data, kind=4)


def source_of(bytes_):
    return bytes_[18:30]


def socket_of(bytes_):
    return int.from_bytes(bytes_[16:18], "big")


def is_ping(bytes_):
    """Whether it is the gateway's question to one client whether he is there: for all, from a node that is nobody's."""
    return len(bytes_) == 30 and socket_of(bytes_) == TUNNEL and bytes_[10:16] == EVERYONE and bytes_[22] == COOKIE


def registration():
    return packet(address(0, NOBODY, TUNNEL), address(0, NOBODY, TUNNEL), kind=0)


def is_routers(bytes_):
    """Whether it is of routers among themselves."""
    return int.from_bytes(bytes_[28:30], "big") in (RIP, SAP)


# ---- The gateway ----


def text_of(bytes_):
    """What a program said: on Windows lines end by two bytes."""
    return bytes_.decode(errors="replace").replace("\r\n", "\n")


class Gateway:
    """A gateway that runs, with the ports that its networks took, and its nodes there."""

    def __init__(self, text, program=None, options=(), environment=None, before=()):
        self.folder = tempfile.TemporaryDirectory()
        os.chmod(self.folder.name, 0o755)  # (for a gateway that runs as another user)
        self.configuration = os.path.join(self.folder.name, "gateway.conf")
        self.state = os.path.join(self.folder.name, "state")  # what it keeps from one start to the next
        os.mkdir(self.state)
        with open(self.configuration, "w", encoding="utf-8") as it:
            it.write(text)
        self.networks = sum(line.startswith("network") for line in text.splitlines())
        self.start(program or SYSTEM.program, options, environment, before)

    def start(self, program, options=(), environment=None, before=()):
        """Starts it, behind the words of a program that starts others, and waits until it has told each network."""
        self.program = program
        self.lines, self.looked = [], 0
        self.run = SYSTEM.run(
            [*before, *SYSTEM.runner, program, *options, self.configuration],
            stdin=subprocess.DEVNULL,
            stdout=subprocess.PIPE,
            stderr=subprocess.PIPE,
            env={**os.environ, "STATE_DIRECTORY": self.state, **(environment or {})},
        )
        self.rest = b""
        self.ports, self.nodes = {}, {}
        while len(self.ports) < self.networks:
            self.line()

    def starts_again(self):
        """Kills it, and starts it at once. Returns whether its addresses were free: Wine alone may keep one for good, where the gateway was
        killed as a datagram came there."""
        self.run.kill()
        self.run.communicate()
        try:
            self.start(self.program)
        except AssertionError as fault:
            self.run.communicate()
            if SYSTEM is Windows and "Address already in use" in str(fault):
                return False
            raise
        return True

    def line(self):
        """The next line of its output."""
        end = time.monotonic() + LIMIT
        while b"\n" not in self.rest:
            ready, _, _ = select.select([self.run.stdout], [], [], max(0, end - time.monotonic()))
            piece = os.read(self.run.stdout.fileno(), 65536) if ready else b""
            if not piece:
                self.run.kill()
                raise AssertionError(f"the gateway says nothing more: {self.run.stderr.read().decode()}")
            self.rest += piece
        line, self.rest = self.rest.split(b"\n", 1)
        self.lines.append(line.decode().removesuffix("\r"))
        self.learn(self.lines[-1])
        return self.lines[-1]

    def learn(self, line):
        """What a line tells of a network's port and node."""
        place = r"\S+ (?:listen )?(?:(?:127[\d.]+|\[::1\]):(\d+))?(?:.*, node (\w{12}))?"
        found = re.search(rf"\bnetwork (\w{{8}}) (?:on|is up:|is down:|has another node:) {place}", line)
        if found:
            self.ports[int(found[1], 16)] = int(found[2] or 0)
        if found and found[3]:
            self.nodes[int(found[1], 16)] = bytes.fromhex(found[3])

    def told(self, words):
        """Waits for a line with some words, behind the one that was waited for before. Returns it."""
        while True:
            while self.looked < len(self.lines):
                self.looked += 1
                if words in self.lines[self.looked - 1]:
                    return self.lines[self.looked - 1]
            self.line()

    def lines_to(self, last):
        lines = []
        while not lines or lines[-1] != last:
            lines.append(self.line())
        return lines

    def report(self):
        """What it says when it is asked, as one text: of all that came before, and after all seconds that have passed."""
        self.run.order(SYSTEM.report)
        return "\n".join(self.lines_to("end of report"))

    def counted(self, network, what, report=None):
        """A number of a network in the report, 0 where it isn't there."""
        text = (report or self.report()).partition("report after ")[2]
        part = text.split(f"network {network:08X} ", 1)[1].split("\nnetwork ", 1)[0].split("\nroutes:", 1)[0]
        found = re.search(rf"(?:^|\W){re.escape(what)}:? (\d+)", part)
        return int(found[1]) if found else 0

    def until(self, words):
        """Waits until its report has some words. Returns the report."""
        return until(lambda: (lambda report: words in report and report)(self.report()), words)

    def until_open(self, *networks):
        """Waits until the ports of networks are known, where an address may have to be waited for."""
        until(lambda: self.report() and all(self.ports[it] for it in networks), "open links")

    def until_counted(self, network, what, number):
        """Waits until a network has counted so many."""
        until(lambda: self.counted(network, what) == number, f"{number} {what}")

    def key(self):
        """The key of its clients' nodes."""
        with open(os.path.join(self.state, "nodes.key"), "rb") as it:
            return it.read()

    def memory(self):
        """Kilobytes of its own that it has, files that it shares with others aside."""
        with open(f"/proc/{self.run.pid}/status", encoding="utf-8") as it:
            return int(re.search(r"RssAnon:\s+(\d+)", it.read())[1])

    def end(self, order=SYSTEM.end, status=0):
        """Ends it, and sees that it complained of nothing. Returns all that it said."""
        self.run.order(order)
        out, complaint = self.run.communicate(timeout=LIMIT)
        assert self.run.returncode == status, f"it ended with {self.run.returncode}: {complaint.decode()}"
        assert status != 0 or not complaint, complaint.decode()
        return "\n".join([*self.lines, text_of(self.rest + out)])

    def __enter__(self):
        return self

    def __exit__(self, kind, *_):
        if self.run.poll() is None:
            if kind is None:
                self.end()
            else:
                self.run.kill()
                self.run.communicate()
        self.folder.cleanup()


class Clock:
    """A clock that the test sets: for gateways that are built with calls in front of the system's own."""

    def __init__(self):
        self.folder = tempfile.TemporaryDirectory()
        self.name = os.path.join(self.folder.name, "clock")
        self.passed = 0
        self.let_pass(0)

    def environment(self):
        return {"TROUBLE_CLOCK": self.name}

    def let_pass(self, seconds):
        """Some seconds more have passed."""
        self.passed += seconds
        with open(f"{self.name}.new", "w", encoding="ascii") as it:
            it.write(str(1000 + self.passed))
        os.replace(f"{self.name}.new", self.name)


# ---- Clients of the tunnel ----


class Ears(threading.Thread):
    """Hears for all clients, whatever their test does meanwhile: as in DOSBox, pings are answered all the while."""

    def __init__(self):
        super().__init__(daemon=True)
        self.poll, self.clients = select.epoll(), weakref.WeakValueDictionary()
        self.start()

    def add(self, client):
        self.clients[client.udp.fileno()] = client
        self.poll.register(client.udp.fileno(), select.EPOLLIN)

    def remove(self, client):
        self.poll.unregister(client.udp.fileno())

    def run(self):
        while True:
            for number, _ in self.poll.poll():
                client = self.clients.get(number)
                if client is not None:
                    client.receive()


@functools.cache
def ears():
    return Ears()


class Client:
    """A DOSBox, as far as the gateway sees it: it registers once, takes its node from the answer, and answers pings. Before that its node is the
    six bytes of its place, as for programs that don't take theirs from an answer."""

    def __init__(self, port, host="127.0.0.1", registers=True, to="127.0.0.1", answers=True, own_port=0, gateway=GATEWAY):
        self.udp = socket.socket(socket.AF_INET, socket.SOCK_DGRAM)
        self.udp.setsockopt(socket.SOL_SOCKET, socket.SO_RCVBUF, ROOM)
        self.udp.bind((host, own_port))
        self.udp.connect((to, port))
        self.begin(registers, answers, gateway)

    def begin(self, registers, answers, gateway):
        """It is there, by its socket, and heard from now on."""
        own, own_port = self.udp.getsockname()
        self.place = own, own_port
        self.node = socket.inet_aton(own) + struct.pack(">H", own_port)
        self.network, self.answers, self.gateway = 0, answers, gateway
        self.pings = self.told = 0  # that came, and answers
        self.heard = queue.SimpleQueue()
        ears().add(self)
        if registers:
            self.register()

    def receive(self):
        """What has come."""
        try:
            self.take(self.udp.recv(65536, socket.MSG_DONTWAIT))
        except OSError:
            return  # (nobody is there who hears it)

    def take(self, bytes_):
        """What has come, for who hears it later; a ping of the gateway's is answered."""
        self.pings += is_ping(bytes_)
        self.told += self.is_answer(bytes_)
        if is_ping(bytes_) and self.answers:
            self.answer(bytes_)
        self.meets(bytes_)
        self.heard.put(bytes_)

    def meets(self, bytes_):
        """What comes is looked at as it comes, by clients that do more with it."""

    def answer(self, ping):
        self.send(packet(address(0, ping[22:28], TUNNEL), address(0, self.node, TUNNEL), kind=0))

    def is_answer(self, bytes_):
        """Whether it is the gateway's answer to a registration, or to a ping of this client's."""
        return len(bytes_) == 30 and socket_of(bytes_) == TUNNEL and bytes_[10:16] != EVERYONE and bytes_[22:28] == self.gateway

    def is_told(self, patience=LIMIT):
        """Registers, and knows its node by the answer. Returns whether that came."""
        self.send(registration())
        answer = self.hear(self.is_answer, patience)
        if answer is None:
            return False
        assert answer[10] == KEYED
        self.network, self.node = int.from_bytes(answer[6:10], "big"), answer[10:16]
        return True

    def ask(self):
        """The same of one that is answered."""
        assert self.is_told(), "nobody answers a registration"

    def register(self):
        """Comes in by its first word: who is a client hears what he says to himself. (where many register at once, he may be asked whether he hears
        instead; then that word is lost)"""
        self.ask()
        data = fresh()
        self.say(self.at(), data)
        heard = self.hear(lambda it: it[30:] == data or is_ping(it))
        assert heard is not None and (not is_ping(heard) or reaches_again(self, self)), "who says something by his node isn't a client"

    def where(self):
        """Its place, as the gateway tells it."""
        return "{}:{}".format(*self.place)

    def at(self, port=GAME):
        return address(self.network, self.node, port)

    def send(self, bytes_):
        self.udp.send(bytes_)

    def say(self, to, data, **how):
        self.send(packet(to, self.at(), data, **how))

    def hear(self, wanted=None, patience=LIMIT):
        """The next packet that is wanted, or None: of the others, where nothing is said."""
        end = time.monotonic() + patience
        wanted = wanted or (lambda it: not is_routers(it) and not is_ping(it) and not self.is_answer(it))
        while True:
            try:
                bytes_ = self.heard.get(timeout=max(0, end - time.monotonic()))
            except queue.Empty:
                return None
            if wanted(bytes_):
                return bytes_

    def close(self):
        ears().remove(self)
        self.udp.close()


FRESH = itertools.count()


def fresh():
    """Bytes that weren't said before."""
    return b"packet %d" % next(FRESH)


def says(one, other, data, patience=LIMIT, **how):
    """What one says once, as it comes to the other, or None."""
    one.say(other.at(), data, **how)
    return other.hear(lambda it: not is_routers(it) and socket_of(it) != TUNNEL and it[30:] == data, patience)


def reaches(one, other, data=None, **how):
    """Whether what one says comes to the other, and the packet as it came. Nothing may be lost."""
    return says(one, other, fresh() if data is None else data, **how)


def reaches_again(one, other):
    """The same where something may be lost: it is said again, as a program would."""
    data, end = fresh(), time.monotonic() + LIMIT
    while time.monotonic() < end:
        heard = says(one, other, data, AGAIN)
        if heard is not None:
            return heard
    return None


def comes_next(one, other):
    """Whether what one says now is the next that comes to the other: nothing else came before."""
    data = fresh()
    one.say(other.at(), data)
    heard = other.hear()
    return heard is not None and heard[30:] == data


def until(holds, what):
    """Waits until something holds. Returns what it returned."""
    end = time.monotonic() + LIMIT
    while True:
        found = holds()
        if found:
            return found
        assert time.monotonic() < end, f"never: {what}"
        time.sleep(0.01)


def played_anew(test):
    """The test, which is played anew where it fails, at most twice: a machine with much else to do loses packets itself, or comes late."""
    @functools.wraps(test)
    def plays(*words, **how):
        for left in reversed(range(PLAYS)):
            try:
                return test(*words, **how)
            except (AssertionError, ConnectionError, TimeoutError):
                if left == 0:
                    raise
    return plays


def is_free(port):
    with socket.socket(socket.AF_INET, socket.SOCK_DGRAM) as udp, socket.socket() as tcp:
        try:
            udp.bind(("127.0.0.1", port))
            tcp.bind(("127.0.0.1", port))
        except OSError:
            return False
    return True


def free_ports(count):
    """Ports that are free, and that the system gives to nobody who asks for any: so they are free still when they are named."""
    with open("/proc/sys/net/ipv4/ip_local_port_range", encoding="ascii") as it:
        first, last = (int(word) for word in it.read().split())
    ports = [it for it in range(10000, 65536) if not first <= it <= last] or list(range(10000, 65536))
    random.shuffle(ports)
    return list(itertools.islice(filter(is_free, ports), count))


ALL_THERE_IS = "65535 65535"  # shares of a network that may fill the tables


def tunnels(count, first=0x10, extra="", shares=""):
    """A configuration of some networks of the tunnel, with lines below each."""
    return "".join(f"network {first + 0x10 * k:X} 1 1424 {shares} dosbox 127.0.0.1:0\n{extra}" for k in range(count))

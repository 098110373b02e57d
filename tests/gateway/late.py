"""How late players are heard while others make the gateway work: by questions that cost much, and by frames that many pages receive."""
import contextlib
import multiprocessing
import select
import socket
import struct
import threading
import time

from edge import QUERY
from frames import Tcp, Udp, frame
from lab import EVERYONE, GAME, LIMIT, SAP, Client, Gateway, address, fresh, free_ports, packet, played_anew
from pages import Frames
from trying import begin, figures, tried

NETWORK, FIRST = 0x10, 0x100  # of the players, and of the first cable
CABLES, ASKED = 30, 80  # cables with frames, and how often somebody on each asks at once
RULES, SERVICES, OF_NETWORK = 64, 1024, 64
LONG = "N" * 40  # with which all names begin, so that a rule is known as another one's late
PC = bytes.fromhex("020000000AA1")
ROOM_NETWORK, PAGES = 0x20, 235
QUIET_NETWORK, ONE, OTHER = 0x30, bytes.fromhex("02000000A001"), bytes.fromhex("02000000B001")
RATE, AT_DATA = 700, 44  # frames a second, and where in one its data begin
AT_ONCE, EVERY, SECONDS = 20, 0.02, 4  # a PC's frames that it says together, every so many seconds, for so long
LATEST = 0.8  # seconds


def players_of(gate):
    """Two players on a network of their own."""
    return [Client(gate.ports[NETWORK]) for _ in range(2)]


def lateness(one, other, ends):
    """The longest that a word took from one player to the other, each said when the one before was heard, until something has ended."""
    longest = 0.0
    while not ends():
        data, began = fresh(), time.monotonic()
        one.say(other.at(), data)
        assert other.hear(lambda it: it[30:] == data) is not None, "a word is lost"
        longest = max(longest, time.monotonic() - began)
        time.sleep(EVERY)
    return longest


def services_of(network):
    """The services of a network that its lines name."""
    return "".join(f"service 4 {LONG}{network:X}{k} A1.000000000001.451 3 via 00001B0204AA\n" for k in range(OF_NETWORK))


def cables(wires):
    """Networks with a cable each, where rules are looked through for each service that is told."""
    rules = "".join(f"deny service 4 {LONG}NO{k} out\n" for k in range(RULES))
    text = f"network {NETWORK:X} 1 1424 dosbox 127.0.0.1:0\n"
    for k, wire in enumerate(wires):
        text += f"network {FIRST + k:X} 1 1490 qemu-udp 0 {wire.port} raw\n{rules}"
        text += services_of(FIRST + k) if k < SERVICES // OF_NETWORK else ""
    return text


def all_services_are_asked_for():
    """On 30 cables all services are asked for 80 times at once, with 64 rules each: players hear each other meanwhile"""
    wires = [Udp() for _ in range(CABLES)]
    with Gateway(cables(wires)) as gate:
        gate.until(f"services: {SERVICES}")
        one, other = players_of(gate)
        for k, wire in enumerate(wires):
            network = FIRST + k
            wire.to = gate.ports[network]
            said = packet(address(network, EVERYONE, SAP), address(network, PC, GAME), QUERY)
            for _ in range(ASKED):
                wire.send(frame("raw", EVERYONE, PC, said))
        end = time.monotonic() + SECONDS
        longest = lateness(one, other, lambda: time.monotonic() > end)
        figures(f"while {CABLES * ASKED} questions for all services were answered, a word took {longest:.2f} s at most")
        assert longest < LATEST, longest


@contextlib.contextmanager
def saying_much(wire, said):
    """A PC says a frame a thousand times a second."""
    ends = threading.Event()

    def say():
        while not ends.is_set():
            for _ in range(AT_ONCE):
                wire.send(said)
            time.sleep(EVERY)

    run = threading.Thread(target=say)
    run.start()
    try:
        yield
    finally:
        ends.set()
        run.join()


@contextlib.contextmanager
def heard_by_pages(port):
    """So many pages in a room, which read all that comes."""
    pages = [Frames(port, ROOM_NETWORK) for _ in range(PAGES)]
    ends = multiprocessing.Event()

    def read():
        while not ends.is_set():
            for it in pages:
                with contextlib.suppress(OSError):
                    it.web.socket.recv(1 << 16, socket.MSG_DONTWAIT)

    run = multiprocessing.get_context("fork").Process(target=read, daemon=True)
    run.start()
    try:
        yield
    finally:
        ends.set()
        run.join()


def a_pc_floods_a_room():
    """A PC says 1,000 frames a second on a network with a room of 235 pages: players elsewhere hear each other meanwhile"""
    port, line = free_ports(2)
    text = f"network {NETWORK:X} 1 1424 dosbox 127.0.0.1:0\nnetwork {ROOM_NETWORK:X} 1 1490\n" \
        f"link qemu-tcp listen 127.0.0.1:{line} raw\nlink web 127.0.0.1:{port} raw\nrate 4000 100\n"
    with Gateway(text) as gate, heard_by_pages(port):
        one, other = players_of(gate)
        wire = Tcp(socket.create_connection(("127.0.0.1", line)))
        said = frame("raw", EVERYONE, PC, packet(address(ROOM_NETWORK, EVERYONE, GAME), address(ROOM_NETWORK, PC, GAME), bytes(1000)))
        end = time.monotonic() + SECONDS
        with saying_much(wire, said):
            longest = lateness(one, other, lambda: time.monotonic() > end)
        figures(f"while a PC said 1,000 frames a second to {PAGES} pages, a word took {longest:.2f} s at most")
        assert longest < LATEST, longest


def heard_of(page):
    """The times that frames of a page have with them, as far as they came."""
    while select.select([page], [], [], 0)[0]:
        page.web.read()
    got, page.web.messages = page.web.messages, []
    return [struct.unpack(">d", it[AT_DATA : AT_DATA + 8])[0] for it in got if it[6:12] == ONE]


def page_lateness(one, other):
    """The longest that a frame took from one page to another, said hundreds of times a second; all come."""
    times, said = [], 0
    end = time.monotonic() + SECONDS
    while time.monotonic() < end or len(times) < said:
        assert time.monotonic() < end + LIMIT, f"{len(times)} frames of {said} came"
        if time.monotonic() < end:
            data = struct.pack(">d", time.monotonic()).ljust(100)
            one.send(frame("raw", OTHER, ONE, packet(address(QUIET_NETWORK, OTHER, GAME), address(QUIET_NETWORK, ONE, GAME), data)))
            said += 1
        times += [time.monotonic() - it for it in heard_of(other)]
        time.sleep(1 / RATE)
    return max(times)


def pages_hear_each_other():
    """The same flood: two pages of another room, one of which says 700 frames a second to the other, are heard at once"""
    port, quiet, line = free_ports(3)
    text = f"network {QUIET_NETWORK:X} 1 1490 web 127.0.0.1:{quiet} raw\nrate 100000 50000\nnetwork {ROOM_NETWORK:X} 1 1490\n" \
        f"link qemu-tcp listen 127.0.0.1:{line} raw\nlink web 127.0.0.1:{port} raw\nrate 4000 100\n"
    with Gateway(text), heard_by_pages(port):
        one, other = (Frames(quiet, QUIET_NETWORK) for _ in range(2))
        other.send(frame("raw", EVERYONE, OTHER, packet(address(0, EVERYONE, GAME), address(QUIET_NETWORK, OTHER, GAME), b"here")))
        one.receive()
        wire = Tcp(socket.create_connection(("127.0.0.1", line)))
        said = frame("raw", EVERYONE, PC, packet(address(ROOM_NETWORK, EVERYONE, GAME), address(ROOM_NETWORK, PC, GAME), bytes(1000)))
        with saying_much(wire, said):
            longest = page_lateness(one, other)
        figures(f"a frame took {longest:.2f} s at most")
        assert longest < LATEST, longest


TESTS = played_anew(all_services_are_asked_for), played_anew(a_pc_floods_a_room), played_anew(pages_hear_each_other)


def main():
    return tried(*TESTS)


if __name__ == "__main__":
    begin(main)

"""Cards of Windows, which the gateway hears by Npcap: here a DLL of the test's own stands in its place (wpcap.c), and the cards are those that
Wine finds in a network of the test's own. Windows itself and Npcap weren't tried.

Wine finds the cards of the network in which its server was started, so that is started again there, and once more behind it.
"""
import contextlib
import errno
import os
import queue
import re
import shutil
import socket
import subprocess
import tempfile
import threading
import time

from cards import about, own_address, pair
from frames import KINDS, Station, frame
from lab import LIMIT, Client, Gateway, comes_next, packet, reaches, reaches_again, text_of, tunnels, until
from links import STATION, both_ways
from listed import ROW, paired
from segments import NUMBER, Cable
from spaces import ip
from systems import BUILD, SYSTEM, Windows, fault_words
from trying import Counts, begin, figures, tried, tried_inside

DLL = os.path.join(BUILD, "windows", "stub", "wpcap.dll")
LOST = "the card has gone"  # why reading failed
TURNS = 20  # of packets there and back
SLOW, PAUSE = 1, 0.1  # seconds that opening a card takes; and from one packet to the next
MANY, LINKS, LISTED = 140, 20, 256  # pairs of cards; links; and cards that are listed at most
SOON = 20  # seconds in which some packets pass
OTHERS = [  # behind the two addresses: frames of IP, of a bridge, of IP by SNAP, and two that end
    b"\x08\x00" + bytes(60), b"\x00\x30\x42\x42\x03" + bytes(60), b"\x00\x30\xaa\xaa\x03\0\0\0\x08\0" + bytes(60), b"\x81\x37", b""]
STATIONS = [STATION[:5] + bytes([k]) for k in range(len(KINDS))]


class Npcap(threading.Thread):
    """The far side of the DLL: it hears what the gateway sends on its cards, gives that back as Npcap does, and sends frames there."""

    def __init__(self):
        super().__init__(daemon=True)
        self.socket = socket.socket(socket.AF_INET, socket.SOCK_DGRAM)
        self.socket.bind(("127.0.0.1", 0))
        self.opened = []  # each card that was opened: its place, and the words that it told
        self.heard = queue.SimpleQueue()
        self.near, self.far = socket.socketpair(socket.AF_UNIX, socket.SOCK_DGRAM)
        self.start()

    def environment(self, **more):
        return {"WPCAP_PORT": str(self.socket.getsockname()[1]), **more}

    def run(self):
        with contextlib.suppress(OSError):
            while True:
                said, place = self.socket.recvfrom(65536)
                if said[:1] == b"O":
                    self.opened.append((place, said[1:].decode()))
                if said[:1] == b"F":
                    self.give(said)
                    self.far.send(said[1:])

    def give(self, said):
        """Each open card is told."""
        for place, _ in list(self.opened):
            self.socket.sendto(said, place)

    # ---- As a wire of a station ----

    def fileno(self):
        return self.near.fileno()

    def send(self, bytes_):
        self.give(b"F" + bytes_)

    def receive(self):
        return [self.near.recv(65536)]

    def __enter__(self):
        return self

    def __exit__(self, *_):
        for it in self.socket, self.near, self.far:
            it.close()


def place_of_npcap():
    """The folder in which Npcap has its DLLs, in Wine's system."""
    return os.path.join(os.environ["WINEPREFIX"], "drive_c", "windows", "system32", "Npcap")


def bytes_of_dll():
    with open(DLL, "rb") as it:
        return it.read()


@contextlib.contextmanager
def installed(dll=None):
    """Npcap is there, by its DLL or by another's bytes."""
    os.makedirs(place_of_npcap(), exist_ok=True)
    with open(os.path.join(place_of_npcap(), os.path.basename(DLL)), "wb") as it:
        it.write(dll or bytes_of_dll())
    try:
        yield
    finally:
        shutil.rmtree(place_of_npcap())


@contextlib.contextmanager
def playing(text, **more):
    """A gateway with cards, and the far side of these."""
    with Npcap() as wire, Gateway(text, environment=wire.environment(**more)) as gate:
        yield gate, wire


def refused(text, environment=None):
    """What a gateway complains of that doesn't start."""
    with tempfile.NamedTemporaryFile(suffix=".conf") as file:
        file.write(text.encode())
        file.flush()
        run = subprocess.run([*SYSTEM.quick, SYSTEM.program, file.name], capture_output=True, timeout=LIMIT, check=False,
                             env={**os.environ, **(environment or {})})
    assert run.returncode == 1, run
    return text_of(run.stderr)


def listed(**more):
    run = subprocess.run([*SYSTEM.quick, SYSTEM.program, "--cards"], capture_output=True, timeout=LIMIT, check=False, env={**os.environ, **more})
    assert run.returncode == 0 and not run.stderr, run
    return text_of(run.stdout)


def without_npcap():
    """Where Npcap is missing, a configuration with a card is refused with what to install; one without a card needs none."""
    complaint = refused("network 20 1 1490 interface v0 raw\n")
    begins = "ipxr-gateway: line 1: interface v0 raw: can't open the interface: Npcap isn't installed, "
    assert complaint.startswith(begins) and complaint.endswith("npcap.com\n"), complaint
    with Gateway(tunnels(1)) as gate:
        assert reaches(*[Client(gate.ports[0x10]) for _ in range(2)])
    assert "Npcap isn't installed" in listed()


def another_dll():
    """A DLL that lacks a function isn't Npcap's, which is told with the function; and so is one that Windows can't load, with Windows' number."""
    begins = "ipxr-gateway: line 1: interface v0 raw: can't open the interface: "
    for name in b"pcap_create", b"pcap_set_immediate_mode", b"pcap_close":
        whole = bytes_of_dll()
        assert name + b"\0" in whole
        with installed(whole.replace(name + b"\0", name[:-1] + b"?\0")):
            lacks = f"Npcap is too old, or this is another wpcap.dll, which lacks {name.decode()}: install Npcap from npcap.com\n"
            assert refused("network 20 1 1490 interface v0 raw\n") == begins + lacks
            assert listed().endswith(lacks)
    with installed(b"MZ, but no program"):
        complaint = refused("network 20 1 1490 interface v0 raw\n")
    lacks = r"Npcap's wpcap.dll can't be loaded \(Windows error \d+\): install Npcap anew, from npcap.com\n"
    assert re.fullmatch(re.escape(begins) + lacks, complaint), complaint


def no_ethernet():
    """What isn't Ethernet is refused, and the fault has the words that it has on Linux."""
    with installed():
        complaint = refused("network 20 1 1490 interface lo raw\n")
    assert complaint == f"ipxr-gateway: line 1: interface lo raw: it isn't Ethernet: {fault_words(errno.EPROTOTYPE)}\n", complaint


def cards_listed():
    """What the list has, by the words: state, address and name."""
    lines = listed().splitlines()
    assert lines[0].split() == ["INTERFACE", "STATE", "ADDRESS", "NAME"], lines
    rows = [ROW.fullmatch(it) for it in lines[1:]]
    assert all(rows), lines
    return {it[1]: it.groups()[1:] for it in rows}


def the_list():
    """--cards lists the cards with their words, states and addresses."""
    wanted = {it: ("up", own_address(it).hex().upper(), it) for it in ("v0", "v1")}
    with installed():
        until(lambda: cards_listed() == wanted, f"the list {wanted}")


def each_kind():
    """A card carries each kind of frame; the gateway doesn't hear its own, which Npcap gives back, and each network hears its kind alone."""
    text = tunnels(1) + "".join(f"network {20 + k} 1 1490 interface v0 {kind}\n" for k, kind in enumerate(KINDS))
    with installed(), playing(text) as (gate, wire):
        node = gate.nodes[0x20]
        assert node == own_address("v0")
        far = Client(gate.ports[0x10])
        for network in range(0x20, 0x20 + len(KINDS)):
            gate.until(f"network {network:08X} up")
        hosts = [Station(wire, kind, 0x20 + k, STATIONS[k], node) for k, kind in enumerate(KINDS)]
        for host in hosts:
            both_ways(gate, host, far)
        for one in hosts:
            for other in hosts:
                assert one is other or reaches(one, other), f"{one.kind} to {other.kind}"
        report = gate.report()
        for k in range(len(KINDS)):
            for what in ("no IPX", "another kind of frame", "for another node", "source of another", "own frame", "not sent"):
                assert gate.counted(0x20 + k, what, report) == 0, report
        assert all(words.endswith(" 0 2049") for _, words in wire.opened), wire.opened


def other_traffic():
    """Frames that aren't IPX don't come, nor such as are too short; what is too long is lost, and counted."""
    with installed(), playing(tunnels(1) + "network 20 1 1490 interface V0 auto\n") as (gate, wire):
        far, host = Client(gate.ports[0x10]), Station(wire, "raw", 0x20, STATION, gate.nodes[0x20])
        gate.until("network 00000020 up")
        assert reaches(host, far)
        before = gate.counted(0x20, "in")
        for rest in OTHERS:
            wire.send(host.gateway + host.node + rest)
        assert comes_next(host, far)
        assert gate.counted(0x20, "in") == before + 1
        wire.send(frame("ethernet2", host.gateway, host.node, packet(far.at(), host.at(), bytes(2500))))
        assert comes_next(host, far)
        until(lambda: gate.counted(0x20, "in") == before + 3, "the long one")


def of_several_links():
    """As one of several links a card hears the frames for all nodes, and what goes from link to link isn't heard as somebody else's."""
    with installed(), Npcap() as wire, Cable(["dosbox 0", "interface v0 raw"], environment=wire.environment()) as gate:
        player = gate.client()
        host = Station(wire, "raw", NUMBER, STATION, player.node)
        until(lambda: wire.opened and wire.opened[-1][1].endswith(" 1 2049"), "a card that hears all")
        for _ in range(TURNS):
            assert reaches(host, player) and reaches(player, host)
        report = gate.report()
        assert "drop" not in report and "lost: " not in report, report


def a_card_goes():
    """A card that can't be read any more is down for the reason that Npcap has, is opened again once a second at most, and is up once it is
    read."""
    with installed(), playing(tunnels(1) + "network 20 1 1490 interface v0 raw\n") as (gate, wire):
        far, host = Client(gate.ports[0x10]), Station(wire, "raw", 0x20, STATION, gate.nodes[0x20])
        assert reaches(host, far)
        wire.give(b"L" + LOST.encode())
        gate.told(f"network 00000020 is down: interface v0 raw: can't open the interface: {LOST}")
        gate.told("network 00000020 is up")
        assert reaches(host, far) and reaches(far, host)


def unreadable():
    """A card that is opened and can't be read is down, and is opened once a second at most."""
    with installed(), playing(tunnels(1) + "network 20 1 1490 interface v0 raw\n", WPCAP_UNREADABLE="no such thing") as (gate, wire):
        gate.told("network 00000020 is down: interface v0 raw: can't open the interface: no such thing")
        seconds = int(re.search(r"report after (\d+) s", gate.report())[1])
        until(lambda: int(re.search(r"report after (\d+) s", gate.report())[1]) > seconds + 4, "some seconds")
        passed = int(re.search(r"report after (\d+) s", gate.report())[1])
        assert 2 <= len(wire.opened) <= passed + 1, (len(wire.opened), passed)
        assert sum("is up" in line for line in gate.lines) <= 1, gate.lines


def slowly_opened():
    """A card that is opened slowly and can't be read is opened rarely: it holds up nobody for more than a tenth of the time."""
    more = {"WPCAP_UNREADABLE": "no such thing", "WPCAP_SLOW": str(1000 * SLOW)}
    with installed(), playing(tunnels(2) + "network 30 1 1490 interface v0 raw\n", **more) as (gate, wire):
        gate.told("network 00000030 is down: interface v0 raw: can't open the interface: no such thing")
        one, other = (Client(gate.ports[it]) for it in (0x10, 0x20))
        opened, began = len(wire.opened), time.monotonic()
        while time.monotonic() - began < 10 * SLOW:
            assert reaches(one, other)
            time.sleep(PAUSE)
        assert len(wire.opened) - opened <= 2, f"opened {len(wire.opened) - opened} times"


def the_real_fault():
    """Where Npcap refuses a card, what it says is told."""
    with installed():
        complaint = refused("network 20 1 1490 interface v0 raw\n", {"WPCAP_REFUSES": "the driver\r\n isn't \x1brunning"})
    assert complaint == "ipxr-gateway: line 1: interface v0 raw: can't open the interface: the driver   isn't  running\n", complaint
    with installed():
        complaint = refused("network 20 1 1490 interface v0 raw\n", {"WPCAP_SILENT": "yes"})
    assert complaint == "ipxr-gateway: line 1: interface v0 raw: can't open the interface: Npcap doesn't say why\n", complaint


@contextlib.contextmanager
def plugged(near, far):
    """A pair of cards for a while, switched on."""
    with paired(near, far):
        for name in near, far:
            ip("link", "set", name, "up")
        yield


def by_number():
    """A card is named by its number, too; one that isn't there is waited for, and one that was taken out as well."""
    text = tunnels(1) + f"network 20 1 1490 interface if{about_wine('v0')} raw\n" + \
        "network 21 1 1490 interface w0 raw\nnetwork 22 1 1490 interface x0 raw\n"
    with paired("w0", "w1"), installed(), playing(text) as (gate, wire):
        assert gate.nodes[0x20] == own_address("v0")
        gate.told("network 00000021 is down: interface w0 raw: no carrier")
        gate.told("network 00000022 is down: interface x0 raw: can't open the interface: No such device")
        far = Client(gate.ports[0x10])
        with plugged("x0", "x1"):
            gate.told("network 00000022 is up: interface x0 raw")
            host = Station(wire, "raw", 0x22, STATION, own_address("x0"))
            assert reaches_again(host, far) and reaches_again(far, host)
        gate.told("network 00000022 is down: interface x0 raw: ")
        with plugged("x0", "x1"):
            gate.told("network 00000022 is up: interface x0 raw")
            # (Wine goes on telling the number and the address of the first one)
            assert reaches_again(host, far) and reaches_again(far, host)


@contextlib.contextmanager
def many():
    """Many cards for a while. Yields the names of half of them."""
    names = [f"c{k}" for k in range(MANY)]
    with contextlib.ExitStack() as all_of_them:
        for name in names:
            all_of_them.enter_context(paired(name, f"d{name[1:]}"))
        yield names


def a_long_list():
    """Where there are more cards than the list has, that is told."""
    with many(), installed():
        lines = listed().splitlines()
    assert len(lines) == LISTED + 2 and lines[-1] == f"there may be more: no more than {LISTED} are listed", lines[-2:]


def among_many():
    """Twenty links among hundreds of cards hold nobody up: two players go on."""
    with many() as names, installed():
        text = tunnels(2) + "".join(f"network {100 + k} 1 1490 interface {names[k]} raw\n" for k in range(LINKS))
        with playing(text) as (gate, _):
            one, other = (Client(gate.ports[it]) for it in (0x10, 0x20))
            began = time.monotonic()
            for _ in range(TURNS):
                assert reaches(one, other)
            figures(f"{TURNS} packets pass in {time.monotonic() - began:.1f} s")
            assert time.monotonic() - began < SOON


def about_wine(name):
    """Windows' number of a card: Wine's is that of the system."""
    return about(name)["ifindex"]


def begins_wine():
    """Begins Wine here. (what its first program starts keeps that program's output open as long as it runs)"""
    subprocess.run(["wineserver", "-k"], check=False)
    subprocess.run(["wineserver", "-w"], check=False)
    subprocess.run(["wineserver", "-p"], check=False, stdin=subprocess.DEVNULL, stdout=subprocess.DEVNULL, stderr=subprocess.DEVNULL)
    subprocess.run(["wine", "cmd", "/c", "exit"], check=False, stdin=subprocess.DEVNULL, stdout=subprocess.DEVNULL, stderr=subprocess.DEVNULL)


def inside():
    """In the network of its own."""
    ip("link", "set", "lo", "up")
    pair("v0", "v1")
    # (Wine has a wpcap.dll of its own, which isn't Npcap's)
    os.environ["WINEDLLOVERRIDES"] = "wpcap=n"
    begins_wine()
    try:
        return tried(without_npcap, another_dll, no_ethernet, the_list, each_kind, other_traffic, of_several_links, a_card_goes, unreadable,
                     slowly_opened, the_real_fault, by_number, a_long_list, among_many)
    finally:
        subprocess.run(["wineserver", "-k"], check=False)


def main():
    if SYSTEM is not Windows:
        return Counts()
    try:
        return tried_inside(__file__, "cards of Windows")
    finally:
        begins_wine()


if __name__ == "__main__":
    begin(main, inside)

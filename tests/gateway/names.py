"""Names of machines in place of addresses: in a network of the test's own, with names that the test gives out."""
import contextlib
import errno
import ipaddress
import os
import select
import socket
import struct
import subprocess
import tempfile

from changed import Changed
from frames import Station, Tcp, Udp
from lab import AGAIN, LIMIT, Client, Clock, Gateway, reaches, tunnels, until
from links import STATION, both_ways
from six import has_six
from spaces import ip
from systems import SYSTEM, Windows, fault_words
from troubles import Trouble
from trying import Counts, begin, left_out, tried, tried_inside
from words import asked

UNKNOWN = "no address of that name is known yet"
IS_OWN = "the address there is the gateway's own"
OWN = "10.77.0.1"
SERVER = ("127.0.0.9", 53)  # that gives out names
NAME = "house.test"
A, AAAA = 1, 28  # the kinds of addresses of IPv4 and of IPv6 in a question
MINUTE, SILENT = 61, 91  # seconds after which a name is asked for again: where nobody is, and where nobody says anything
TWENTY = 20
CALLS = 5  # that are taken and cut
LINKS, TURNS = 30, 10  # of links to names, and configurations that name them
MOST_UNDER_WAY, OTHERS = 128, 8  # questions at once, and threads that a gateway may have beside them
NETWORKS, NAMED, OF_LINK = 10, 32, 8  # of links that name several machines, how many each, and of these how many are asked for at once


def link(kind):
    return tunnels(1) + f"network 20 1 1490 {kind} raw\n"


def told_with(gate, who):
    return gate.told("network 00000020 is up").endswith(f", with {who}")


def localhost():
    """A name in place of an address: datagrams and a connection go to its address, which is told."""
    wire = Udp()
    with Gateway(link(f"qemu-udp 0 localhost:{wire.port}")) as gate:
        assert told_with(gate, f"127.0.0.1:{wire.port}")
        wire.to = gate.ports[0x20]
        both_ways(gate, Station(wire, "raw", 0x20, STATION, gate.nodes[0x20]), Client(gate.ports[0x10]))
    with socket.socket() as pc:
        pc.bind(("127.0.0.1", 0))
        pc.listen()
        port = pc.getsockname()[1]
        with Gateway(link(f"qemu-tcp connect localhost:{port}")) as gate:
            assert told_with(gate, f"127.0.0.1:{port}")
            both_ways(gate, Station(Tcp(pc.accept()[0]), "raw", 0x20, STATION, gate.nodes[0x20]), Client(gate.ports[0x10]))


def the_longest():
    """The longest name that there may be is one, and none with a letter more is."""
    for length, status in ((253, 0), (254, 2)):
        name = ("b" * 49 + ".") * 5
        text = f"network 20 1 1490 qemu-tcp connect {name}{'c' * (length - len(name))}:5001 raw\n"
        assert asked("--check", "/dev/stdin", stdin=text.encode())[0] == status, length


# ---- With names that the test gives out ----


class Names:
    """What gives out names: the test answers each question when it likes."""

    def __init__(self, questions):
        self.questions = questions  # at once: one for each kind of address
        self.folder = tempfile.TemporaryDirectory()
        self.udp = socket.socket(socket.AF_INET, socket.SOCK_DGRAM)
        self.udp.bind(SERVER)
        self.udp.settimeout(LIMIT)
        for name, text in (("hosts", ""), ("resolv.conf", f"nameserver {SERVER[0]}\noptions timeout:{LIMIT // 2} attempts:1\n"),
                           ("nsswitch.conf", "hosts: files dns\n")):
            with open(os.path.join(self.folder.name, name), "w", encoding="ascii") as it:
                it.write(text)
        mounts = "".join(f"mount --bind {self.folder.name}/{it} /etc/{it} && " for it in ("hosts", "resolv.conf", "nsswitch.conf"))
        self.before = ["unshare", "-m", "sh", "-c", f'{mounts}exec "$@"', "sh"]

    def question(self):
        """Waits for a question."""
        bytes_, who = self.udp.recvfrom(512)
        assert NAME.split(".", 1)[0].encode() in bytes_ or b"slow" in bytes_, bytes_
        return bytes_, who

    def answer(self, question, addresses):
        """Answers one: with the addresses that it asks for, or that there is none of that name."""
        bytes_, who = question
        end = bytes_.index(b"\0", 12) + 5
        kind = int.from_bytes(bytes_[end - 4 : end - 2], "big")
        wanted = [it.packed for it in map(ipaddress.ip_address, addresses) if {A: 4, AAAA: 6}[kind] == it.version]
        head = bytes_[:2] + struct.pack(">HHHHH", 0x8180 if addresses else 0x8183, 1, len(wanted), 0, 0)
        records = b"".join(b"\xc0\x0c" + struct.pack(">HHIH", kind, 1, 0, len(it)) + it for it in wanted)
        self.udp.sendto(head + bytes_[12:end] + records, who)

    def gives(self, *addresses):
        for _ in range(self.questions):
            self.answer(self.question(), addresses)

    def __enter__(self):
        return self

    def __exit__(self, *_):
        self.udp.close()
        self.folder.cleanup()


@contextlib.contextmanager
def routing(kind, **how):
    with Names(2 if kind.startswith("qemu-tcp") else 1) as names, Gateway(link(kind), before=names.before, **how) as gate:
        yield names, gate


def nobody_waits():
    """While a name is asked for, and nobody answers, packets pass; it is told once that it isn't known."""
    with routing(f"qemu-udp 127.0.0.1:5001 {NAME}:5002") as (names, gate):
        assert gate.told("network 00000020 is down").endswith(UNKNOWN)
        question = names.question()
        anna, ben = Client(gate.ports[0x10]), Client(gate.ports[0x10])
        for _ in range(TWENTY):
            assert reaches(anna, ben) and reaches(ben, anna)
        names.answer(question, ["127.0.0.3"])
        assert told_with(gate, "127.0.0.3:5002")
        wire = Udp(5002, "127.0.0.3")
        wire.to = 5001
        both_ways(gate, Station(wire, "raw", 0x20, STATION, gate.nodes[0x20]), anna)
        assert sum(UNKNOWN in it for it in gate.lines) == 1


def an_end_doesnt_wait():
    """A gateway that ends waits for no name, and nothing of its question is left."""
    with routing(f"qemu-udp 127.0.0.1:5001 {NAME}:5002") as (names, gate):
        names.question()
        gate.end()


def of_names(turn):
    """A configuration with many links to names, whose ports differ from turn to turn."""
    links = (f"network {0x20 + k:X} 1 1490 qemu-udp 127.0.0.1:{5100 + k} {NAME}:{5002 + turn % 2} raw\n" for k in range(LINKS))
    return tunnels(1) + "".join(links)


def reloads_beside_silence():
    """While nobody answers for names, reloads that change them use up no more threads and files than there are places for questions."""
    with Names(1) as names, Changed(of_names(0), before=names.before) as gate:
        for turn in range(1, TURNS):
            gate.reload(of_names(turn))
        threads = len(os.listdir(f"/proc/{gate.run.process()}/task"))
        assert LINKS < threads <= MOST_UNDER_WAY + OTHERS, threads

        # (whoever found no place is asked for as soon as there is one)
        def are_known():
            while select.select([names.udp], [], [], AGAIN)[0]:
                names.gives("127.0.0.3")
            return all(it["state"] == "up" for it in gate.shown("links"))

        until(are_known, "all names are known")


def several_names_nobody_knows():
    """While nobody answers for the names of links that have many, a link behind them is asked for and up; then all names are asked for"""
    text = tunnels(1)
    for k in range(NETWORKS):
        text += f"network {0x100 + k:X} 1 576 rfc1234 127.0.0.1:{5100 + k}\n" + "".join(f"peer slow{k}x{n}.test:213\n" for n in range(NAMED))
    with Names(1) as names, Gateway(text + f"network 20 1 1490 qemu-udp 127.0.0.1:5001 {NAME}:5002 raw\n", before=names.before) as gate:
        slow, known = [], []
        while not known or len(slow) < NETWORKS * OF_LINK:
            question = names.question()
            (slow if b"slow" in question[0] else known).append(question)
        names.answer(known[0], ["127.0.0.3"])
        assert told_with(gate, "127.0.0.3:5002")
        threads = len(os.listdir(f"/proc/{gate.run.process()}/task"))
        assert threads <= NETWORKS * OF_LINK + OTHERS, threads
        asked_for = set()
        while len(asked_for) < NETWORKS * NAMED:
            question = slow.pop() if slow else names.question()
            asked_for.add(question[0][12 : question[0].index(b"\0", 12)])
            names.answer(question, [])
        until(lambda: len(os.listdir(f"/proc/{gate.run.process()}/task")) <= OTHERS, "the end of the last question")


def the_next_address():
    """Of several addresses each has its turn, until somebody is there who takes a connection."""
    hosts = [(socket.AF_INET, "127.0.0.2"), (socket.AF_INET, "127.0.0.3"), *([(socket.AF_INET6, "::1")] if has_six() else [])]
    for family, host in hosts:
        with socket.socket(family) as pc:
            pc.bind((host, 0))
            pc.listen()
            port = pc.getsockname()[1]
            with routing(f"qemu-tcp connect {NAME}:{port}") as (names, gate):
                names.gives("127.0.0.2", "127.0.0.3", "::1")
                assert told_with(gate, f"[{host}]:{port}" if ":" in host else f"{host}:{port}")


def each_fails_in_its_way():
    """Where one address of a name refuses each call, and another takes it and goes at once, either is told once in a minute."""
    clock = Clock()
    with socket.create_server(("127.0.0.3", 0)) as pc:
        pc.settimeout(LIMIT)
        kind = f"qemu-tcp connect {NAME}:{pc.getsockname()[1]}"
        with routing(kind, program=SYSTEM.fast, environment=clock.environment()) as (names, gate):
            names.gives("127.0.0.2", "127.0.0.3")
            for _ in range(CALLS):
                until(lambda: clock.let_pass(1) or select.select([pc], [], [], AGAIN)[0], "a call")
                pc.accept()[0].close()
            gate.report()
            told = [it.rpartition(" raw: ")[2] for it in gate.lines if "network 00000020 is" in it]
            assert len(told) == len(set(told)) and {"can't connect: Connection refused", "the connection ended"} <= set(told), told


def one_who_goes_at_once():
    """Where somebody at one address takes a connection and closes it at once, the name's next address has its turn."""
    with socket.socket() as first, socket.socket() as second:
        first.bind(("127.0.0.2", 0))
        port = first.getsockname()[1]
        second.bind(("127.0.0.3", port))
        for pc in first, second:
            pc.listen()
            pc.settimeout(LIMIT)
        with routing(f"qemu-tcp connect {NAME}:{port}") as (names, gate):
            names.gives("127.0.0.2", "127.0.0.3")
            first.accept()[0].close()
            with second.accept()[0]:
                assert told_with(gate, f"127.0.0.3:{port}")


def no_room_for_a_call():
    """Where the system has no room for a call, that is no fault of the address: the same one is called again, not the name's next."""
    clock, trouble = Clock(), Trouble()
    environment = {**clock.environment(), **trouble.environment()}
    with socket.socket() as first, socket.socket() as second:
        first.bind(("127.0.0.2", 0))
        port = first.getsockname()[1]
        second.bind(("127.0.0.3", port))
        for pc in first, second:
            pc.listen()
        with routing(f"qemu-tcp connect {NAME}:{port}", program=SYSTEM.fast, environment=environment) as (names, gate):
            names.gives("127.0.0.2", "127.0.0.3")
            until(lambda: clock.let_pass(1) or " is up: qemu-tcp" in gate.report() + "".join(gate.lines), "a connection")
            assert told_with(gate, f"127.0.0.2:{port}")
            with trouble.fails("socket", errno.EMFILE):
                first.accept()[0].close()
                clock.let_pass(1)
                assert gate.told("can't connect").endswith(f": {fault_words(errno.EMFILE)}")
            until(lambda: clock.let_pass(1) or gate.report() and sum(" is up: qemu-tcp" in it for it in gate.lines) == 2, "one more call")
            assert told_with(gate, f"127.0.0.2:{port}")


def of_six():
    """Datagrams from an address of IPv6 go to one of a name, which is asked for these alone."""
    with routing(f"qemu-udp [::1]:5001 {NAME}:5002") as (names, gate):
        names.gives("127.0.0.2", "::1")
        assert told_with(gate, "[::1]:5002")


def its_own():
    """Where a name's address is the gateway's own, or one in numbers is, that is told, and nothing goes there."""
    ip("addr", "add", f"{OWN}/32", "dev", "lo")
    for local in "127.0.0.1", "0.0.0.0":
        with routing(f"qemu-udp {local}:5001 {NAME}:5001") as (names, gate):
            names.gives("127.0.0.1")
            gate.told(IS_OWN)
    with Gateway(link(f"qemu-udp 0.0.0.0:5001 {OWN}:5001")) as gate:
        gate.told(IS_OWN)


def asked_again():
    """A name is asked for again after a minute where it isn't known, or where nobody is connected; and its new address is used."""
    clock = Clock()
    with socket.socket() as pc:
        pc.bind(("127.0.0.3", 0))
        pc.listen()
        port = pc.getsockname()[1]
        with routing(f"qemu-tcp connect {NAME}:{port}", program=SYSTEM.fast, environment=clock.environment()) as (names, gate):
            names.gives()
            assert gate.told("network 00000020 is down").endswith(UNKNOWN)
            clock.let_pass(MINUTE)
            until(lambda: clock.let_pass(1) or select.select([names.udp], [], [], 0.1)[0], "the next question")
            names.gives("127.0.0.2")
            until(lambda: clock.let_pass(1) or "can't connect" in gate.report(), "nobody at the first address")
            clock.let_pass(MINUTE)
            names.gives("127.0.0.3")
            until(lambda: clock.let_pass(1) or f", with 127.0.0.3:{port}" in gate.report() + "".join(gate.lines), "the second address")


def another_address():
    """Where nothing came for long, a name is asked for again, and datagrams go to its new address."""
    clock, wires = Clock(), [Udp(5002, "127.0.0.2"), Udp(5002, "127.0.0.3")]
    for it in wires:
        it.to = 5001
    how = {"program": SYSTEM.fast, "environment": clock.environment()}
    with routing(f"qemu-udp 127.0.0.1:5001 {NAME}:5002", **how) as (names, gate):
        names.gives("127.0.0.2")
        until(lambda: clock.let_pass(1) or "is up: qemu-udp" in gate.report() + "".join(gate.lines), "the link")
        anna = Client(gate.ports[0x10])
        stations = [Station(it, "raw", 0x20, STATION, gate.nodes[0x20]) for it in wires]
        both_ways(gate, stations[0], anna)
        clock.let_pass(1)
        gate.report()  # (it has seen then that something came)
        clock.let_pass(SILENT)
        names.gives("127.0.0.3")
        until(lambda: clock.let_pass(1) or ", with 127.0.0.3:5002" in gate.report() + "".join(gate.lines), "the new address")
        both_ways(gate, stations[1], anna)


def inside():
    """In the network of its own."""
    ip("link", "set", "lo", "up")
    mounts = subprocess.run(["unshare", "-m", "sh", "-c", "mount --bind /etc/hosts /etc/hosts"], stderr=subprocess.DEVNULL, check=False)
    if mounts.returncode != 0 or not all(os.path.exists(f"/etc/{it}") for it in ("hosts", "resolv.conf", "nsswitch.conf")):
        left_out("names that the test gives out", "its own can't stand in place of the system's")
        return Counts()
    counts = tried(nobody_waits, an_end_doesnt_wait, reloads_beside_silence, several_names_nobody_knows, the_next_address, each_fails_in_its_way, one_who_goes_at_once,
                   no_room_for_a_call, its_own, asked_again, another_address)
    return counts + tried(of_six) if has_six() else counts


def main():
    counts = tried(the_longest, localhost)
    return counts if SYSTEM is Windows else counts + tried_inside(__file__, "names that the test gives out")


if __name__ == "__main__":
    begin(main, inside)

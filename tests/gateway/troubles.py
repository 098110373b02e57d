"""Calls of the system that fail, each once and for a while; and hours that the test lets pass."""
import contextlib
import errno
import os
import re
import socket
import tempfile
import time

from calls import CALLS, call_of
from frames import Station, Tcp, Udp
from lab import (AGAIN, ALL_THERE_IS, EVERYONE, GAME, LIMIT, Client, Clock, Gateway, address, comes_next, fresh, is_ping, reaches,
                 reaches_again, registration, rip_response, sap_response, says, tunnels, until)
from links import STATION, connected, listening
from orders import is_farewell
from status import Watched, answer_of, processor_time
from systems import SYSTEM, fault_words
from trying import begin, left_out, tried


def configuration(card, place):
    return tunnels(2) + (
        f"network 30 1 1490 qemu-udp 0 {card.port} llc\n"
        f"network 40 1 1490 qemu-tcp listen 0 raw\n"
        f"network 50 1 1490 qemu-tcp connect {place.getsockname()[1]} raw\n"
    )


def is_heard(gate, listener):
    """Whether a card that connects, and again where it is put out, reaches a client."""
    end = time.monotonic() + LIMIT
    while time.monotonic() < end:
        try:
            with socket.create_connection(("127.0.0.1", gate.ports[0x40])) as connection:
                station = Station(Tcp(connection), "raw", 0x40, bytes.fromhex("020000000AA2"), gate.nodes[0x40])
                return reaches_again(station, listener)
        except ConnectionError:
            continue
    return False


def goes_on(gate, card):
    """Sees that everybody hears everybody, though not at the first try."""
    gate.until_open(0x10, 0x20, 0x30, 0x40)
    a, b = Client(gate.ports[0x10], registers=False), Client(gate.ports[0x20], registers=False)
    for it in a, b:
        until(lambda: it.is_told(AGAIN), "an answer")
    card.to = gate.ports[0x30]
    station = Station(card, "llc", 0x30, bytes.fromhex("020000000AA1"), gate.nodes[0x30])
    for one, other in ((a, b), (b, station), (station, a)):
        # (who speaks by the node that he was told is a client at once, or is asked whether he hears; one of these packets may be lost)
        until(lambda: other.say(one.at(), b"I am here") or says(one, other, fresh(), AGAIN), f"{one} reaches {other}")
    assert is_heard(gate, b), "a connection isn't heard"


def ends_well(gate, which):
    """Ends a gateway that had trouble; it may have told that its capture ended."""
    gate.run.terminate()
    _, complaint = gate.run.communicate(timeout=LIMIT)
    text = complaint.decode()
    assert gate.run.returncode == 0, f"{which}: it ended with {gate.run.returncode}: {text}"
    assert not text or re.fullmatch(r"ipxr-gateway: the capture ends: .*\n", text), f"{which}: {text}"
    gate.folder.cleanup()


def troubled(text, name, fault, which):
    """A gateway of which one call fails; None where it can't start for that, and says why."""
    environment = {"TROUBLE_CALL": name, "TROUBLE_AT": str(which), "TROUBLE_ERRNO": str(fault)}
    try:
        return Gateway(text, SYSTEM.troubled, ["--pcap", "/dev/null"], environment)
    except AssertionError as stop:
        why = str(stop).partition("nothing more: ")[2]
        assert re.match(r"(ipxr-gateway|\S+gateway\.conf|/dev/null): \S", why) and "Sanitizer" not in why, f"{name} {which}: {stop}"
        return None


def one_fails(name, fault, which):
    """A run in which one call fails: it can't start, and says why; or it goes on."""
    card, place = Udp(), listening()
    gate = troubled(configuration(card, place), name, fault, which)
    if gate is not None:
        goes_on(gate, card)
        ends_well(gate, f"{name} {which}")


def each_fails():
    """Each call of the system fails once: the gateway doesn't start and says why, or goes on, under the sanitizers."""
    for name, fault, times in CALLS:
        for which in range(1, times + 1):
            one_fails(name, fault, which)


class Trouble:
    """Calls that fail for as long as the test likes."""

    def __init__(self):
        self.folder = tempfile.TemporaryDirectory()
        self.name = os.path.join(self.folder.name, "now")

    def environment(self):
        return {"TROUBLE_NOW": self.name}

    @contextlib.contextmanager
    def fails(self, name, fault):
        """Each call of a name fails meanwhile."""
        with open(f"{self.name}.new", "w", encoding="ascii") as it:
            it.write(f"{name} {fault}")
        os.replace(f"{self.name}.new", self.name)
        try:
            yield
        finally:
            os.remove(self.name)


def a_fifo_cannot_be_opened():
    """Where the system has no file left for the FIFO of a capture, that is told, and it routes on."""
    trouble = Trouble()
    with tempfile.TemporaryDirectory() as folder, trouble.fails("open", errno.EMFILE):
        fifo = os.path.join(folder, "fifo")
        os.mkfifo(fifo)
        with Gateway(tunnels(2), SYSTEM.troubled, ["--pcap", fifo], trouble.environment()) as gate:
            assert reaches(Client(gate.ports[0x10]), Client(gate.ports[0x20]))
            gate.run.order(SYSTEM.end)
            _, complaint = gate.run.communicate(timeout=LIMIT)
            assert gate.run.returncode == 0 and complaint.decode() == f"ipxr-gateway: the capture ends: {fault_words(errno.EMFILE)}\n", complaint


def knocks(gate):
    """Somebody connects, and goes again."""
    with contextlib.suppress(OSError), socket.create_connection(("127.0.0.1", gate.ports[0x40]), timeout=AGAIN):
        pass


def rests(gate, what):
    """Sees that a gateway isn't kept busy by what it can't do. Somebody knocks meanwhile."""
    process = gate.run.process()
    used, began = processor_time(process), time.monotonic()
    while time.monotonic() < began + A_WHILE:
        knocks(gate)
        time.sleep(A_WHILE / 10)
    share = (processor_time(process) - used) / (time.monotonic() - began)
    assert share < MOST_BUSY, f"{what}: it is busy for {share:.0%} of the time"


A_WHILE, MOST_BUSY = 1.2, 0.25  # seconds for which a call fails, and the part of them in which the gateway may do something
NO_MEMORY = 70  # seconds for which there is none: more than the router hears of that are late


def each_fails_for_a_while():
    """Each call of the system fails for a second: the gateway isn't busy for that, and goes on afterwards, under the sanitizers."""
    trouble, card, place = Trouble(), Udp(), listening()
    gate = Gateway(configuration(card, place), SYSTEM.troubled, ["--pcap", "/dev/null"], trouble.environment())
    goes_on(gate, card)
    for name, fault in dict.fromkeys((name, fault) for name, fault, _ in CALLS if fault != errno.EINTR):
        with trouble.fails(name, fault):
            rests(gate, f"{name} {fault}")
        goes_on(gate, card)
    ends_well(gate, "for a while")


def cannot_wait():
    """While the system can't wait for what comes, all of it is handed on, and a connection is taken; the gateway isn't busy for that."""
    trouble = Trouble()
    text = tunnels(2) + "network 40 1 1490 qemu-tcp listen 0 raw\n"
    with Watched(text, program=SYSTEM.troubled, environment=trouble.environment()) as gate:
        a, b = Client(gate.ports[0x10]), Client(gate.ports[0x20])
        with trouble.fails("poll", errno.EINVAL):
            for _ in range(20):
                assert reaches(a, b) and reaches(b, a)
            station, _ = connected(gate, 0x40, "raw")
            assert reaches(a, station) and reaches(station, a) and gate.shown("clients")
            rests(gate, "poll")
        gate.report()
        assert not any("nobody can " in it for it in gate.lines), gate.lines


def nobody_is_taken():
    """Where the system hands over nobody who asks, for whatever reason, that is told once, and the gateway isn't busy; it answers later."""
    trouble = Trouble()
    text = tunnels(1) + "network 40 1 1490 qemu-tcp listen 0 raw\n"
    with Watched(text, program=SYSTEM.troubled, environment=trouble.environment()) as gate:
        for fault in errno.ENFILE, errno.EPERM:
            with trouble.fails("accept", fault):
                late = gate.connects(b"show links\n")
                assert gate.told("nobody can ask at").endswith(f" now: {fault_words(fault)}")
                rests(gate, f"accept {fault}")
            with late:
                assert answer_of(late).startswith(b"+")
        gate.report()
        assert sum("nobody can ask at" in it for it in gate.lines) == 2


def no_room_to_receive():
    """While the system has no room for what has come, the gateway isn't busy for that, and hears it afterwards: by datagrams and from a PC,
    who stays."""
    trouble = Trouble()
    with Gateway(tunnels(2) + "network 40 1 1490 qemu-tcp listen 0 raw\n", SYSTEM.troubled, environment=trouble.environment()) as gate:
        a, b = Client(gate.ports[0x10]), Client(gate.ports[0x20])
        station, _ = connected(gate, 0x40, "raw")
        assert reaches(station, a)
        for name, fault, speaker in ((call_of("recvmmsg"), errno.ENOMEM, b), ("recv", errno.ENOBUFS, station)):
            with trouble.fails(name, fault):
                data = fresh()
                speaker.say(a.at(), data)
                rests(gate, f"{name} {fault}")
            assert a.hear()[30:] == data
        assert reaches(a, station) and reaches(station, a) and not any("network 00000040 is down" in it for it in gate.lines[gate.looked:])


def no_memory_for_a_second():
    """While there is no memory for what a second brings, the gateway isn't busy for that, hands packets on, and doesn't say that it stood
    still; seconds pass for the router once there is."""
    trouble, clock = Trouble(), Clock()
    with Gateway(tunnels(4, shares=ALL_THERE_IS), SYSTEM.troubled, environment={**trouble.environment(), **clock.environment()}) as gate:
        a, b = Client(gate.ports[0x10]), Client(gate.ports[0x20])
        with trouble.fails("realloc", errno.ENOMEM):
            advertise(a, 400, 0)
            for _ in range(NO_MEMORY):
                clock.let_pass(1)
                assert reaches(a, b)
            rests(gate, "no memory for a second")
            said = gate.report()
        assert not any("stood still" in it for it in gate.lines), said
        for _ in range(4):
            clock.let_pass(MOST_LATE)
            gate.report()
        gate.until("routes: 0")


ROUTES, SERVICES = 2048, 1024  # what the tables have room for


def advertise(client, routes, services):
    """A client advertises routes and services, of which a packet has 50 and 7."""
    for first in range(0, routes, 50):
        numbers = range(first, min(first + 50, routes))
        client.send(rip_response(0x10, client.node, [(0x1000 + k, 1, 2) for k in numbers]))
    for first in range(0, services, 7):
        numbers = range(first, min(first + 7, services))
        client.send(sap_response(0x10, client.node, [(4, f"S{k:04}", 0x1000, bytes(5) + b"\1", 0x451, 2) for k in numbers]))


def is_held(gate, routes, services):
    report = gate.report()
    return f"routes: {routes}\n" in report and f"services: {services}\n" in report


MOST_LATE = 57  # seconds of which the router hears where they pass at once
RECORD_LASTS = 180  # in the last of which a record ends that nobody says again


def jump(gate, clock, seconds):
    """Seconds pass, as many at once as the router hears of."""
    for first in range(0, seconds, MOST_LATE):
        clock.let_pass(min(MOST_LATE, seconds - first))
        gate.report()


def an_hour():
    """Records are gone in the 180th second, and after an hour, with packets of all kinds, it has no more memory than after some minutes."""
    clock = Clock()
    with Gateway(tunnels(2), SYSTEM.fast, environment=clock.environment()) as gate:
        a, b = Client(gate.ports[0x10]), Client(gate.ports[0x20])
        for minutes in range(0, 60, 10):
            for _ in range(30):
                advertise(a, 50, 7)
                assert reaches(a, b) and reaches(b, a)
                a.say(address(0, EVERYONE, GAME), bytes(32), kind=20)
                clock.let_pass(10)
                assert is_held(gate, 50, 7)
            jump(gate, clock, 169)
            assert is_held(gate, 50, 7), "for 179 seconds"
            clock.let_pass(1)
            assert is_held(gate, 0, 0), "in the 180th second all are gone"
            jump(gate, clock, 130)
            if minutes == 10:
                early = gate.memory()
        assert f"report after {60 * 60} s\n" in gate.report()
        assert gate.memory() <= early + 64, f"{gate.memory()} KB, {early} KB before"


def full_tables():
    """With full tables a minute's broadcast goes out whole on 8 networks, and packets pass meanwhile."""
    clock = Clock()
    with Gateway(tunnels(8, shares=ALL_THERE_IS, extra="rate none\n"), SYSTEM.fast, environment=clock.environment()) as gate:
        clients = [Client(gate.ports[n]) for n in sorted(gate.ports)]
        a, b = clients[:2]
        # (what is too much at once for a socket is lost, and advertised again)
        until(lambda: advertise(a, ROUTES, SERVICES) or is_held(gate, ROUTES, SERVICES), "full tables")
        report = gate.report()
        before = {n: gate.counted(n, "out", report) for n in gate.ports}
        for _ in range(60):
            clock.let_pass(1)
            assert reaches_again(a, b)
        whole = ROUTES // 50 + 1 + SERVICES // 7 + 1
        report = gate.report()
        for network, count in before.items():
            # (a's own routes and services are not told on its network, but those of the gateway)
            least = 1 if network == 0x10 else whole
            assert gate.counted(network, "out", report) >= count + least, (network, report[:2000])
            assert gate.counted(network, "not sent", report) == 0


def let_pass(gate, clock, seconds, *present):
    """Seconds pass one by one; meanwhile those who are present answer what they are asked."""
    for _ in range(seconds):
        clock.let_pass(1)
        gate.report()
        # (what each says to itself comes behind its pings)
        assert all(reaches(it, it) for it in present), "it isn't a client any more"


def who_is_silent():
    """Who answers no ping leaves in the 30th second, who is trusted and says nothing in the 180th; then there is room. Others stay."""
    clock = Clock()
    text = tunnels(1, extra="clients 3\ntrust 127.0.0.2\n")
    with Gateway(text, SYSTEM.fast, environment=clock.environment()) as gate:
        stays, goes = Client(gate.ports[0x10]), Client(gate.ports[0x10])
        trusted = Client(gate.ports[0x10], host="127.0.0.2", registers=False, answers=False)
        trusted.register()
        goes.answers = False
        let_pass(gate, clock, 29, stays)
        late = Client(gate.ports[0x10], registers=False)
        late.send(registration())
        gate.until_counted(0x10, "no room for a client", 1)
        assert gate.counted(0x10, "clients") == 3
        let_pass(gate, clock, 1, stays)
        assert gate.told(" leaves ").endswith(f" client {goes.node.hex().upper()} leaves 00000010, {goes.where()}")
        late.register()
        let_pass(gate, clock, 149, stays, late)
        assert gate.counted(0x10, "clients") == 3
        let_pass(gate, clock, 1, stays, late)
        assert gate.told(" leaves ").endswith(f" client {trusted.node.hex().upper()} leaves 00000010, {trusted.where()}")
        assert gate.counted(0x10, "clients") == 2


def listed(gate):
    """The nodes of the clients in a report, in its order."""
    return [bytes.fromhex(it) for it in re.findall(r"(?m)^    (\w{12}) at \S+, answered ", gate.report())]


def who_left():
    """Whoever leaves is a stranger from then on, wherever he stood in the list; the list has exactly the others, who are clients still."""
    clock = Clock()
    with Gateway(tunnels(1), SYSTEM.fast, environment=clock.environment()) as gate:
        present = [Client(gate.ports[0x10]) for _ in range(5)]
        strangers = missed = 0
        for place in 2, 0, 2:  # (in the middle, the first, the last)
            gone = present.pop(place)
            gone.answers = False
            let_pass(gate, clock, 30, *present)
            assert listed(gate) == [it.node for it in present]
            gone.say(present[0].at(), b"?")
            strangers += 1
            gate.until_counted(0x10, "from a stranger", strangers)
            for client in present:
                client.say(gone.at(), b"?")
            missed += len(present)
            gate.until_counted(0x10, "no such client", missed)


def stands_still():
    """A gateway that stood still for an hour puts nobody out: its clients are asked as after a second, and their answers count."""
    clock = Clock()
    with Gateway(tunnels(1), SYSTEM.fast, environment=clock.environment()) as gate:
        a, b = Client(gate.ports[0x10]), Client(gate.ports[0x10])
        clock.let_pass(3600)
        assert gate.counted(0x10, "clients") == 2
        let_pass(gate, clock, 35, a, b)
        assert not any(" leaves " in it for it in gate.lines)


def ages(gate):
    return [int(it) for it in re.findall(r", age (\d+) s", gate.report())]


def tells_an_end(client):
    """Whether a client has heard that a network can't be reached any more."""
    heard = iter(lambda: client.hear(lambda _: True, 0), None)
    return any(is_farewell(it, 0x1000) for it in heard)


def who_spoke_meanwhile():
    """Whatever came while a gateway stood still for three minutes is heard before these pass: what a neighbour said in the last of 2,000
    packets doesn't end, and nobody is told that it did."""
    clock = Clock()
    with Gateway(tunnels(2, extra="rate none\n"), SYSTEM.fast, environment=clock.environment()) as gate:
        a, b = Client(gate.ports[0x10]), Client(gate.ports[0x20])
        advertise(a, 50, 7)
        until(lambda: is_held(gate, 50, 7), "routes")
        for _ in range(3):
            with gate.run.halted():
                for k in range(2000):
                    a.say(b.at(), b"%d" % k)
                advertise(a, 50, 7)
                clock.let_pass(180)
            assert is_held(gate, 50, 7) and max(ages(gate)) <= MOST_LATE, ages(gate)
            assert not tells_an_end(b)
        # (so it is where it stood still for less than a minute, which they wouldn't last any more)
        jump(gate, clock, RECORD_LASTS // 2)
        assert min(ages(gate)) + MOST_LATE > RECORD_LASTS, ages(gate)
        with gate.run.halted():
            for k in range(2000):
                a.say(b.at(), b"%d" % k)
            advertise(a, 50, 7)
            clock.let_pass(MOST_LATE)
        assert is_held(gate, 50, 7) and not tells_an_end(b)


def each_has_its_turn():
    """Where much waits on one network and a word on another, both are heard by turns: the word isn't behind all that waits."""
    most, clock = 200, Clock()
    with Gateway(tunnels(2, extra="rate none\n"), SYSTEM.fast, environment=clock.environment()) as gate:
        a, b, c = (Client(gate.ports[number]) for number in (0x10, 0x20, 0x20))
        for seconds in (0, 2):
            with gate.run.halted():
                for _ in range(2 * most):
                    a.say(b.at(), b"one of many")
                c.say(b.at(), b"a word")
                clock.let_pass(seconds)
            heard = [b.hear()[30:] for _ in range(2 * most + 1)]
            assert heard.index(b"a word") < most, heard.index(b"a word")


def what_was_heard_lately():
    """What a neighbour said a minute before a gateway stood still for three is there still, until it is said again a minute later. What
    nobody says any more ends, also where the gateway stands still again and again."""
    clock = Clock()
    with Gateway(tunnels(2), SYSTEM.fast, environment=clock.environment()) as gate:
        a, b = Client(gate.ports[0x10]), Client(gate.ports[0x20])
        advertise(a, 50, 7)
        until(lambda: is_held(gate, 50, 7), "routes")
        for _ in range(2):
            let_pass(gate, clock, 60, a, b)
            clock.let_pass(180)
            assert is_held(gate, 50, 7), "it stood still"
            let_pass(gate, clock, 60, a, b)
            assert is_held(gate, 50, 7) and not tells_an_end(b), "a minute later"
            advertise(a, 50, 7)
            until(lambda: max(ages(gate)) == 0, "they are said again")
        for _ in range(4):
            clock.let_pass(180)
            gate.report()
        assert is_held(gate, 0, 0)
        until(lambda: tells_an_end(b), "what ended is told")
        assert f"report after {2 * 300 + 4 * 180} s\n" in gate.report()


def interrupted():
    """Seconds pass, and are told as passed, also while each wait of a gateway that stood still is interrupted."""
    clock, trouble = Clock(), Trouble()
    with Gateway(tunnels(1), SYSTEM.fast, environment={**clock.environment(), **trouble.environment()}) as gate:
        with trouble.fails("poll", errno.EINTR):
            clock.let_pass(180)
            gate.told("the gateway stood still for 180 s")
            assert "report after 180 s\n" in gate.report()


def few_strangers():
    """With `strangers 1` a newcomer comes in, and the next of another address four seconds later."""
    clock = Clock()
    with Gateway(tunnels(1, extra="strangers 1\n"), SYSTEM.fast, environment=clock.environment()) as gate:
        first, late = Client(gate.ports[0x10]), Client(gate.ports[0x10], host="127.0.0.2", registers=False)
        late.send(registration())
        gate.until_counted(0x10, "too many strangers", 1)
        clock.let_pass(2)
        late.send(registration())
        gate.until_counted(0x10, "too many strangers", 2)
        clock.let_pass(2)
        late.register()
        assert reaches(first, late) and reaches(late, first)


def late_answers():
    """An answer to a ping of the last minute counts, an older one doesn't."""
    clock = Clock()
    with Gateway(tunnels(1), SYSTEM.fast, environment=clock.environment()) as gate:
        slow, slower = (Client(gate.ports[0x10], registers=False, answers=False) for _ in range(2))
        for client in slow, slower:
            client.ask()
        let_pass(gate, clock, 7)
        pings = [client.hear(is_ping) for client in (slow, slower)]
        let_pass(gate, clock, 112)
        slow.answer(pings[0])
        gate.until_counted(0x10, "clients", 1)
        let_pass(gate, clock, 1)
        slower.answer(pings[1])
        gate.until_counted(0x10, "from a stranger", 1)
        assert gate.counted(0x10, "clients") == 1


def one_is_refused():
    """What the system doesn't send to a client is counted, to this client too; the others get it, those behind it too."""
    clock = Clock()
    # (a broadcast to four is the first that goes out together; the last of them would be tried again alone)
    for which in range(3):
        trouble = {"TROUBLE_CALL": "sendmmsg", "TROUBLE_AT": str(which + 1), "TROUBLE_ERRNO": str(errno.ENOBUFS)}
        with Gateway(tunnels(1), SYSTEM.troubled, environment={**clock.environment(), **trouble}) as gate:
            speaker, *others = (Client(gate.ports[0x10]) for _ in range(5))
            out = gate.counted(0x10, "out")
            speaker.say(address(0, EVERYONE, GAME), b"all")
            refused = others.pop(which)
            assert all(other.hear()[30:] == b"all" for other in others) and comes_next(speaker, refused)
            report = gate.report()
            assert f"{refused.node.hex().upper()} at {refused.where()}, answered 0 s ago, 1 not sent\n" in report, report
            assert gate.counted(0x10, "lost: not sent", report) == 1
            assert gate.counted(0x10, "out", report) == out + 2, report


def who_stays():
    """A machine that connects is told as up once it has said a frame, or has stayed for a second; and at most one a second is."""
    clock = Clock()
    text = tunnels(1) + "network 20 1 1490 qemu-tcp listen 0 raw\n"
    with Gateway(text, SYSTEM.fast, environment=clock.environment()) as gate:

        def comes():
            return Station(Tcp(socket.create_connection(("127.0.0.1", gate.ports[0x20]))), "raw", 0x20, STATION, gate.nodes[0x20])

        talks = comes()
        until(lambda: gate.counted(0x20, "connected") == 1, "it comes in")
        assert "network 00000020 down" in gate.report(), "nothing was said"
        talks.say(address(0x20, gate.nodes[0x20], GAME), b"I am here")
        gate.told("network 00000020 is up")
        talks.wire.socket.close()
        gate.told("network 00000020 is down")
        for _ in range(2):
            next_one = comes()
            next_one.say(address(0x20, gate.nodes[0x20], GAME), b"I am here")
            until(lambda: gate.counted(0x20, "connected") == 1, "it comes in at once")
            used = processor_time(gate.run.process())
            time.sleep(AGAIN)
            assert processor_time(gate.run.process()) - used < MOST_BUSY * AGAIN, "it is busy meanwhile"
            assert "network 00000020 down" in gate.report(), "no second has passed since the one before"
            clock.let_pass(1)
            gate.told("network 00000020 is up")
            next_one.wire.socket.close()
            gate.told("network 00000020 is down")
        silent = comes()
        until(lambda: gate.counted(0x20, "connected") == 1, "it comes in at once")
        clock.let_pass(0.5)
        assert "network 00000020 down" in gate.report(), "nothing was said, and no second has passed"
        clock.let_pass(0.5)
        gate.told("network 00000020 is up")
        silent.wire.socket.close()


def who_is_refused():
    """A line names an address that isn't allowed: one a second, and the same again after a minute."""
    clock = Clock()
    how = {"program": SYSTEM.fast, "environment": clock.environment()}
    with Gateway(tunnels(1, extra="allow 127.0.0.1\n"), **how) as gate:
        a, b = (Client(gate.ports[0x10], host=host, registers=False) for host in ("127.0.0.2", "127.0.0.3"))
        named = []
        for k, (who, seconds, is_named) in enumerate(((a, 0, 1), (b, 0, 0), (a, 59, 0), (b, 0, 1), (a, 1, 1), (a, 59, 0), (a, 1, 1)), 1):
            clock.let_pass(seconds)
            who.send(registration())
            gate.until_counted(0x10, "address not allowed", k)
            named += [who.where()] * is_named
            said = [it.split()[1] for it in gate.lines if it.endswith(" is refused on 00000010: address not allowed")]
            assert said == named, (k, said, named)


# What wants a call that not every system has.
OF_CALLS = (
    (a_fifo_cannot_be_opened, "getrandom", "no file left for a FIFO", "without one this system has no random numbers to begin with"),
    (one_is_refused, "sendmmsg", "one of several datagrams that is refused", "this system has no call for several"),
)


def main():
    counts = tried(each_fails, each_fails_for_a_while, cannot_wait, nobody_is_taken, no_room_to_receive, no_memory_for_a_second,
                   who_is_silent, who_left, stands_still, who_spoke_meanwhile, each_has_its_turn, what_was_heard_lately, interrupted,
                   few_strangers, late_answers, who_is_refused, an_hour, full_tables, who_stays)
    for test, call, what, why in OF_CALLS:
        if call_of(call) == call:
            counts.run(test)
        else:
            left_out(what, why)
    return counts


if __name__ == "__main__":
    begin(main)

"""Who runs the gateway sees what it knows, by its status socket: show, and what others can do there."""
import contextlib
import errno
import json
import os
import re
import resource
import shutil
import signal
import socket
import stat
import subprocess
import tempfile
import time

from frames import frame
from lab import (ALL_THERE_IS, EVERYONE, GAME, LIMIT, NOBODY, Client, Gateway, address, packet, reaches, rip_response, text_of, tunnels,
                 until)
from passing import halted, passes, unsent, within
from systems import SYSTEM, Windows, fault_words
from trying import begin, left_out, tried

SECTIONS = ("links", "clients", "stations", "peers", "routes", "services", "edge", "counts")
HOSTILE = [b'"', b"\\", b"\x1b[2J\x07", b"a b\tc\r\nd", b"\xff\xfe\x80", b"\x7f", b"</script>&'%s%n", b"\x01" * 47, bytes(range(1, 48)),
           bytes(range(200, 247)), "größe".encode()]
ROUTES = 2048  # that fill the table
MOST_ASKED = 8  # at once
STATION = bytes.fromhex("020000000AA1")
AT_ONCE = 30  # who ask, more than a pipe has places for
RESTED = 2  # seconds in which nobody can be taken
TOO_LONG = "9" * 300  # a word that no question has room for


def asked(path, *words, program=None):
    """What a gateway answers at a path: status, output, complaint."""
    command = [*SYSTEM.quick, program or SYSTEM.program, *words, "--status", path]
    run = subprocess.run(command, capture_output=True, timeout=LIMIT, check=False)
    if SYSTEM is Windows and run.returncode == -signal.SIGKILL:  # (Wine does so to a program that ends too slowly for it)
        run = subprocess.run(command, capture_output=True, timeout=LIMIT, check=False)
    return run.returncode, text_of(run.stdout), text_of(run.stderr)


class Watched(Gateway):
    """A gateway with a status socket; on Windows it is a pipe."""

    def __init__(self, text, **how):
        self.own = tempfile.TemporaryDirectory()
        self.path = rf"\\.\pipe\{os.path.basename(self.own.name)}" if SYSTEM is Windows else os.path.join(self.own.name, "status")
        super().__init__(text, options=["--status", self.path, *how.pop("options", ())], **how)

    def asked(self, *words):
        """What it answers, where it has something to say."""
        status, out, complaint = asked(self.path, *words)
        assert (status, complaint) == (0, ""), (words, status, complaint)
        return out

    def shown(self, section):
        """The records of a section."""
        return json.loads(self.asked("show", section, "--json"))

    def connects(self, line=b""):
        """A connection to it by hand."""
        it = socket.socket(socket.AF_UNIX)
        it.connect(self.path)
        it.settimeout(LIMIT)
        it.sendall(line)
        return it

    def __exit__(self, *fault):
        super().__exit__(*fault)
        self.own.cleanup()


def whole_answer_of(connection):
    """All that comes until the gateway closes the connection, which it doesn't cut."""
    whole = b""
    while piece := connection.recv(65536):
        whole += piece
    return whole


def answer_of(connection):
    """The same where it may be cut."""
    whole = b""
    with contextlib.suppress(ConnectionResetError):
        while piece := connection.recv(65536):
            whole += piece
    return whole


def advertise(client, names=(), routes=()):
    """A client says what it offers, and waits until it was heard."""
    for name in names:
        field = name + bytes(48 - len(name))
        data = b"\0\2" + (0x640).to_bytes(2, "big") + field + address(client.network, client.node, 0x451) + (1).to_bytes(2, "big")
        client.send(packet(address(client.network, EVERYONE, 0x452), client.at(0x452), data))
    for first in range(0, len(routes), 50):
        client.send(rip_response(client.network, client.node, routes[first : first + 50]))
    assert reaches(client, client)


def rows(text):
    """The words of each line of columns, without their heading."""
    return [line.split() for line in text.splitlines()[1:]]


def seen():
    """Links, clients, routes, services and counts are shown, in columns and as JSON, and both say the same."""
    with Watched(tunnels(2) + "network 30 7 1500 qemu-tcp listen 127.0.0.1:0 raw\n") as gate:
        a = Client(gate.ports[0x10])
        advertise(a, [b"SERVER"], [(0x77, 2, 3)])
        node = a.node.hex().upper()
        assert [(it["network"], it["state"], it["cost"]) for it in gate.shown("links")] == [
            ("00000010", "up", 1), ("00000020", "up", 1), ("00000030", "down", 7)]
        assert gate.shown("links")[2]["lacks"] == "nobody is connected" and gate.shown("links")[0]["lacks"] is None
        (client,) = gate.shown("clients")
        host, port = a.udp.getsockname()
        assert (client["network"], client["client"], client["address"]) == ("00000010", node, f"{host}:{port}")
        assert client["trusted"] is False and client["heard"] <= LIMIT and client["not_sent"] == 0
        (route,) = gate.shown("routes")
        assert {**route, "age": 0} == {"network": "00000077", "hops": 2, "ticks": 3, "by": node, "on": "00000010", "age": 0}
        (service,) = gate.shown("services")
        assert (service["type"], service["name"], service["network"], service["node"]) == ("0640", "SERVER", "00000010", node)
        counts = {(it["network"], it["count"]): it["number"] for it in gate.shown("counts")}
        assert counts["00000010", "in"] >= 4 and counts["00000020", "in"] == 0
        assert rows(gate.asked("show", "routes"))[0][:5] == ["00000077", "2", "3", node, "00000010"]
        assert rows(gate.asked("show", "services"))[0][:4] == ["0640", "SERVER", "00000010", node]
        assert rows(gate.asked("show", "links"))[2][:4] == ["00000030", "down", "7", "1500"]
        assert rows(gate.asked("show", "clients"))[0][:3] == ["00000010", node, f"{host}:{port}"]


KEYS = {
    "links": ["network", "state", "cost", "longest", "node", "link", "kinds", "lacks"],
    "clients": ["network", "client", "address", "trusted", "heard", "not_sent", "dropped"],
    "stations": ["network", "station", "heard", "kind", "link"],
    "peers": ["network", "peer", "state", "heard", "in", "out"],
    "routes": ["network", "hops", "ticks", "by", "on", "age"],
    "services": ["type", "name", "network", "node", "socket", "hops", "by", "on", "age"],
    "edge": ["network", "line"],
    "counts": ["network", "count", "number"],
}

# Lines of the edge, as they are shown.
EDGE = ["deny type 20", "permit socket 0455", "deny nearest", "permit route 00001000-00001FFF in", "deny route 000000A1 out", "permit service 0004 LAB* out",
        "deny service * * in", "permit service * MAIN in", "route 000000A2 2 3 via 00001B0204AA", "service 0004 MAIN 000000A2.000000000001.0451 3 via 00001B0204AA"]


def a_field_a_column():
    """Each record has a field for each column, none more and none less, in columns too; and a trusted client's silence is its own."""
    wire = socket.socket(socket.AF_INET, socket.SOCK_DGRAM)
    wire.bind(("127.0.0.1", 0))
    text = tunnels(1, extra="trust 127.0.0.2\ndeny type 20\n") + f"network 20 1 1424\nlink qemu-udp 0 {wire.getsockname()[1]} auto\nlink dosbox 0\n"
    with wire, Watched(text) as gate:
        a, trusted = Client(gate.ports[0x10]), Client(gate.ports[0x10], host="127.0.0.2")
        advertise(a, [b"SERVER"], [(0x77, 2, 3)])
        link = next(it["link"] for it in gate.shown("links") if it["link"].startswith("qemu-udp"))
        here = int(re.match(r"qemu-udp 127.0.0.1:(\d+) ", link)[1])
        inside = packet(address(0x20, EVERYONE, GAME), address(0x20, STATION, GAME))
        wire.sendto(frame("raw", EVERYONE, STATION, inside), ("127.0.0.1", here))
        until(lambda: gate.shown("stations"), "a station")
        assert tuple(KEYS) == SECTIONS
        for section, keys in KEYS.items():
            records = gate.shown(section)
            # (links by peers need libsodium: peers.py)
            assert (records or section == "peers") and all(list(it) == keys for it in records), (section, records)
            headings, *lines = gate.asked("show", section).splitlines()
            assert headings.split() == [it.upper().replace("_", "-") for it in keys], headings
            # (links, and what is counted, have words of several parts)
            has_parts = section in ("links", "stations", "edge", "counts")
            assert len(lines) == len(records) and (has_parts or all(len(it.split()) == len(keys) for it in lines)), lines
        heard = {it["trusted"]: it["heard"] for it in gate.shown("clients")}
        assert 0 <= heard[True] <= LIMIT and 0 <= heard[False] <= LIMIT and reaches(a, trusted), heard


def all_of_it():
    """Without a word all sections are shown, and as JSON in one object."""
    with Watched(tunnels(1)) as gate:
        whole = json.loads(gate.asked("show", "--json"))
        assert list(whole) == ["release", "seconds", *SECTIONS], whole
        text = gate.asked("show")
        assert [it.split()[0] for it in text.split("\n\n")] == [*["NETWORK"] * 5, "TYPE", "NETWORK", "NETWORK"], text


def the_edge():
    """The lines of the edge are shown in their order, as one may write them again."""
    with Watched(tunnels(1) + tunnels(1, 0x20, "".join(f"{it}\n" for it in EDGE))) as gate:
        assert [(it["network"], it["line"]) for it in gate.shown("edge")] == [("00000020", it) for it in EDGE]


def as_the_report():
    """Counts are those of the report, whatever was lost or dropped."""
    with Watched(tunnels(2, extra="clients 1\n")) as gate:
        a = Client(gate.ports[0x10])
        a.send(b"no packet")
        a.say(address(0x99, NOBODY, GAME), b"nowhere")
        a.say(address(0, EVERYONE, GAME), b"all")
        a.send(packet(a.at(), address(0x10, b"\2stran", GAME)))
        assert reaches(a, a)
        report = gate.report()
        shown = {it["count"]: it["number"] for it in gate.shown("counts") if it["network"] == "00000010"}
        part = report.split("network 00000010 up", 1)[1].split("network 00000020", 1)[0]
        told = dict(re.findall(r"(?m)^  (lost: [^:]+|drop \S+): (\d+)$", part))
        assert {"drop NoRoute", "drop OtherSocket", "lost: no IPX", "lost: source of another"} <= told.keys(), part
        assert {key: int(number) for key, number in told.items()} == {key: it for key, it in shown.items() if key not in ("in", "out")}


def hostile_names():
    """Names of services are shown without a byte that a terminal obeys, and are valid JSON, which has each of their bytes."""
    with Watched(tunnels(1, shares=ALL_THERE_IS)) as gate:
        a = Client(gate.ports[0x10])
        advertise(a, HOSTILE)
        text = gate.asked("show", "services")
        assert re.fullmatch(r"[\x20-\x7e\n]*", text) and all(len(it) == 9 for it in rows(text)), text
        names = {it["name"].encode("latin-1") for it in gate.shown("services")}
        assert names == set(HOSTILE), names
        whole = subprocess.run([*SYSTEM.quick, SYSTEM.program, "show", "--json", "--status", gate.path], capture_output=True, check=True)
        json.loads(whole.stdout.decode("ascii"))


def full_tables():
    """Tables that are full are shown whole, in pieces, while packets pass."""
    with Watched(tunnels(1, shares=ALL_THERE_IS)) as gate:
        a = Client(gate.ports[0x10])
        advertise(a, routes=[(0x1000 + k, 1, 2) for k in range(ROUTES)])
        waits = gate.connects(b"show routes json\n")
        for _ in range(20):
            assert reaches(a, a)
        whole = answer_of(waits)
        assert whole[:1] == b"+" and whole[-2:] == b"\0" + b"0", whole[-20:]
        assert [it["network"] for it in json.loads(whole[1:-2])] == [f"{0x1000 + k:08X}" for k in range(ROUTES)]


def metrics():
    """Counts in the text format of Prometheus have each family once, with its samples behind it."""
    with Watched(tunnels(2)) as gate:
        a = Client(gate.ports[0x10])
        a.say(address(0x99, NOBODY, GAME), b"nowhere")
        with socket.socket(socket.AF_INET, socket.SOCK_DGRAM) as stranger:
            stranger.sendto(b"junk", ("127.0.0.1", gate.ports[0x10]))
        assert reaches(a, a)
        text = gate.asked("show", "counts", "--prometheus")
        assert 'ipxr_gateway_dropped_packets_total{network="00000010",reason="NoRoute"} 1\n' in text, text
        assert 'ipxr_gateway_clients{network="00000010"} 1\n' in text
        counts = [it["count"] for it in gate.shown("counts") if it["network"] == "00000010"]
        lost = [it.removeprefix("lost: ") for it in counts if it.startswith("lost: ")]
        assert "in" in counts and "out" in counts and lost, counts
        for name in ("received", "sent"):
            assert f'ipxr_gateway_{name}_packets_total{{network="00000010"}} ' in text, text
        assert all(f'ipxr_gateway_lost_packets_total{{network="00000010",reason="{why}"}} ' in text for why in lost), text
        families = []
        for line in text.splitlines():
            name = re.match(r"(?:# (?:HELP|TYPE) )?(\w+)", line)[1]
            if not families or families[-1] != name:
                families.append(name)
        assert len(families) == len(set(families)), families
        if shutil.which("promtool"):
            run = subprocess.run(["promtool", "check", "metrics"], input=text, capture_output=True, text=True, check=False)
            assert run.returncode == 0 and not run.stderr, run.stderr
        else:
            left_out("Prometheus' own check of the counts", "no promtool")


def an_answer_that_is_lost():
    """Where an answer can't be written that is said, and the status isn't 0, so that nothing takes the place of an older one."""
    with Watched(tunnels(1)) as gate, open("/dev/full", "wb") as full:
        run = subprocess.run([*SYSTEM.quick, SYSTEM.program, "show", "counts", "--prometheus", "--status", gate.path], stdout=full,
                             stderr=subprocess.PIPE, timeout=LIMIT, check=False)
        assert run.returncode == 1 and run.stderr == b"ipxr-gateway: the answer can't be written: No space left on device\n", run
        with subprocess.Popen([*SYSTEM.quick, SYSTEM.program, "show", "events", "--status", gate.path], stdout=full, stderr=subprocess.PIPE) as run:
            until(lambda: Client(gate.ports[0x10]) and run.poll() is not None, "the events that can't be written end")
            assert run.returncode == 1 and run.stderr.read() == b"ipxr-gateway: the answer can't be written: No space left on device\n"


def wrong_questions():
    """Wrong words are told with what was expected; whatever else is said by hand, it answers the next."""
    with Watched(tunnels(1)) as gate:
        assert asked(gate.path, "show", "nothing")[::2] == (1, "expected links, clients, stations, peers, routes, services, edge, counts or events\n")
        assert asked(gate.path, "show", "links", "counts")[0] == 64
        assert asked(gate.path, "show", "links", "--prometheus")[0] == 64
        assert asked(gate.path, "reload", "now")[0] == 64
        for words in (["show", TOO_LONG], ["ping", TOO_LONG], ["trace", TOO_LONG]):
            status, _, complaint = asked(gate.path, *words)
            assert status == 64 and complaint.startswith(f"ipxr-gateway: '{TOO_LONG}': expected "), (words[0], status, complaint)
        assert asked(gate.path + "s", "show")[0] == 1
        assert asked(gate.path, "ping", "nobody")[0] == 1 and asked(gate.path, "trace", "99")[0] == 1
        for line in (b"\n", b"\0\n", b"show \xff\xff\n", b"show links json counts more\n", b"go\n", b"show events\rjson\n"):
            with gate.connects(line) as it:
                assert it.recv(1) in (b"-", b"+"), line
        for line in (b"x" * 4096, b"show links"):
            with gate.connects(line):
                pass
        assert gate.shown("links")


def begun_at(path):
    """What becomes of another gateway that is to listen at a path."""
    words = [*SYSTEM.quick, SYSTEM.program, "--status", path, "/dev/stdin"]
    return subprocess.run(words, input=tunnels(1).encode(), capture_output=True, timeout=LIMIT, check=False)


def who_may_ask():
    """The socket is its owner's and its group's; what a killed gateway left is replaced, and a gateway that runs keeps its own."""
    with Watched(tunnels(1)) as gate:
        assert stat.S_IMODE(os.stat(gate.path).st_mode) == 0o660
        run = begun_at(gate.path)
        assert run.returncode == 1 and f"can't listen there: {fault_words(errno.EADDRINUSE)}".encode() in run.stderr, run
        assert gate.shown("links")
        gate.run.kill()
        gate.run.communicate()
        assert os.path.exists(gate.path)
        gate.start(gate.program, ["--status", gate.path])
        assert gate.shown("links")
        gate.end()
        assert not os.path.exists(gate.path)
        with open(gate.path, "w", encoding="ascii") as it:
            it.write("of somebody")
        assert begun_at(gate.path).returncode == 1
        with open(gate.path, encoding="ascii") as it:
            assert it.read() == "of somebody"


def who_takes_nobody():
    """A gateway doesn't wait for somebody who listens at its path and takes nobody: it says that the path is in use."""
    with tempfile.TemporaryDirectory() as folder, contextlib.ExitStack() as waiting, socket.socket(socket.AF_UNIX) as silent:
        path = os.path.join(folder, "status")
        silent.bind(path)
        silent.listen(0)
        with contextlib.suppress(BlockingIOError):
            while True:
                one = waiting.enter_context(socket.socket(socket.AF_UNIX))
                one.setblocking(False)
                one.connect(path)
        run = begun_at(path)
        assert run.returncode == 1 and f"can't listen there: {fault_words(errno.EADDRINUSE)}".encode() in run.stderr, run


def many_ask():
    """Eight may be connected at once; another is told so, and comes in once one has left."""
    with Watched(tunnels(1)) as gate:
        some = [gate.connects(b"show events\n") for _ in range(MOST_ASKED)]
        for it in some:
            assert it.recv(1) == b"+"
        assert asked(gate.path, "show")[::2] == (1, "too many ask at once: expected fewer\n")
        with gate.run.halted():
            late = [gate.connects(b"show\n") for _ in range(MOST_ASKED)]
        for it in late:
            assert whole_answer_of(it) == b"-too many ask at once: expected fewer\n\0" + b"1", "it isn't cut, though nobody heard the question"
            it.close()
        some.pop().close()
        until(lambda: asked(gate.path, "show", "links")[0] == 0, "one may ask again")
        for it in some:
            it.close()


def descriptors_are_passed():
    """What somebody passes with a question, or while too many ask, so that closing it would wait, holds up neither players nor others who ask"""
    with Watched(tunnels(1)) as gate:
        one, other = Client(gate.ports[0x10]), Client(gate.ports[0x10])
        assert reaches(one, other)
        some = [gate.connects(b"show events\n") for _ in range(MOST_ASKED)]
        for it in some:
            assert it.recv(1) == b"+"
        for question in b"show links\n", b"":
            held, far = unsent()
            late = gate.connects()
            with halted(gate):
                passes(late, question or b"?", [held])
            if question:
                assert whole_answer_of(late)[:1] in (b"", b"-")
                some.pop().close()
            assert reaches(one, other) and reaches(other, one), "nobody is heard"
            late.close()
            far.close()
        until(lambda: asked(gate.path, "show", "links")[0] == 0, "one may ask again")
        for it in some:
            it.close()


def passed_within():
    """Where closing what somebody passed takes an hour, nobody comes in to ask meanwhile, which is told; all else goes on, and the gateway ends."""
    with Watched(tunnels(1)) as gate:
        one, other = Client(gate.ports[0x10]), Client(gate.ports[0x10])
        asks, kept = gate.connects(), []
        for by in asks, gate.connects():
            inner, keeps = within()
            kept += keeps
            with halted(gate):
                passes(by, b"show links\n", [inner])
            assert reaches(one, other) and reaches(other, one), "nobody is heard"
        waits = gate.connects()
        gate.told("nobody can ask at")
        assert reaches(one, other) and reaches(other, one), "nobody is heard"
        inner, keeps = within()
        with halted(gate):
            passes(waits, b"show links\n", [inner])
        gate.run.order(SYSTEM.end)
        gate.run.communicate(timeout=LIMIT)
        for it in kept + [*keeps]:
            it.close()


def processor_time(process):
    """Seconds of a processor that a process has used."""
    with open(f"/proc/{process}/stat", encoding="ascii") as it:
        words = it.read().rpartition(")")[2].split()
    return (int(words[11]) + int(words[12])) / os.sysconf("SC_CLK_TCK")


def no_room_to_ask():
    """Where the system has no room for one who asks, the gateway says so once, rests, and answers him once there is room."""
    with Watched(tunnels(1)) as gate:
        process = gate.run.process()
        files = len(os.listdir(f"/proc/{process}/fd"))
        before = resource.prlimit(process, resource.RLIMIT_NOFILE, (files, resource.getrlimit(resource.RLIMIT_NOFILE)[1]))
        with gate.connects(b"show links\n") as late:
            assert gate.told("nobody can ask at").endswith(f" now: {fault_words(errno.EMFILE)}")
            used = processor_time(process)
            time.sleep(RESTED)
            used = processor_time(process) - used
            assert used < RESTED / 10, f"{used} s of a processor"
            gate.report()
            assert sum("nobody can ask at" in line for line in gate.lines) == 1
            resource.prlimit(process, resource.RLIMIT_NOFILE, before)
            assert answer_of(late).startswith(b"+")


def nobody_reads():
    """Who asks for much and reads nothing holds up nobody: packets pass, and others are answered."""
    with Watched(tunnels(2, shares=ALL_THERE_IS, extra="rate none\n")) as gate:
        a, b = Client(gate.ports[0x10]), Client(gate.ports[0x20])
        advertise(a, routes=[(0x1000 + k, 1, 2) for k in range(ROUTES)])
        some = [gate.connects(b"show json\n") for _ in range(MOST_ASKED - 1)]
        for k in range(200):
            assert reaches(a, b, b"%d" % k)
        assert len(gate.shown("routes")) == ROUTES
        assert all(answer_of(it).endswith(b"\0" + b"0") for it in some), "who reads late is told all"


@contextlib.contextmanager
def following(gate):
    """Somebody who follows events, once he is told of one."""
    words = [*SYSTEM.quick, SYSTEM.program, "show", "events", "--status", gate.path]
    with subprocess.Popen(words, stdout=subprocess.PIPE, stderr=subprocess.PIPE) as run:
        yield run
        run.kill()


def all_at_once():
    """Of thirty who ask at once each has an answer, be it that too many ask; and none is told that the gateway has ended."""
    with Watched(tunnels(1)) as gate:
        words = [*SYSTEM.quick, SYSTEM.program, "show", "links", "--status", gate.path]
        runs = [subprocess.Popen(words, stdout=subprocess.PIPE, stderr=subprocess.PIPE) for _ in range(AT_ONCE)]
        for run in runs:
            out, complaint = run.communicate(timeout=LIMIT)
            is_shown = run.returncode == 0 and out.startswith(b"NETWORK ")
            assert is_shown or (run.returncode, text_of(complaint)) == (1, "too many ask at once: expected fewer\n"), (run.returncode, complaint)
        assert gate.shown("links")


def many_follow():
    """Eight may follow at once; another is told so, and comes in once one has left."""
    with Watched(tunnels(1)) as gate, contextlib.ExitStack() as some:
        runs = [some.enter_context(following(gate)) for _ in range(MOST_ASKED)]
        until(lambda: asked(gate.path, "show")[::2] == (1, "too many ask at once: expected fewer\n"), "nobody more may ask")
        client = Client(gate.ports[0x10])
        for run in runs:
            assert client.node.hex().upper().encode() in run.stdout.readline()
        runs[0].kill()
        until(lambda: asked(gate.path, "show", "links")[0] == 0, "one may ask again")


def another_at_its_pipe():
    """A gateway keeps its pipe: another at the same path doesn't begin; once it has ended, one does."""
    with Watched(tunnels(1)) as gate:
        with tempfile.NamedTemporaryFile(suffix=".conf") as file:
            file.write(tunnels(1).encode())
            file.flush()
            words = [*SYSTEM.quick, SYSTEM.program, "--status", gate.path, file.name]
            run = subprocess.run(words, capture_output=True, timeout=LIMIT, check=False)
        assert run.returncode == 1 and f"can't listen there: {fault_words(errno.EADDRINUSE)}" in text_of(run.stderr), run
        assert gate.shown("links")
        gate.end()
        gate.start(gate.program, ["--status", gate.path])
        assert gate.shown("links")


def read_anew():
    """On Windows too, a file is read anew by reload; a wrong one changes nothing, and its faults are told."""
    with Watched(tunnels(1)) as gate:
        with open(gate.configuration, "a", encoding="ascii") as it:
            it.write(tunnels(1, 0x20))
        assert "1 added" in gate.asked("reload")
        assert len(gate.shown("links")) == 2
        with open(gate.configuration, "a", encoding="ascii") as it:
            it.write("networks\n")
        status, out, complaint = asked(gate.path, "reload")
        assert (status, out) == (1, "") and complaint.startswith(f"{gate.configuration}:3: 'networks': expected"), complaint
        assert len(gate.shown("links")) == 2
        gate.run.order(SYSTEM.end)
        assert text_of(gate.run.communicate(timeout=LIMIT)[1]) == complaint, "the gateway complains of it too"


def on_windows():
    """What Windows' pipe shows and refuses."""
    return tried(seen, a_field_a_column, all_of_it, the_edge, as_the_report, metrics, all_at_once, many_follow, another_at_its_pipe, read_anew)


def main():
    if SYSTEM is Windows:
        return on_windows()
    return tried(seen, a_field_a_column, all_of_it, the_edge, as_the_report, hostile_names, full_tables, metrics, an_answer_that_is_lost,
                 wrong_questions, who_may_ask, who_takes_nobody, many_ask, descriptors_are_passed, passed_within, no_room_to_ask, nobody_reads)


if __name__ == "__main__":
    begin(main)

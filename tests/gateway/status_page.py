"""Browsers see by HTTP what the gateway knows: --status-web. Whatever they say, and however slowly they read, players lose nothing."""
import base64
import calendar
import contextlib
import errno
import hashlib
import http.client
import json
import os
import re
import socket
import subprocess
import tempfile
import threading
import time

from calls import call_of
from lab import ALL_THERE_IS, LIMIT, Client, Clock, Gateway, free_ports, reaches, text_of, tunnels, until
from status import HOSTILE, KEYS, ROUTES, Watched, advertise, processor_time
from systems import SYSTEM, TOP, Windows, fault_words
from troubles import Trouble
from trying import begin, left_out, tried

HERE = "127.0.0.1:0"  # any port of this machine
MANY = 100  # browsers at once
MOST = 8  # that are heard at once
MOST_EVENTS = 32
MOST_HEAD = 8192
LITTLE = 4096  # bytes that the system keeps for who doesn't read
GET = b"GET / HTTP/1.1\r\nHost: 127.0.0.1\r\n"
ALL = b"GET /status.json HTTP/1.1\r\nHost: 127.0.0.1\r\n\r\n"
LAST_CHUNK = b"\r\n0\r\n\r\n"
TO_ASK, TO_TAKE, TO_LEAVE = 10, 15, 30  # seconds
MOST_USED = 0.2  # of a processor, by a gateway that has nothing to do
RESTED = 2  # seconds in which nobody can be taken


def sources(name):
    with open(os.path.join(TOP, "gateway", "monitoring", name), encoding="utf-8") as it:
        return it.read()


def port_of(gate):
    """Where its page is."""
    line = next(it for it in gate.lines if it.startswith("the status is at "))
    return int(re.fullmatch(r"the status is at http://\S+:(\d+)/", line)[1])


class Shown(Gateway):
    """A gateway with a page of its status."""

    def __init__(self, text, place=HERE, **how):
        super().__init__(text, options=["--status-web", place], **how)


def asked(gate, path="/", method="GET", host="127.0.0.1", **fields):
    """What its page answers: the answer, with its fields, and its bytes."""
    with contextlib.closing(http.client.HTTPConnection(host, port_of(gate), timeout=LIMIT)) as it:
        it.request(method, path, headers=fields)
        answer = it.getresponse()
        return answer, answer.read()


def status_of(gate):
    """What it shows, as JSON."""
    answer, body = asked(gate, "/status.json")
    assert answer.status == 200, answer.status
    return json.loads(body)


def connection(gate, line=b"", room=None):
    """A connection to it by hand; the system keeps as much of what comes as there is room for."""
    it = socket.socket()
    if room is not None:
        it.setsockopt(socket.SOL_SOCKET, socket.SO_RCVBUF, room)
    it.settimeout(LIMIT)
    it.connect(("127.0.0.1", port_of(gate)))
    it.sendall(line)
    return it


def all_of(it):
    """All that comes until the gateway closes a connection."""
    whole = b""
    with contextlib.suppress(ConnectionError):
        while piece := it.recv(65536):
            whole += piece
    return whole


def by_hand(gate, line):
    """The same of who says something, and then that he says no more."""
    with connection(gate) as it:
        with contextlib.suppress(ConnectionError):
            it.sendall(line)
            it.shutdown(socket.SHUT_WR)
        return all_of(it)


def has_gone(it):
    """Whether the gateway has closed a connection."""
    it.setblocking(False)
    try:
        return it.recv(65536) == b""
    except BlockingIOError:
        return False
    except ConnectionError:
        return True


def is_heard(it):
    """Whether the gateway still hears what is said on a connection."""
    try:
        it.send(b"more")
        return True
    except ConnectionError:
        return False


class Players:
    """Two who play on two networks all the while, and say how much was lost."""

    def __init__(self, gate):
        self.a, self.b = Client(gate.ports[0x10]), Client(gate.ports[0x20])
        self.over, self.fault, self.played = threading.Event(), None, 0
        self.thread = threading.Thread(target=self.play, daemon=True)

    def play(self):
        while not self.over.is_set() and self.fault is None:
            for one, other in (self.a, self.b), (self.b, self.a):
                if not reaches(one, other):
                    self.fault = f"packet {self.played} is lost"
            self.played += 1

    def __enter__(self):
        self.thread.start()
        return self

    def __exit__(self, kind, *_):
        if kind is None:
            before = self.played
            until(lambda: self.fault or self.played > before + 1, "the players play on")
        self.over.set()
        self.thread.join(LIMIT)
        assert kind is not None or (self.fault is None and self.played > 0), self.fault


# ---- What is there ----


def the_page():
    """The page is that of the sources, by GET and, without its bytes, by HEAD; it may run its own script and ask its own gateway."""
    page = sources("page.html")
    with Shown(tunnels(1)) as gate:
        answer, body = asked(gate)
        assert answer.status == 200 and body.decode() == page
        assert answer.headers["Content-Type"] == "text/html; charset=utf-8" and answer.headers["Content-Length"] == str(len(body))
        rules = dict(it.strip().partition(" ")[::2] for it in answer.headers["Content-Security-Policy"].split(";"))
        for tag in "script", "style":
            (text,) = re.findall(rf"(?s)<{tag}>(.*?)</{tag}>", page)
            hashed = base64.b64encode(hashlib.sha256(text.encode()).digest()).decode()
            assert rules.pop(f"{tag}-src") == f"'sha256-{hashed}'", f"{tag}: `tools/gateway page` was forgotten"
        assert rules == {"default-src": "'none'", "connect-src": "'self'", "img-src": "data:", "base-uri": "'none'", "form-action": "'none'",
                         "frame-ancestors": "'none'"}, rules
        head, nothing = asked(gate, method="HEAD")
        assert head.status == 200 and nothing == b""
        for it in answer, head:
            it.headers.replace_header("Date", "now")
        assert head.headers.items() == answer.headers.items()
    assert not re.search(r"https?:|//[a-z]|innerHTML|outerHTML|insertAdjacent|document\.write|\bon[a-z]+=|style=", re.sub(r"// .*", "", page))


def what_all_have():
    """Each answer has the date, and isn't kept, nor framed, nor taken for what it isn't, nor lent to other pages."""
    with Shown(tunnels(1)) as gate:
        for path in "/", "/status.json", "/metrics", "/nothing":
            answer, _ = asked(gate, path, Origin="http://evil.example")
            told = calendar.timegm(time.strptime(answer.headers["Date"], "%a, %d %b %Y %H:%M:%S GMT"))
            assert abs(told - time.time()) <= LIMIT, answer.headers["Date"]
            assert answer.headers["Cache-Control"] == "no-store" and answer.headers["X-Content-Type-Options"] == "nosniff"
            assert "frame-ancestors 'none'" in answer.headers["Content-Security-Policy"]
            assert answer.headers["Cross-Origin-Resource-Policy"] == "same-origin" and answer.headers["Referrer-Policy"] == "no-referrer"
            assert not any(it.lower().startswith("access-control") for it in answer.headers.keys())


def as_json():
    """/status.json has what the gateway knows, with the fields of `show --json`."""
    with Shown(tunnels(2) + "network 30 7 1500 qemu-tcp listen 127.0.0.1:0 raw\n") as gate:
        a = Client(gate.ports[0x10])
        advertise(a, [b"SERVER"], [(0x77, 2, 3)])
        status = status_of(gate)
        assert list(status) == ["release", "seconds", "clock", *KEYS, "events"], list(status)
        assert all(list(it) == keys for section, keys in KEYS.items() for it in status[section])
        assert [(it["network"], it["state"]) for it in status["links"]] == [("00000010", "up"), ("00000020", "up"), ("00000030", "down")]
        assert [(it["client"], it["address"]) for it in status["clients"]] == [(a.node.hex().upper(), a.where())]
        assert [it["network"] for it in status["routes"]] == ["00000077"] and [it["name"] for it in status["services"]] == ["SERVER"]
        assert any(it["event"] == "client comes" and it["address"] == a.where() for it in status["events"])
        assert all(0 <= it["seconds"] <= status["clock"] for it in status["events"])
        answer, body = asked(gate, "/status.json", "HEAD")
        assert (answer.status, answer.headers["Content-Type"], body) == (200, "application/json", b"")


def as_the_socket_has_it():
    """/status.json has the same values as `show --json`, and /metrics as `show counts --prometheus`."""
    with Watched(tunnels(2), options=["--status-web", HERE]) as gate:
        a = Client(gate.ports[0x10])
        a.send(b"no packet")
        advertise(a, [b"SERVER"], [(0x77, 2, 3)])

        def is_the_same():
            whole, status = json.loads(gate.asked("show", "--json")), status_of(gate)
            return {it: status[it] for it in whole} == whole and whole

        assert until(is_the_same, "the same values")["counts"]
        strip = re.compile(r"(?m)^ipxr_gateway_uptime_seconds \d+$")
        until(lambda: strip.sub("", gate.asked("show", "counts", "--prometheus")) == strip.sub("", asked(gate, "/metrics")[1].decode()),
              "the same counts")
        assert asked(gate, "/metrics")[0].headers["Content-Type"].startswith("text/plain")


def comings(events):
    """Who came, by a list of events. (on a slow machine the first have left already, and that is told between these)"""
    return [it["address"] for it in events if it["event"] == "client comes"]


def the_last_events():
    """The last 32 events are there, the newest last, though nobody follows them."""
    with Shown(tunnels(1, extra="strangers none\n")) as gate:
        seen = []
        for _ in range(MOST_EVENTS + 3):
            with contextlib.closing(Client(gate.ports[0x10])) as it:
                seen.append(it.where())
        events = until(lambda: (lambda it: seen[-1] in comings(it) and it)(status_of(gate)["events"]), "the last event")
        came = comings(events)
        assert came == seen[-len(came):] and len(events) == MOST_EVENTS, (came, seen)


def hostile_names():
    """Names of services are valid JSON of ASCII, which has each of their bytes, in services and in events."""
    with Shown(tunnels(1, shares=ALL_THERE_IS)) as gate:
        advertise(Client(gate.ports[0x10]), HOSTILE)
        body = until(lambda: (lambda it: it.count(b"service comes") == len(HOSTILE) and it)(asked(gate, "/status.json")[1]), "all events")
        status = json.loads(body.decode("ascii"))
        for names in status["services"], [it for it in status["events"] if it["event"] == "service comes"]:
            assert {it["name"].encode("latin-1") for it in names} == set(HOSTILE), names


def full_tables():
    """Tables that are full are there whole, in pieces, while players lose nothing; also for HTTP/1.0, where they end with the connection."""
    with Shown(tunnels(2, shares=ALL_THERE_IS, extra="rate none\n")) as gate:
        advertise(Client(gate.ports[0x10]), routes=[(0x1000 + k, 1, 2) for k in range(ROUTES)])
        routes = [f"{0x1000 + k:08X}" for k in range(ROUTES)]
        with Players(gate):
            for _ in range(5):
                assert [it["network"] for it in status_of(gate)["routes"]] == routes
            head, _, body = by_hand(gate, b"GET /status.json HTTP/1.0\r\n\r\n").partition(b"\r\n\r\n")
            assert b"chunked" not in head and [it["network"] for it in json.loads(body)["routes"]] == routes


# ---- What is refused ----

REFUSED = [
    (404, b"GET /favicon.ico HTTP/1.1\r\nHost: 127.0.0.1\r\n\r\n"), (404, b"GET /status.json/ HTTP/1.1\r\nHost: 127.0.0.1\r\n\r\n"),
    (404, b"GET //status.json HTTP/1.1\r\nHost: 127.0.0.1\r\n\r\n"), (404, b"GET /../etc/passwd HTTP/1.1\r\nHost: 127.0.0.1\r\n\r\n"),
    (404, b"HEAD /%2e HTTP/1.1\r\nHost: 127.0.0.1\r\n\r\n"), (404, b"GET /metrics\xff HTTP/1.0\r\n\r\n"),
    (405, b"POST / HTTP/1.1\r\nHost: 127.0.0.1\r\nContent-Length: 3\r\n\r\nabc"), (405, b"DELETE /x HTTP/1.1\r\nHost: 127.0.0.1\r\n\r\n"),
    (405, b"OPTIONS / HTTP/1.1\r\nHost: 127.0.0.1\r\n\r\n"), (405, b"get / HTTP/1.1\r\nHost: 127.0.0.1\r\n\r\n"),
    (400, b"GET / HTTP/1.1\r\n\r\n"), (400, b"\r\n\r\nGET /\r\n\r\n"), (400, b"GET / HTTP/1.1\nHost: 127.0.0.1\n\n"),
    (400, b"GET http://127.0.0.1/ HTTP/1.1\r\nHost: 127.0.0.1\r\n\r\n"), (400, b"\x16\x03\x01\x02\x00\x01\r\n"),
    (400, GET + b"Host: 127.0.0.1\r\n\r\n"), (400, GET + b"no colon\r\n\r\n"), (400, GET + b"A : b\r\n\r\n"), (400, GET + b"A: \0\r\n\r\n"),
    (400, b"PRI * HTTP/2.0\r\n\r\nSM\r\n\r\n"), (505, b"GET / HTTP/2.0\r\n\r\n"),
    (431, GET + b"A: " + b"b" * MOST_HEAD + b"\r\n\r\n"), (431, b"x" * (1 << 20)), (431, GET + b"A: b\r\n" * 5000),
]


def wrong_requests():
    """What is wrong, or isn't there, is refused with its status and a sentence; the page itself is never told."""
    with Shown(tunnels(1)) as gate:
        for status, line in REFUSED:
            head, _, body = by_hand(gate, line).partition(b"\r\n\r\n")
            words = head.split(b"\r\n")
            assert words[0].startswith(b"HTTP/1.1 %d " % status), (status, line[:60], words[0])
            length = next(int(it.split()[1]) for it in words if it.startswith(b"Content-Length: "))
            assert (body == b"" and line.startswith(b"HEAD")) or (len(body) == length and body.endswith(b".\n")), (line[:60], body)
            assert status != 405 or b"Allow: GET, HEAD" in words
        for line in b"", b"GET", b"GET / HTTP/1.1\r\nHost: 127.0.0.1\r\n", b"\r\n" * 30:
            assert by_hand(gate, line) == b"", line
        assert by_hand(gate, GET + b"A: " + b"b" * (MOST_HEAD - len(GET) - 7) + b"\r\n\r\n").startswith(b"HTTP/1.1 200 ")
        assert by_hand(gate, b"\r\n" + GET + b"\r\nGET /metrics HTTP/1.1\r\nHost: 127.0.0.1\r\n\r\n").count(b"HTTP/1.1 200 ") == 1


def other_hosts():
    """Whoever asks for another host than an address of numbers, localhost, or a name behind the address, is refused and told why."""
    names = "127.0.0.1:0,Gateway.lan,pi_4.local"
    with Shown(tunnels(1), names) as gate:
        for host in ("127.0.0.1", "127.0.0.1:8080", "192.168.1.7:80", "[::1]:8080", "[fd00::1]", "localhost", "LOCALHOST:1", "gateway.lan:80",
                     "PI_4.LOCAL"):
            assert asked(gate, Host=host)[0].status == 200, host
        for host in ("evil.example", "evil.example:8080", "127.0.0.1.evil.example", "localhost.evil.example", "gateway", "gateway.lan.", "lan",
                     "[evil]", "127.0.0.1@evil", "127.0.0.1/8", "1.2.3.256", "127.1", "", ":80", "127.0.0.1:80x", "gateway.lan,pi_4.local", "[::1", "::1"):
            for path in "/", "/status.json", "/metrics", "/nothing":
                answer, body = asked(gate, path, Host=host)
                assert answer.status == 403 and b"another host" in body, (host, path, answer.status)


EXPECTED = "an address such as 127.0.0.1:8080 behind --status-web, and names of this machine behind commas"


def wrong_addresses():
    """An address that is none is told with the command line; one that another program has, with the system's words."""
    for words in ("", "here:8080", "127.0.0.1", "1.2.3.4:70000", "127.0.0.1:1 2", "127.0.0.1:1#", "127.0.0.1:1,", "127.0.0.1:1,a b",
                  "127.0.0.1:1,<x>", "127.0.0.1:1,a,,b", ",a", "127.0.0.1:1," + "a" * 300):
        run = subprocess.run([*SYSTEM.quick, SYSTEM.program, "--status-web", words, "none.conf"], capture_output=True, timeout=LIMIT, check=False)
        told = text_of(run.stderr).splitlines()[0]
        assert run.returncode == 64 and told == f"ipxr-gateway: '{words}': expected {EXPECTED}", run
    run = subprocess.run([*SYSTEM.quick, SYSTEM.program, "none.conf", "--status-web"], capture_output=True, timeout=LIMIT, check=False)
    assert run.returncode == 64 and f"the command line ends: expected {EXPECTED}\n" in text_of(run.stderr), run
    with socket.socket() as other, tempfile.NamedTemporaryFile(suffix=".conf") as text:
        other.bind(("127.0.0.1", 0))
        other.listen()
        text.write(tunnels(1).encode())
        text.flush()
        place = f"127.0.0.1:{other.getsockname()[1]}"
        run = subprocess.run([*SYSTEM.quick, SYSTEM.program, "--status-web", place, text.name], capture_output=True, timeout=LIMIT, check=False)
        told = text_of(run.stderr)
        assert run.returncode == 1 and told.startswith(f"ipxr-gateway: --status-web {place}: can't listen there: "), run
        assert SYSTEM is Windows or told == f"ipxr-gateway: --status-web {place}: can't listen there: {fault_words(errno.EADDRINUSE)}\n"


def where_it_is():
    """A port alone is this machine's own, and an address may be one of IPv6."""
    (port,) = free_ports(1)
    with Shown(tunnels(1), str(port)) as gate:
        assert f"the status is at http://127.0.0.1:{port}/" in gate.lines and asked(gate)[0].status == 200
    try:
        with socket.socket(socket.AF_INET6) as it:
            it.bind(("::1", 0))
    except OSError:
        left_out("the page of the status at an address of IPv6", "this machine has none")
        return
    with Shown(tunnels(1), "[::1]:0") as gate:
        assert asked(gate, host="::1")[0].status == 200


# ---- Who holds up nobody ----


def many_at_once():
    """A hundred connections that say nothing keep nobody out: newcomers put out those who did nothing for longest; players lose nothing."""
    with Shown(tunnels(2, extra="rate none\n")) as gate, Players(gate), contextlib.ExitStack() as all_:
        silent = [all_.enter_context(connection(gate)) for _ in range(MANY)]
        for _ in range(3):
            assert asked(gate)[0].status == 200
        until(lambda: sum(map(has_gone, silent)) >= MANY - MOST, "the first are put out")


def many_ask():
    """A hundred browsers that ask at once, again and again until they are answered, are all answered; players lose nothing."""
    with Shown(tunnels(2, extra="rate none\n")) as gate, Players(gate):
        answers = []

        def asks():
            def is_answered():
                with contextlib.suppress(OSError, http.client.HTTPException):
                    return asked(gate, "/status.json")[0].status == 200

            answers.append(until(is_answered, "an answer"))

        threads = [threading.Thread(target=asks, daemon=True) for _ in range(MANY)]
        for it in threads:
            it.start()
        for it in threads:
            it.join(LIMIT)
        assert answers == [True] * MANY, len(answers)


def set_by_clock(text):
    """A gateway whose clock the test sets, with a page, where the system has such."""
    clock = Clock()
    return clock, Shown(text, program=SYSTEM.troubled, environment=clock.environment())


def slow_ones():
    """Who takes more than ten seconds to ask, or fifteen to take anything, or thirty to close, is put out; a byte a second is no excuse."""
    clock, shown = set_by_clock(tunnels(1, shares=ALL_THERE_IS))
    with shown as gate:
        a = Client(gate.ports[0x10])
        advertise(a, routes=[(0x1000 + k, 1, 2) for k in range(ROUTES)])
        drips, stays = connection(gate), connection(gate, GET + b"\r\n")
        stuck = [connection(gate, ALL, LITTLE) for _ in range(2)]
        until(lambda: asked(gate)[0].status == 200, "an answer")
        for second in range(TO_ASK):
            drips.send(GET[second : second + 1])
            clock.let_pass(1)
            assert reaches(a, a) and not has_gone(drips)
        clock.let_pass(2)
        until(lambda: has_gone(drips), "who drips is put out")
        assert all_of(stays).endswith(b"</html>\n")
        assert is_heard(stays), "who stays is put out too soon"
        clock.let_pass(TO_TAKE + TO_LEAVE)
        until(lambda: not is_heard(stays), "who stays is put out")
        for it in stuck:
            it.setblocking(True)
            it.settimeout(LIMIT)
            assert not all_of(it).endswith(LAST_CHUNK), "what wasn't taken in time ends before its end"
        assert asked(gate)[0].status == 200


def nobody_reads():
    """Who asks for much and reads nothing holds up nobody: players lose nothing, others are answered, and who reads late gets all of it."""
    with Shown(tunnels(2, shares=ALL_THERE_IS, extra="rate none\n")) as gate:
        advertise(Client(gate.ports[0x10]), routes=[(0x1000 + k, 1, 2) for k in range(ROUTES)])
        with Players(gate):
            some = [connection(gate, ALL, LITTLE) for _ in range(MOST - 1)]
            for _ in range(5):
                assert len(status_of(gate)["routes"]) == ROUTES
            assert all_of(some[-1]).endswith(LAST_CHUNK)


def half_closed():
    """Who says that he says no more is told all; if he doesn't read it, the gateway doesn't run hot."""
    with Shown(tunnels(1, shares=ALL_THERE_IS)) as gate:
        a = Client(gate.ports[0x10])
        advertise(a, routes=[(0x1000 + k, 1, 2) for k in range(ROUTES)])
        assert by_hand(gate, ALL).endswith(LAST_CHUNK)
        if SYSTEM is Windows:
            return
        with connection(gate, ALL, LITTLE) as it:
            it.shutdown(socket.SHUT_WR)
            assert reaches(a, a)
            used = processor_time(gate.run.process())
            time.sleep(RESTED)
            used = processor_time(gate.run.process()) - used
            assert used < RESTED * MOST_USED, f"{used} s of a processor"
            it.settimeout(LIMIT)
            assert all_of(it).endswith(LAST_CHUNK)


def a_reload_meanwhile():
    """A reload that takes networks away while somebody reads slowly leaves him valid JSON, and the page goes on."""
    several = tunnels(12, shares="100 100")
    with Watched(several, options=["--status-web", HERE]) as gate:
        advertise(Client(gate.ports[0x10]), routes=[(0x1000 + k, 1, 2) for k in range(100)])
        slow = [connection(gate, ALL, LITTLE) for _ in range(MOST - 2)]
        for _ in range(10):
            for count in 1, 12, 5:
                with open(gate.configuration, "w", encoding="utf-8") as it:
                    it.write(tunnels(count, shares="100 100"))
                gate.asked("reload")
                assert len(status_of(gate)["links"]) == count
        for it in slow:
            body = all_of(it).split(b"\r\n\r\n", 1)[1]
            text, rest = b"", body
            while rest:
                size, _, rest = rest.partition(b"\r\n")
                text, rest = text + rest[: int(size, 16)], rest[int(size, 16) + 2 :]
            assert "routes" in json.loads(text)


def no_room():
    """Where the system has no room for a browser, the gateway says so once, rests, and answers him once there is room."""
    trouble = Trouble()
    with Shown(tunnels(1), program=SYSTEM.troubled, environment=trouble.environment()) as gate:
        with trouble.fails("accept", errno.EMFILE):
            late = connection(gate, GET + b"\r\n")
            assert gate.told("nobody can look at").endswith(f"the page of the status now: {fault_words(errno.EMFILE)}")
            used = processor_time(gate.run.process())
            time.sleep(RESTED)
            used = processor_time(gate.run.process()) - used
            assert used < RESTED * MOST_USED, f"{used} s of a processor"
        assert all_of(late).endswith(b"</html>\n")
        gate.report()
        assert sum("nobody can look" in line for line in gate.lines) == 1


def calls_that_fail():
    """A browser whose connection the system refuses to read or to send on is dropped, and the next is answered; players go on."""
    for name, fault in (("recv", errno.ECONNRESET), ("recv", errno.ENOMEM), ("send", errno.EPIPE), ("send", errno.ENOBUFS),
                        ("fcntl", errno.EINVAL)):
        trouble = Trouble()
        with Shown(tunnels(2), program=SYSTEM.troubled, environment=trouble.environment()) as gate:
            a, b = Client(gate.ports[0x10]), Client(gate.ports[0x20])
            with trouble.fails(call_of(name), fault):
                some = [connection(gate, GET + b"\r\n") for _ in range(2 * MOST)]
                for _ in range(10):
                    assert reaches(a, b), name
            assert asked(gate)[0].status == 200, name
            for it in some:
                it.close()


def an_end_meanwhile():
    """A gateway that ends closes what is open, with whoever is connected in whatever way."""
    with Shown(tunnels(1, shares=ALL_THERE_IS)) as gate:
        advertise(Client(gate.ports[0x10]), routes=[(0x1000 + k, 1, 2) for k in range(ROUTES)])
        some = [connection(gate, it) for it in (b"", b"GET", GET + b"\r\n", ALL, b"POST / HTTP/1.1\r\n\r\n")]
        assert asked(gate)[0].status == 200
        gate.end()
        assert all(all_of(it) is not None for it in some)


def main():
    here = [the_page, what_all_have, as_json, the_last_events, hostile_names, full_tables, wrong_requests, other_hosts, wrong_addresses, where_it_is,
            many_at_once, many_ask, nobody_reads, half_closed, an_end_meanwhile]
    if SYSTEM is Windows:
        left_out("the page of the status beside the status socket, and calls that fail", "it is Linux' own")
        return tried(*here)
    return tried(*here, as_the_socket_has_it, slow_ones, a_reload_meanwhile, no_room, calls_that_fail)


if __name__ == "__main__":
    begin(main)

"""Links by WebSocket: DOSBoxes in pages, stations of emulators in pages, and whoever else connects there."""
import contextlib
import itertools
import multiprocessing
import random
import select
import socket
import struct
import threading
import time

import browsers
from changed import Changed
from frames import KINDS, Station, unframed
from frames import frame as framed
from lab import (AGAIN, EVERYONE, GAME, KEYED, Client, Clock, Gateway, address, comes_next, free_ports, fresh, packet, played_anew, reaches,
                 reaches_again, until)
from links import is_closed
from pages import (BINARY, CLOSE, CONTINUED, PING, PONG, TEXT, Frames, Page, Refused, WebSocket, accepts, answer_to, connection, frame,
                   head)
from systems import SYSTEM
from trying import begin, figures, has_linux, tried

NODES = [bytes([2, 0, 0, 0, 0xB, k]) for k in range(1, 99)]
LONGEST = 1500
MOST_OF_LINK = 240  # pages
CROWD = 200  # connections at once
SLOW = 1.0  # seconds between two bytes of a slow request
TIME_TO_ASK, IDLE = 5, 10  # seconds for a request, and until who does nothing gives way
STAYS = 30  # seconds for which who doesn't answer is a client
SECONDS = 4  # that a flood lasts
EVERY = 1 / 35  # seconds between two words of a player
MOST_LOST = 0.02
FLOODERS = 64, 32  # connections on two networks, all of which flood
GARBAGE = 400


def text_of(*networks, lines=""):
    """A configuration of networks, each with its number and what its line ends with."""
    return "".join(f"network {number:X} 1 1424 {rest}\n" for number, rest in networks) + lines


def at(port, kind=""):
    return f"web 127.0.0.1:{port} {kind}".rstrip()


def one(port, below=""):
    """A network of pages."""
    return text_of((0x10, at(port))) + below


# ---- Players ----


def players():
    """A DOSBox in a page and one by UDP on two links of a network, and one in a page on another network, hear each other"""
    udp, tcp = free_ports(2)
    text = f"network 10 1 1424\nlink dosbox 127.0.0.1:{udp}\nlink {at(tcp)}\n" + text_of((0x20, at(tcp)))
    with Gateway(text) as gate:
        node = gate.nodes[0x10]
        box, page, far = Client(udp, gateway=node), Page(tcp, gateway=node), Page(tcp, 0x20)
        for it in (box, page, far):
            assert it.node[0] == KEYED
        for here, there in itertools.permutations((box, page, far), 2):
            assert reaches(here, there)
        data = fresh()
        box.say(address(0, EVERYONE, GAME), data)
        assert page.hear()[30:] == data, "what is for all comes to a page"
        page.say(address(0, EVERYONE, GAME), data + b"!")
        assert box.hear()[30:] == data + b"!", "and from one"
        assert comes_next(page, far) and comes_next(box, far), "but not to another network"
        assert f"at {page.where()}" in gate.report()


def paths():
    """A path is /ipx/ and the network's number, whatever its zeros and its letters' case; links at one address share it"""
    tcp, other = free_ports(2)
    text = text_of((0xAB, at(tcp)), (0xC, at(tcp)), (0xD, at(other)))
    with Gateway(text) as gate:
        for path in ("/ipx/AB", "/ipx/ab", "/ipx/000000Ab", "/ipx/0000000000000ab", "/ipx/AB?room=1", "/ipx/c"):
            WebSocket(tcp, path).close()
        WebSocket(other, "/ipx/D").close()
        for port, path in ((tcp, "/ipx/D"), (other, "/ipx/AB"), (tcp, "/ipx/"), (tcp, "/ipx/0"), (tcp, "/ipx/1AB"), (tcp, "/ipx/AB/"),
                           (tcp, "/ipx/xAB"), (tcp, "/ethernet/AB"), (tcp, "/ipx/100000000AB"), (tcp, "/IPX/AB"), (tcp, "/")):
            status, _, why = answer_to(port, head(path))
            assert status == 404 and "/ipx/NETWORK" in why, (path, status)
        assert gate.report()


def leaves_at_once():
    """Whose connection ends leaves at once, and his place is free; the others stay, with their nodes and as long silent as they are"""
    (tcp,) = free_ports(1)
    with Gateway(one(tcp, "clients 3\n")) as gate:
        stays, goes, also = (Page(tcp) for _ in range(3))
        assert reaches(stays, also)
        for _ in range(5):
            goes.close()
            assert gate.told(f"client {goes.node.hex().upper()} leaves 00000010")
            assert "clients: 2 of 3" in gate.report()
            before = stays.node, also.node
            goes = Page(tcp)
            assert reaches(goes, stays) and reaches(stays, also) and before == (stays.node, also.node)
        also.udp.raw(frame(CLOSE, struct.pack(">H", 1000)))
        assert gate.told(f"client {also.node.hex().upper()} leaves 00000010")
        assert gate.counted(0x10, "out") > 0


def silent_ones_leave():
    """A page that doesn't answer pings leaves after 30 seconds, as by UDP, and may come again; who answers stays"""
    (tcp,) = free_ports(1)
    clock = Clock()
    with Gateway(one(tcp), SYSTEM.fast, environment=clock.environment()) as gate:
        mute, speaks = Page(tcp, answers=False), Page(tcp)
        seconds = 0
        while "clients: 1 of" not in gate.report():
            clock.let_pass(1)
            seconds += 1
            assert reaches(speaks, speaks)
        assert seconds >= STAYS and mute.pings > 0 and gate.told(f"client {mute.node.hex().upper()} leaves 00000010")
        assert mute.ask() is None and "clients: 1 of" in gate.report(), "the connection is there still, and may register again"


# ---- HTTP ----

GOOD = {"Host": "a.example", "Sec_WebSocket_Key": "dGhlIHNhbXBsZSBub25jZQ=="}
REQUESTS = (
    (404, b"GET / HTTP/1.1\r\nHost: a\r\n\r\n"),
    (405, b"POST /ipx/10 HTTP/1.1\r\nHost: a\r\nContent-Length: 3\r\n\r\nabc"),
    (405, b"HEAD /ipx/10 HTTP/1.1\r\nHost: a\r\n\r\n"),
    (400, b"GET /ipx/10 HTTP/1.0\r\nHost: a\r\n\r\n"),
    (505, b"GET /ipx/10 HTTP/2.0\r\nHost: a\r\n\r\n"),
    (400, b"GET /ipx/10 HTTP/1.1\r\n\r\n"),
    (400, b"GET /ipx/10 HTTP/1.1\r\nHost: a\r\nHost: b\r\n\r\n"),
    (400, b"GET /ipx/10 HTTP/1.1\nHost: a\n\n"),
    (400, b"GET /ipx/10 HTTP/1.1\r\nHost: a\r\n folded\r\n\r\n"),
    (400, b"GET /ipx/10 HTTP/1.1\r\nHost : a\r\n\r\n"),
    (400, b"GET /ipx/10 HTTP/1.1\r\nHost: \0\r\n\r\n"),
    (400, b"GET http://a/ipx/10 HTTP/1.1\r\nHost: a\r\n\r\n"),
    (400, b"\x16\x03\x01\x02\0\x01\0\x01\xfc\x03\x03\n"),
    (431, b"GET /ipx/10 HTTP/1.1\r\nHost: a\r\nCookie: " + b"a" * 9000),
    (426, b"GET /ipx/10 HTTP/1.1\r\nHost: a\r\n\r\n"),
    (426, head("/ipx/10", Upgrade="h2c")),
    (426, head("/ipx/10", Connection="keep-alive")),
    (426, head("/ipx/10", Sec_WebSocket_Version="8")),
    (400, head("/ipx/10", Sec_WebSocket_Version=None)),
    (400, head("/ipx/10", Sec_WebSocket_Key=None)),
    (400, head("/ipx/10", Sec_WebSocket_Key="c2hvcnQ=")),
    (400, head("/ipx/10", Sec_WebSocket_Key="dGhlIHNhbXBsZSBub25jZQ=!")),
    (400, head("/ipx/10", Content_Length="4")),
    (403, head("/ipx/10", Host="a.example", Origin="https://b.example")),
    (403, head("/ipx/10", Host="a.example", Origin="null")),
)


def requests():
    """Whoever asks for something else than a WebSocket is told in a sentence what was expected"""
    (tcp,) = free_ports(1)
    with Gateway(one(tcp)) as gate:
        for status, request in REQUESTS:
            found, fields, why = answer_to(tcp, request)
            assert found == status, f"{found} in place of {status} for {request[:80]}"
            assert fields["Connection"].endswith("close") and int(fields["Content-Length"]) == len(why) and why.endswith(".\n"), fields
        _, fields, _ = answer_to(tcp, head("/ipx/10", Sec_WebSocket_Version="8"))
        assert fields["Sec-WebSocket-Version"] == "13"
        _, fields, _ = answer_to(tcp, b"PUT /ipx/10 HTTP/1.1\r\nHost: a\r\n\r\n")
        assert fields["Allow"] == "GET"
        assert accepts("dGhlIHNhbXBsZSBub25jZQ==") == "s3pPLMBiTxaQ9kYGzzhZRbK+xOo="
        request = head("/ipx/10", Connection="keep-alive, Upgrade", Upgrade="WebSocket", Sec_WebSocket_Extensions="permessage-deflate")
        with connection(tcp) as it:
            for byte in request:  # (however it is cut)
                it.sendall(bytes([byte]))
            answer = it.recv(65536).decode()
            assert answer.startswith("HTTP/1.1 101 ") and "Sec-WebSocket-" not in answer.replace("Sec-WebSocket-Accept", ""), answer
        with connection(tcp) as it:
            it.sendall(head("/ipx/10", Sec_WebSocket_Protocol="chat, binary"))
            assert "\r\nSec-WebSocket-Protocol: binary\r\n" in it.recv(65536).decode(), "what is offered is chosen, where it is binary"
        assert reaches(Page(tcp), Page(tcp))
        assert "in 0," not in gate.report()


def origins():
    """Pages of the same host are let in, and programs without an origin; a line lets in others, or all"""
    tcp, named, every = free_ports(3)
    text = text_of((0x10, at(tcp))) + text_of((0x20, at(named))) + "origins https://play.example http://127.0.0.1:8000\n" + \
        text_of((0x30, at(every))) + "origins *\n"
    with Gateway(text):
        def is_let_in(port, network, origin, host="10.0.0.5:2130"):
            return answer_to(port, head(f"/ipx/{network:X}", Host=host, Origin=origin, Sec_WebSocket_Key="bad"))[0] != 403 and \
                opens(port, f"/ipx/{network:X}", Host=host, Origin=origin)

        for origin, host in ((None, "a"), ("http://10.0.0.5:2130", "10.0.0.5:2130"), ("http://10.0.0.5:8000", "10.0.0.5:2130"),
                             ("https://play.example", "PLAY.example"), ("http://[::1]:80", "[::1]:2130")):
            assert is_let_in(tcp, 0x10, origin, host), origin
        for origin in ("https://play.example", "http://10.0.0.50:2130", "http://10.0.0.5.example", "null", "", "10.0.0.5:2130", "http://"):
            assert not is_let_in(tcp, 0x10, origin), origin
        for origin in ("https://play.example", "https://PLAY.example", "http://127.0.0.1:8000", None, "http://10.0.0.5"):
            assert is_let_in(named, 0x20, origin), origin
        for origin in ("http://play.example", "https://play.example:8443", "http://127.0.0.1:8001", "https://play.example.net"):
            assert not is_let_in(named, 0x20, origin), origin
        assert is_let_in(every, 0x30, "https://anybody.example") and is_let_in(every, 0x30, "null")


def opens(port, path, **fields):
    """Whether a WebSocket is opened."""
    try:
        WebSocket(port, path, **fields).close()
    except Refused:
        return False
    return True


# ---- Frames of RFC 6455 ----

LONG = b"x" * (LONGEST + 1)
WRONG = (
    ("no mask", 1002, frame(BINARY, b"a", mask=b"")),
    ("a reserved bit", 1002, frame(BINARY, b"a", reserved=4)),
    ("a reserved bit of a ping", 1002, frame(PING, b"a", reserved=1)),
    *((f"the number {k}", 1002, frame(k, b"a")) for k in (3, 7, 11, 15)),
    ("a text", 1003, frame(TEXT, b"text")),
    ("a part of a text", 1003, frame(TEXT, b"text", last=False)),
    ("no beginning", 1002, frame(CONTINUED, b"a")),
    ("a beginning inside another", 1002, frame(BINARY, b"a", last=False) + frame(BINARY, b"b")),
    ("a long ping", 1002, frame(PING, b"a" * 126)),
    ("a part of a ping", 1002, frame(PING, b"a", last=False)),
    ("a length in more bytes than it needs", 1002, b"\x82\xfe\0\x01" + b"\0" * 5),
    ("a length in eight", 1002, b"\x82\xff" + struct.pack(">Q", 1000)),
    ("a length of 64 bits", 1002, b"\x82\xff" + struct.pack(">Q", 1 << 63)),
    ("too long", 1009, frame(BINARY, LONG)),
    ("too long, of which no byte has come", 1009, frame(BINARY, b"", length=1 << 40)[:10] + b"\0" * 4),
    ("too long together", 1009, frame(BINARY, LONG[:1000], last=False) + frame(CONTINUED, LONG[:501])),
    ("a close of one byte", 1002, frame(CLOSE, b"a")),
    ("a close for nothing", 1002, frame(CLOSE, struct.pack(">H", 999))),
    ("a close for what is never said", 1002, frame(CLOSE, struct.pack(">H", 1006))),
    ("a reason that is no UTF-8", 1007, frame(CLOSE, struct.pack(">H", 1000) + b"\xc0\x80")),
    ("a reason that is cut", 1007, frame(CLOSE, struct.pack(">H", 1000) + "ü".encode()[:1])),
    ("a close", 1000, frame(CLOSE, struct.pack(">H", 1000) + "gut, fertig ✓".encode())),
    ("a close of an application's", 3999, frame(CLOSE, struct.pack(">H", 3999))),
    ("a close without a word", 1005, frame(CLOSE, b"")),
)


def frames_of_websocket():
    """What isn't as RFC 6455 has it ends a connection with the status that it names, and no other; a close is answered"""
    (tcp,) = free_ports(1)
    with Gateway(one(tcp)) as gate:
        player, other = Page(tcp), Page(tcp)
        for what, status, bytes_ in WRONG:
            it = WebSocket(tcp, "/ipx/10")
            it.raw(bytes_)
            found = it.end()
            assert found == status, f"{what}: {found} in place of {status}"
            it.close()
            assert reaches(player, other), what
        assert "clients: 2 of" in gate.report()


def fragments():
    """A message may come in parts, with pings between them, one byte after the other; each ping is answered by what it holds"""
    (tcp,) = free_ports(1)
    with Gateway(one(tcp)) as gate:
        page, other = Page(tcp), Page(tcp)
        data = b"in parts"
        whole = packet(other.at(), page.at(), data)
        parts = [frame(BINARY, whole[:1], last=False), frame(PING, b"one"), frame(CONTINUED, b"", last=False),
                 frame(CONTINUED, whole[1:20], last=False), frame(PING, b""), frame(PONG, b"unasked"), frame(CONTINUED, whole[20:])]
        for byte in b"".join(parts):
            page.udp.raw(bytes([byte]))
        assert other.hear()[30:] == data
        until(lambda: page.udp.pongs == [b"one", b""], "the answers to both pings")
        page.udp.raw(b"".join(frame(BINARY, packet(other.at(), page.at(), b"%d" % k)) for k in range(50)))
        assert [other.hear()[30:] for _ in range(50)] == [b"%d" % k for k in range(50)], "many at once, in their order"
        page.udp.raw(frame(BINARY, b"\0" * LONGEST) + frame(BINARY, b""))
        assert comes_next(page, other)
        gate.until_counted(0x10, "longer than the link carries", 1)


# ---- Stations ----


def stations():
    """Stations in pages hear each other and all other networks, in each kind of frames, also of any kind"""
    for kind in (*KINDS, "auto"):
        udp, tcp = free_ports(2)
        with Gateway(text_of((0x10, f"dosbox 127.0.0.1:{udp}")) + f"network 20 1 1490 {at(tcp, kind)}\n") as gate:
            spoken = kind if kind != "auto" else "llc"
            first, second, third = (
                Station(Frames(tcp, 0x20), spoken, 0x20, node, gate.nodes[0x20], b"\0") for node in NODES[:3])
            far = Client(udp)
            for it in (first, second, third):
                assert reaches_far(it, far) and reaches(far, it)
            first.say(second.at(), b"to one", node=second.node)
            assert second.hear()[30:] == b"to one"
            first.say(address(0, EVERYONE, GAME), b"to all", node=EVERYONE)
            assert second.hear()[30:] == b"to all" and third.hear()[30:] == b"to all", "and the one before came to one alone"
            gate.until_counted(0x20, "for another node", 0)


def reaches_far(station, far):
    data = fresh()
    station.say(far.at(), data)
    heard = far.hear(lambda it: it[30:] == data)
    return heard is not None


def stations_of_a_network():
    """Stations in pages, DOSBoxes in pages and by UDP are one network on three links"""
    udp, tcp = free_ports(2)
    text = f"network 10 1 1424\nlink dosbox 127.0.0.1:{udp}\nlink {at(tcp)}\nlink {at(tcp, 'raw')}\n"
    with Gateway(text) as gate:
        node = gate.nodes[0x10]
        box, page = Client(udp, gateway=node), Page(tcp, gateway=node)
        station = Station(Frames(tcp, 0x10), "raw", 0x10, NODES[0], node)
        station.say(address(0, EVERYONE, GAME), b"hello", node=EVERYONE)
        assert box.hear()[30:] == b"hello" and page.hear()[30:] == b"hello"
        for it in (box, page):
            assert reaches(it, station)
            station.say(it.at(), b"you", node=it.node)
            assert it.hear()[30:] == b"you"
        station.wire.web.close()
        assert reaches(box, page)


# ---- Floods, and slow ones ----


def pour(sockets, texts, ends):
    """Sends a text on each connection as fast as that takes it, over and over, whole messages or none."""
    views, sent = [memoryview(it) for it in texts], [0] * len(texts)
    poll, places = select.poll(), {it.fileno(): k for k, it in enumerate(sockets)}
    for it in sockets:
        poll.register(it, select.POLLOUT)
    while not ends.is_set():
        for number, _ in poll.poll(100):
            k = places[number]
            try:
                sent[k] = (sent[k] + sockets[k].send(views[k][sent[k] :], socket.MSG_DONTWAIT)) % len(texts[k])
            except BlockingIOError:
                pass
            except OSError:
                poll.unregister(number)


@contextlib.contextmanager
def flooding(sockets, message_of):
    """Floods on connections from a process of its own: of each what it says over and over."""
    ends = multiprocessing.Event()
    texts = [frame(BINARY, message_of(k)) * 100 for k in range(len(sockets))]
    run = multiprocessing.get_context("fork").Process(target=pour, args=(sockets, texts, ends), daemon=True)
    run.start()
    try:
        yield
    finally:
        ends.set()
        run.join()


class Talker:
    """A player who says numbers to all, and counts what he hears of others."""

    def __init__(self, client):
        self.client, self.said, self.heard, self.last = client, 0, {}, set()
        client.meets = self.meets

    def meets(self, bytes_):
        if len(bytes_) == 40 and bytes_[30:36] == b"number":
            self.heard.setdefault(bytes_[22:28], set()).add(int.from_bytes(bytes_[36:], "big"))
        elif bytes_[30:34] == b"last":
            self.last.add(bytes_[22:28])

    def say(self, data):
        self.client.say(address(0, EVERYONE, GAME), data)

    def say_next(self):
        self.say(b"number" + struct.pack(">I", self.said))
        self.said += 1


def loss(talkers, seconds=SECONDS):
    """The largest part that one of some players on a network loses of what another says, while they say 35 packets a second."""
    began = time.monotonic()
    for turn in range(int(seconds / EVERY)):
        for it in talkers:
            it.say_next()
        time.sleep(max(0, began + (turn + 1) * EVERY - time.monotonic()))

    def all_hear_the_last():
        for it in talkers:
            it.say(b"last")
        time.sleep(AGAIN)
        return all(other.client.node in it.last for it in talkers for other in talkers if it is not other)

    until(all_hear_the_last, "last words")
    return max(1 - len(it.heard.get(other.client.node, ())) / other.said for it in talkers for other in talkers if it is not other)


def flood_of_a_page():
    """One page floods its network; those who say 35 packets a second lose at most 2 % of each other"""
    udp, tcp = free_ports(2)
    text = f"network 10 1 1424\nlink dosbox 127.0.0.1:{udp}\nlink {at(tcp)}\nstrangers none\n"
    with Gateway(text) as gate:
        node = gate.nodes[0x10]
        talkers = [Talker(it) for it in (Page(tcp, own="127.0.0.2", gateway=node), Page(tcp, own="127.0.0.3", gateway=node),
                                         Client(udp, host="127.0.0.4", gateway=node))]
        flooder = Page(tcp, own="127.0.0.9", gateway=node)
        flooder.stop()
        with flooding([flooder.udp.socket], lambda _: packet(address(0, EVERYONE, GAME), flooder.at(), b"flood" * 20)):
            lost = loss(talkers)
        figures(f"a page floods: the most that was lost is {lost:.1%}")
        assert lost <= MOST_LOST, lost
        assert all(reaches(one, other) for one, other in itertools.permutations([it.client for it in talkers], 2))


def flood_of_a_station():
    """One station in a page floods all others of its link; those who say little lose at most 2 % of each other"""
    (tcp,) = free_ports(1)
    with Gateway(f"network 20 1 1490 {at(tcp, 'raw')}\n") as gate:
        talkers = [Talker(Seat(tcp, NODES[k], gate.nodes[0x20])) for k in range(3)]
        flooder = Frames(tcp, 0x20)
        said = framed("raw", EVERYONE, NODES[9], packet(address(0, EVERYONE, GAME), address(0x20, NODES[9], GAME), b"flood" * 20), b"\0")
        with flooding([flooder.web.socket], lambda _: said):
            lost = loss(talkers)
        figures(f"a station floods: the most that was lost is {lost:.1%}")
        assert lost <= MOST_LOST, lost
        assert gate.counted(0x20, "for a link that received too much") > 0 or gate.report()


class Seat(Page):
    """A station of a link with raw frames that says and hears packets as a client does."""

    def __init__(self, port, node, gateway, network=0x20):
        self.udp, self.is_heard = WebSocket(port, f"/ethernet/{network:X}"), True
        self.begin(False, False, gateway)
        self.network, self.node = network, node

    def send(self, bytes_):
        self.udp.send(framed("raw", EVERYONE, self.node, bytes_, b"\0"))

    def take(self, bytes_):
        found = unframed("raw", bytes_)
        if found is not None:
            super().take(found)


def two_floods():
    """64 connections flood one network and 32 another: whoever else is there, or on others, is heard still"""
    udp, tcp = free_ports(2)
    numbers = (0x10, 0x20, 0x30)
    text = "".join(f"network {it:X} 1 1424 {at(tcp)}\nstrangers none\n" for it in numbers) + \
        text_of((0x40, f"dosbox 127.0.0.1:{udp}"))
    with Gateway(text) as gate:
        pages = [Page(tcp, it, own=f"127.0.1.{k + 1}") for k, it in enumerate(numbers)] + [Client(udp, host="127.0.1.9")]
        floods = [Page(tcp, number, own=f"127.0.2.{k + 1}") for number, count in zip(numbers, FLOODERS) for k in range(count)]
        for it in floods:
            it.stop()

        def said_by(k):
            return packet(address(0, EVERYONE, GAME), floods[k].at(), b"flood" * 20)

        with flooding([it.udp.socket for it in floods], said_by):
            time.sleep(1)
            began = time.monotonic()
            for here, there in itertools.permutations(pages, 2):
                assert reaches_again(here, there), "somebody isn't heard"
            late = Page(tcp, 0x10, own="127.0.3.1")
            assert reaches_again(late, pages[1]), "a newcomer isn't heard"
            figures(f"{sum(FLOODERS)} connections flood: thirteen words came in {time.monotonic() - began:.1f} s")
        assert gate.report()


def slow_requests():
    """Requests that come a byte a second, or not at all, end after some seconds, and keep nobody out meanwhile"""
    (tcp,) = free_ports(1)
    with Gateway(one(tcp)) as gate:
        text, began = head("/ipx/10"), time.monotonic()
        slow = [connection(tcp) for _ in range(CROWD)]
        for byte in text:
            for it in slow:
                with contextlib.suppress(OSError):
                    it.sendall(bytes([byte]))
            page = Page(tcp)
            assert reaches(page, page)
            page.close()
            if time.monotonic() - began > 2 * TIME_TO_ASK:
                break
            time.sleep(SLOW)
        for it in slow:
            assert is_closed(it)
        assert gate.report()


def a_crowd():
    """200 pages connect at once, and all are clients; then all go at once"""
    (tcp,) = free_ports(1)
    with Gateway(one(tcp, "strangers none\n")) as gate:
        pages = []
        threads = [threading.Thread(target=lambda: pages.append(Page(tcp, registers=False))) for _ in range(CROWD)]
        for it in threads:
            it.start()
        for it in threads:
            it.join()
        assert len(pages) == CROWD
        for it in pages:
            it.register()
        assert f"clients: {CROWD} of" in gate.report()
        for it in pages:
            it.close()
        gate.until("clients: 0 of")
        assert reaches(Page(tcp), Page(tcp))


def too_many():
    """Where a link is full, who has no place gives way to newcomers, and clients stay"""
    (tcp,) = free_ports(1)
    with Gateway(one(tcp, "strangers none\n")) as gate:
        player = Page(tcp)
        idle = [WebSocket(tcp, "/ipx/10") for _ in range(MOST_OF_LINK - 1)]
        assert answer_to(tcp, head("/ipx/10"))[0] == 503, "all are new"
        time.sleep(IDLE + 1)
        page = Page(tcp)
        assert idle[0].end() == 1008, "who was idle longest goes"
        assert reaches(page, player) and reaches(player, page)
        assert gate.counted(0x10, "refused") >= 1 or gate.report()


def clients_stay():
    """Who has just become a client keeps its place, though its address has all places and somebody from another one comes"""
    (tcp,) = free_ports(1)
    with Gateway(one(tcp, "strangers none\nclients 250\n")) as gate:
        pages = [Page(tcp) for _ in range(MOST_OF_LINK)]
        assert answer_to(tcp, head("/ipx/10"), own="127.0.0.2")[0] == 503
        assert f"clients: {MOST_OF_LINK} of" in gate.report()
        assert reaches(pages[-1], pages[0]) and reaches(pages[0], pages[-1])


def a_page_that_reads_nothing():
    """What a page doesn't read is dropped and counted, takes no memory, and holds up nobody"""
    (tcp,) = free_ports(1)
    with Gateway(one(tcp, "strangers none\nrate none\n")) as gate:
        deaf = Page(tcp, keeps=4096)
        deaf.stop()
        one_, other = Page(tcp), Page(tcp)
        before = gate.memory()
        for k in range(4000):
            one_.say(deaf.at(), struct.pack(">I", k) * 300)
        assert reaches(one_, other) and reaches(other, one_)
        assert gate.counted(0x10, "not sent") > 1000
        assert gate.memory() - before < 4096, "less than four megabytes"
        heard = []
        with contextlib.suppress(TimeoutError):
            deaf.udp.socket.settimeout(1)
            while True:
                heard.append(deaf.udp.recv(0))
        numbers = [int.from_bytes(it[30:34], "big") for it in heard if len(it) == 1230]
        assert 10 < len(numbers) < 4000 and numbers == sorted(numbers), "what comes is whole and in order"


def garbage():
    """Whatever bytes come, before a WebSocket is opened and behind that: players are heard"""
    (tcp,) = free_ports(1)
    chance = random.Random(7)
    with Gateway(text_of((0x10, at(tcp)), (0x20, at(tcp, "raw")))) as gate:
        player, other = Page(tcp), Page(tcp)
        good = head("/ipx/10")
        for k in range(GARBAGE):
            if k % 2:
                it = WebSocket(tcp, ("/ipx/10", "/ethernet/20")[k // 2 % 2])
                bytes_ = b"".join(frame(chance.choice((0, 1, 2, 2, 2, 8, 9, 10)), chance.randbytes(chance.randrange(1600)),
                                        chance.random() < 0.7) for _ in range(chance.randrange(6))) + chance.randbytes(20)
            else:
                it = connection(tcp)
                bytes_ = bytearray(good)
                for _ in range(chance.randrange(4)):
                    bytes_[chance.randrange(len(bytes_))] = chance.randrange(256)
                bytes_ = bytes(bytes_[: chance.randrange(len(bytes_) + 1)])
            with contextlib.suppress(OSError):
                (it.raw if k % 2 else it.sendall)(bytes_)
            it.close()
            if k % 20 == 0:
                assert reaches(player, other)
        assert reaches(player, other) and reaches(other, player)
        assert gate.report()


# ---- Reloading ----


def reloads():
    """A reload adds, removes and keeps links by WebSocket; who is at one that stays notices nothing"""
    first, second = free_ports(2)
    with Changed(text_of((0x10, at(first)), (0x20, at(second)))) as gate:
        stays, goes = Page(first), Page(second, 0x20)
        gate.reload(text_of((0x10, at(first)), (0x30, at(first)), (0x40, at(first, "raw"))))
        assert goes.udp.end() == 1001, "a page is told that its link is removed"
        far = Page(first, 0x30)
        assert reaches(stays, far) and reaches(far, stays)
        Frames(first, 0x40)
        gate.reload(text_of((0x30, at(first)), (0x10, at(first)), (0x20, at(second))))
        assert reaches(stays, far) and reaches(far, stays) and reaches(Page(second, 0x20), stays)
        assert answer_to(first, head("/ethernet/40"))[0] == 404
        gate.reload(text_of((0x30, at(first)), (0x10, at(second)), (0x20, at(second))))
        assert stays.udp.end() == 1001, "the link is elsewhere now"
        assert "leaves 00000010" in gate.report() or gate.told("leaves 00000010")
        stays = Page(second, 0x10)
        gate.reload(text_of((0x30, at(first)), (0x10, at(second))) + "clients 7\norigins *\n")
        assert reaches(stays, far) and reaches(far, stays), "other rules, and the same clients"


TESTS = (players, paths, leaves_at_once, silent_ones_leave, requests, origins, frames_of_websocket, fragments, stations,
         stations_of_a_network, slow_requests, a_crowd, too_many, clients_stay, a_page_that_reads_nothing, garbage, reloads, played_anew(flood_of_a_page), played_anew(flood_of_a_station),
         played_anew(two_floods))

# What reloads, looks at memory, or sets the clock.
OF_UNIX = reloads, a_page_that_reads_nothing, silent_ones_leave


def main():
    tests = TESTS if has_linux("reloads of links by WebSocket, and what they take of memory") else [it for it in TESTS if it not in OF_UNIX]
    return tried(*tests, *browsers.others())


if __name__ == "__main__":
    begin(main)

"""The configuration is read anew while the gateway runs: what changed changes, and all else runs on."""
import contextlib
import errno
import itertools
import json
import os
import pty
import re
import select
import signal
import socket
import subprocess
import tempfile

from cards import has_cards, hears_all_frames, pair
from changed import Changed, at, comes_in, comes_to, is_told_to_leave, nodes_on, port_in
from events import Follower
from frames import Packets, Station, Udp
from lab import (AGAIN, ALL_THERE_IS, EVERYONE, GAME, LIMIT, NOBODY, RIP, TUNNEL, Client, Clock, address, comes_next, free_ports, is_ping,
                 packet, reaches, reaches_again, registration, rip_response, socket_of, tunnels, until)
from links import is_closed
from orders import is_farewell, told_until
from segments import hears, tells
from six import has_six
from spaces import ip
from status import advertise, answer_of, asked
from systems import SYSTEM, TOP, fault_words
from trying import Counts, begin, has_linux, left_out, tried, tried_inside

TIMES = 20  # that the configuration is read anew while others play
BETWEEN = 25  # packets from one time to the next
ADVERTISED = 60  # packets that tell of routes: too many at once for a usual share, and few for all that there is
OF_OTHERS = {"port", "has_shares"}  # fields of a network's settings that follow from the others
ASKERS = 6  # who are shown a list while it becomes shorter: each gets a piece by turns
MANY = 180  # clients, routes and services: more than a piece of what is shown
CUT = 50  # times that it is shortened, until that comes between two pieces
LONGEST = 1424  # bytes of a datagram of the tunnel
SILENCE = 20  # seconds in which a client doesn't answer
PINGED = 5  # after so many it is pinged
KNOCKS = 3  # connections beside that of a PC
FLOOD = 300  # packets of a client, more than another receives at once where there are limits


def source(name):
    with open(os.path.join(TOP, "gateway", "configuration", name), encoding="utf-8") as it:
        return it.read()


def all_is_compared():
    """Each field of a network's settings is compared when they are read again: none can be forgotten there that a new word sets."""
    struct = re.search(r"typedef struct network_setting \{(.*?)\} network_setting;", source("settings.h"), re.DOTALL)[1]
    declared = re.findall(r"^\s*\w+ ([^;]+);", struct, re.MULTILINE)
    fields = [name for names in declared for name in re.findall(r"(\w+)(?:\[\w+\])?(?:,|$)", names)]
    compared = source("compared.c")
    forgotten = [it for it in fields if not it.endswith("line") and it not in OF_OTHERS and not re.search(rf"\b(?:a|set)->{it}\b", compared)]
    assert len(fields) > len(OF_OTHERS) and not forgotten, forgotten


def nothing_changes():
    """The same configuration changes nothing, by the order or by the signal; links whose port is free keep theirs."""
    with Changed(tunnels(2)) as gate:
        a, b = Client(gate.ports[0x10]), Client(gate.ports[0x20])
        assert gate.asked("reload").endswith(": nothing changed\n")
        gate.run.order(signal.SIGHUP)
        gate.told("was read again: nothing changed")
        assert reaches(a, b) and reaches(b, a)
        assert not is_told_to_leave(gate)


def wrong_file():
    """A wrong file changes nothing, and is told as --check tells it; so is one that isn't there. The gateway complains of it too."""
    with Changed(tunnels(2)) as gate:
        a, b = Client(gate.ports[0x10]), Client(gate.ports[0x20])
        gate.write("network 10 1 1424 dosbox 0\nnetwork 0x20 1 1424 dosbox 0\nclients\n")
        words = [*SYSTEM.quick, SYSTEM.program, "--check", gate.configuration]
        checked = subprocess.run(words, capture_output=True, text=True, check=False)
        assert asked(gate.path, "reload") == (1, "", checked.stderr) and checked.returncode == 2
        os.remove(gate.configuration)
        status, _, complaint = asked(gate.path, "reload")
        assert status == 1 and complaint.endswith(": can't be opened: No such file or directory\n")
        assert reaches(a, b)
        gate.run.order(SYSTEM.end)
        _, told = gate.run.communicate(timeout=LIMIT)
        assert told.decode().count("0x20") == 1 and "No such file" in told.decode() and gate.run.returncode == 0


def counts_go_on():
    """What was counted of a link that is taken away goes on at another of its network: no count becomes smaller."""
    wires = [Udp(), Udp()]
    for wire, near in zip(wires, free_ports(2)):
        wire.to = near
    links = [f"link qemu-udp {it.to} {it.port} raw\n" for it in wires]
    with Changed(tunnels(1) + "network 20 1 1424\n" + "".join(links)) as gate:
        for wire in wires:
            wire.send(b"no frame")

        def came():
            return sum(it["number"] for it in gate.shown("counts") if (it["network"], it["count"]) == ("00000020", "in"))

        until(lambda: came() == 2, "both datagrams")
        for left in links[1:], links[:1]:
            gate.reload(tunnels(1) + "network 20 1 1424\n" + "".join(left))
            assert came() == 2, f"{came()} datagrams"


def knock_at(port):
    """Somebody comes to a port where a PC is connected already."""
    with socket.create_connection(("127.0.0.1", port)) as other:
        assert is_closed(other)


def refused_on(gate, number):
    return sum(it["number"] for it in gate.shown("counts") if (it["network"], it["count"]) == (f"{number:08X}", "refused"))


def refusals_go_on():
    """What a link refused beside its PC stays counted: with another port, other frames or a link beside it, and where it is one no more."""
    first, second = free_ports(2)
    alone, several = "network 20 1 1424 qemu-tcp listen 127.0.0.1:%d %s\n", "network 20 1 1424\nlink dosbox 127.0.0.1:0\n"
    link = "link qemu-tcp listen 127.0.0.1:%d %s\n"
    # (where the port stays, so does the PC)
    steps = ((first, True, alone % (first, "raw")), (second, True, alone % (second, "raw")), (second, False, alone % (second, "llc")),
             (second, False, several + link % (second, "llc")), (first, True, several + link % (first, "llc")))
    then = several, several + link % (second, "llc"), at(0x20, "127.0.0.1:0"), alone % (first, "raw")
    with Changed(tunnels(1) + steps[0][2]) as gate, contextlib.ExitStack() as pcs:
        count = 0
        for port, is_another, text in steps:
            gate.reload(tunnels(1) + text)
            if is_another:
                pcs.enter_context(socket.create_connection(("127.0.0.1", port)))
            assert refused_on(gate, 0x20) == count, text
            for _ in range(KNOCKS):
                knock_at(port)
            count += KNOCKS
            assert refused_on(gate, 0x20) == count, text
        for text in then:
            gate.reload(tunnels(1) + text)
            assert refused_on(gate, 0x20) == count, text


def refusals_at_a_shared_link():
    """What a listener refused that links share in two kinds of frames counts once, and no number falls, whichever of them goes or comes."""
    (port,) = free_ports(1)
    raw, llc = (f"qemu-tcp listen 127.0.0.1:{port} {kind}\n" for kind in ("raw", "llc"))
    twenty, thirty, beside = "network 20 1 1424\n", "network 30 1 1424 ", "link dosbox 127.0.0.1:0\n"
    both = f"{twenty}link {raw}link {llc}"
    steps = (both, f"{twenty}link {raw}", both, f"{twenty}link {llc}", f"{twenty}link {llc}link {raw}", f"{twenty}{beside}link {raw}",
             f"{twenty}{beside}link {raw}{thirty}{llc}", f"{thirty}{llc}{twenty}{beside}link {raw}", f"{thirty}{llc}{twenty}{beside}")
    with Changed(both) as gate, socket.create_connection(("127.0.0.1", port)):
        before, count = (0, 0), 0
        for text in steps:
            gate.reload(text)
            for _ in range(KNOCKS):
                knock_at(port)
            count += KNOCKS
            numbers = refused_on(gate, 0x20), refused_on(gate, 0x30)
            told = [int(it) for it in re.findall(r"(?m)^  refused: (\d+)$", gate.report())]
            metrics = re.findall(r"(?m)^ipxr_gateway_refused_connections_total\S+ (\d+)$", gate.asked("show", "counts", "--prometheus"))
            assert sum(numbers) == sum(told) == sum(map(int, metrics)) == count, (text, count, numbers, told, metrics)
            assert all(it >= was for it, was in zip(numbers, before)), (text, before, numbers)
            before = numbers


def rules_for_clients():
    """Others may be clients: who still may stays, and says and hears on; who may not any more leaves at once."""
    with Changed(tunnels(1)) as gate:
        a, b = Client(gate.ports[0x10]), Client(gate.ports[0x10])
        other = Client(gate.ports[0x10], host="127.0.0.2")
        said = gate.reload(tunnels(1, extra="clients 2\nallow 127.0.0.1\n"))
        assert "1 with other clients" in said and "router" not in said, said
        gate.told(f"client {other.node.hex().upper()} leaves 00000010")
        assert reaches(a, b) and reaches(b, a)
        assert gate.counted(0x10, "clients") == 2 and not comes_in(gate.ports[0x10])
        other.send(packet(a.at(), other.at(), b"x"))
        gate.until_counted(0x10, "lost: address not allowed", 1)
        gate.reload(tunnels(1, extra="trust 127.0.0.1\n"))
        silent = Client(gate.ports[0x10], answers=False)
        assert reaches(a, b) and gate.counted(0x10, "clients") == 3
        gate.reload(tunnels(1, extra="clients 1\n"))
        assert gate.counted(0x10, "clients") == 1 and reaches(a, a)


def nodes():
    """A line `nodes` comes and goes: clients stay, and hear each other; also who came in by its address while the line was there."""
    with Changed(tunnels(1)) as gate:
        clients = [Client(gate.ports[0x10]) for _ in range(2)]
        for below in ("nodes by-address\n", ""):
            said = gate.reload(tunnels(1, extra=below))
            assert "1 with other clients" in said and "router" not in said, said
            assert all(reaches(one, other) for one in clients for other in clients), below
            assert gate.counted(0x10, "clients") == len(clients), below
            if below:
                clients.append(Client(gate.ports[0x10], registers=False))
                clients[-1].network = 0x10
                assert reaches_again(clients[-1], clients[-1])


def heard_of(gate, client):
    (heard,) = (it["heard"] for it in gate.shown("clients") if it["client"] == client.node.hex().upper())
    return heard


def silence_goes_on():
    """How long ago a client answered is shown and reported behind reloads too, until it answers; that begins anew where it is trusted from then on."""
    clock = Clock()

    def let_pass(seconds):
        for _ in range(seconds):
            clock.let_pass(1)
            gate.report()

    with Changed(tunnels(1), program=SYSTEM.fast, environment=clock.environment()) as gate:
        silent, other = Client(gate.ports[0x10]), Client(gate.ports[0x10])
        silent.answers = False
        let_pass(SILENCE)
        before, of_other = heard_of(gate, silent), heard_of(gate, other)
        assert SILENCE - 1 <= before <= SILENCE and of_other < SILENCE, (before, of_other)
        for further, below in enumerate(("clients 9\n", "rate 900\n", "clients 9\n")):
            gate.reload(tunnels(1, extra=below))
            assert heard_of(gate, silent) == before + further, below
            assert f"answered {before + further} s ago" in gate.report(), below
            let_pass(1)
            assert heard_of(gate, silent) == before + further + 1, below
        assert heard_of(gate, other) <= of_other + 3
        silent.answers = True
        let_pass(PINGED)
        until(lambda: heard_of(gate, silent) < PINGED, "it answers")
        gate.reload(tunnels(1, extra="trust 127.0.0.1\n"))
        assert heard_of(gate, silent) == heard_of(gate, other) == 0


def all_heard(stranger):
    """The datagrams that have come to somebody's socket, up to a moment in which none does."""
    heard = []
    while select.select([stranger], [], [], AGAIN)[0]:
        heard.append(stranger.recv(LONGEST))
    return heard


def newcomers():
    """Who registered just before is answered again afterwards, and pinged; where the tunnel is at another port he isn't."""
    clock = Clock()
    port, moved = free_ports(2)
    for now, is_pinged in ((port, True), (moved, False)):
        how = {"program": SYSTEM.fast, "environment": clock.environment()}
        with Changed(at(0x10, port), **how) as gate, socket.socket(socket.AF_INET, socket.SOCK_DGRAM) as stranger:
            stranger.bind(("127.0.0.1", 0))
            stranger.sendto(registration(), ("127.0.0.1", port))
            (answer,) = all_heard(stranger)
            gate.reload(at(0x10, now, below="clients 5\n"))
            for _ in range(10):
                clock.let_pass(1)
                gate.report()
            again = all_heard(stranger)
            assert [is_ping(it) for it in again] == [False, True, True] * is_pinged and again[:1] in ([], [answer]), (now, again)


def a_line():
    """A narrow line holds as soon as the file names it, and no longer than it does; who is there stays."""
    dropped = "lost: too much for the line"
    with Changed(tunnels(1, extra="rate none\n")) as gate:
        a, b = Client(gate.ports[0x10]), Client(gate.ports[0x10])
        said = gate.reload(tunnels(1, extra="rate none\nline 100\n"))
        assert "1 with other clients" in said and "router" not in said, said
        for _ in range(FLOOD):
            a.say(b.at(), bytes(1000))
        until(lambda: gate.counted(0x10, dropped) > 0, "packets that are dropped")
        gate.reload(tunnels(1, extra="rate none\n"))
        lost = gate.counted(0x10, dropped)
        for _ in range(FLOOD):
            assert reaches(a, b)
        assert gate.counted(0x10, dropped) == lost and not is_told_to_leave(gate)


def limits():
    """Other limits hold from then on, for those who are there too; they stay, with what was counted of them."""
    dropped = "lost: too much for a client"
    with Changed(tunnels(1, extra="rate none\n")) as gate:
        a, b = Client(gate.ports[0x10]), Client(gate.ports[0x10])
        for _ in range(FLOOD):
            assert reaches(a, b)
        said = gate.reload(tunnels(1, extra="rate 1 1\n"))
        assert "1 with other clients" in said and "router" not in said, said
        for _ in range(FLOOD):
            a.say(b.at(), b"too much")
        until(lambda: gate.counted(0x10, dropped) > 0, "packets that are dropped")
        gate.reload(tunnels(1, extra="rate none\n"))
        lost = gate.counted(0x10, dropped)
        for _ in range(FLOOD - lost):
            assert b.hear()[30:] == b"too much"
        for _ in range(FLOOD):
            assert reaches(a, b)
        assert lost > 0 and gate.counted(0x10, dropped) == lost and f"{lost} copies of what it said" in gate.report()
        assert [it["dropped"] for it in gate.shown("clients")] == [lost, lost]
        assert not is_told_to_leave(gate)


def all_hear(present):
    """Whether each hears each other at once, and is heard."""
    return all(hears(other, tells(one, other)) for one, other in itertools.permutations(present, 2))


def has_left(gate, one):
    """Whether somebody was put out: a client is told to, and the connection of a PC is closed."""
    if isinstance(one, Client):
        return gate.told(f"client {one.node.hex().upper()} leaves 00000010")
    try:
        while one.wire.receive():
            pass
    except ConnectionError:
        return True
    return False


def links_that_are_alike():
    """Of links that are alike each is kept or closed, and each new one is opened: no two share one, and who is on one that stays, stays."""
    def text(count):
        kinds = ("dosbox 127.0.0.1:0", "qemu-tcp listen 127.0.0.1:0 raw")
        return "network 10 1 1424\n" + "".join(f"link {kind}\n" for kind in kinds for _ in range(count)) + at(0x20, "127.0.0.1:0")

    with Changed(text(2)) as gate:
        there = nodes_on(gate, 0x10)
        present = {link: comes_to(gate, link) for link in there}
        assert len(set(there)) == 4 and all_hear(present.values())
        for count in (2, 2, 1, 1, 3, 3, 2):
            said = gate.reload(text(count))
            now = nodes_on(gate, 0x10)
            half = len(there) // 2
            kept = [link for of_kind in (there[:half], there[half:]) for link in of_kind[:count]]
            assert len(set(now)) == len(now) == 2 * count and [it for it in now if it in there] == kept, (there, now)
            assert count == half and said.endswith("nothing changed\n") or f" {2 * max(count - half, 0)} added" in said, said
            assert all(has_left(gate, present.pop(link)) for link in there if link not in now)
            present.update({link: comes_to(gate, link) for link in now if link not in there})
            assert all_hear(present.values())
            there = now


def a_node_of_several_links():
    """Where a network of several links gets another node of the gateway's, who is there stays, and finds the gateway at that node."""
    def text(more):
        return f"network 10 1 1424{more}\nlink dosbox 127.0.0.1:0\nlink qemu-tcp listen 127.0.0.1:0 raw\n" + at(0x20, "127.0.0.1:0")

    with Changed(text("")) as gate:
        there = nodes_on(gate, 0x10)
        anna, ben, pc = present = [comes_to(gate, link) for link in (there[0], *there)]
        far, made_up = Client(gate.ports[0x20]), gate.nodes[0x10]
        for node in ("02005E000001", "02005E000002", ""):
            said = gate.reload(text(f" node {node}" if node else ""))
            assert ": 0 added, 0 removed, 0 with another link, 0 with other clients, " in said and said.endswith("starts afresh\n"), said
            assert nodes_on(gate, 0x10) == there
            gate.nodes[0x10] = pc.gateway = bytes.fromhex(node) if node else made_up
            assert {it["node"] for it in gate.shown("links")[:2]} == {pc.gateway.hex().upper()}
            assert all_hear(present) and reaches(pc, far) and reaches(far, pc) and reaches(anna, far) and reaches(far, ben)
            newcomer = comes_to(gate, there[0])
            assert hears(newcomer, tells(pc, newcomer))
            pc.gateway = made_up
            pc.say(far.at(), b"to the node that was")
            pc.gateway = gate.nodes[0x10]
            assert comes_next(pc, far) == bool(node), "the gateway has one node"
        assert not is_told_to_leave(gate)


def limits_of_a_link():
    """Other limits of a link with frames are told, the share too, and its PC stays."""
    (port,) = free_ports(1)
    link = f"network 10 1 1424 qemu-tcp listen 127.0.0.1:{port} raw\n"
    with Changed(link) as gate, socket.create_connection(("127.0.0.1", port)) as pc:
        gate.told("network 00000010 is up")
        for below in ("rate 800 60\n", "rate 800 70\n", "rate none\n"):
            said = gate.reload(link + below)
            assert "0 with another link, 1 with other clients" in said and "router" not in said, said
        assert gate.counted(0x10, "connected") == 1 and pc.fileno() >= 0


def shares():
    """With another share of the tables a network's clients may advertise as much at once."""
    dropped = "too many advertisements"
    (port,) = free_ports(1)
    with Changed(at(0x10, port)) as gate:
        a = Client(port)

        def advertise():
            for _ in range(ADVERTISED):
                a.send(rip_response(0x10, a.node, [(0x99, 1, 2)]))
            return gate.counted(0x10, dropped)

        lost = advertise()
        gate.reload(at(0x10, port, ALL_THERE_IS))
        assert advertise() == lost > 0, lost


def sockets():
    """Sockets that are extended from now on are, and others aren't any more."""
    with Changed(tunnels(2)) as gate:
        a, b = Client(gate.ports[0x10]), Client(gate.ports[0x20])
        gate.reload(tunnels(2, extra="extend 4003\n"))
        a.say(address(0, EVERYONE, GAME), b"all")
        assert b.hear()[30:] == b"all"
        gate.reload(tunnels(2))
        a.say(address(0, EVERYONE, GAME), b"all")
        assert reaches(a, b)


def others_play(change, restore):
    """While the configuration changes again and again, two clients on a network that stays lose nothing, in either direction."""
    first, second = free_ports(2)
    stays = at(0x10, first, below="rate none\n")
    with Changed(stays + change(second)) as gate:
        a, b = Client(first), Client(first)
        count = 0
        for k in range(TIMES):
            for _ in range(BETWEEN):
                a.say(b.at(), b"%d" % count)
                b.say(a.at(), b"%d" % count)
                count += 1
            gate.reload(stays + (restore if k % 2 == 0 else change)(second))
        for one in (a, b):
            for k in range(count):
                heard = one.hear()
                assert heard is not None and heard[30:] == b"%d" % k, (k, heard)
        assert not is_told_to_leave(gate)


def a_link_is_another():
    """A link that changes is opened anew, again and again; on another network nothing is lost, and the router stays."""
    (third,) = free_ports(1)
    others_play(lambda port: at(0x20, port), lambda port: at(0x20, third))


def frames_on_another_link():
    """Where the one link of a network with frames is another, the router stays, and the gateway has the node there that it had."""
    text = at(0x10, "127.0.0.1:0") + "network 20 1 1490 qemu-udp {} {} {}\n"
    first, second = free_ports(2)
    wires = Udp(), Udp()
    with Changed(text.format(first, wires[0].port, "raw")) as gate:
        far, node = Client(gate.ports[0x10]), gate.nodes[0x20]
        for port, wire, kind in ((first, wires[1], "raw"), (second, wires[0], "raw"), (second, wires[0], "llc")):
            said = gate.reload(text.format(port, wire.port, kind))
            assert " 1 with another link, " in said and "afresh" not in said, said
            assert gate.shown("links")[1]["node"] == node.hex().upper(), "it has another node"
            wire.to = port
            station = Station(wire, kind, 0x20, b"\2\0\0\0\x0a\xa1", node)
            assert reaches(station, far) and reaches(far, station)


def networks_come_and_go():
    """Networks that are added and removed are so; on another network nothing is lost, though the router starts afresh."""
    others_play(lambda port: at(0x20, port) + at(0x30, "127.0.0.1:0"), lambda port: "")


def another_address():
    """A network is opened to all addresses of the machine: who is there at the same port stays."""
    (port,) = free_ports(1)
    with Changed(at(0x10, port)) as gate:
        a, b = Client(port), Client(port)
        said = gate.reload(at(0x10, f"0.0.0.0:{port}"))
        assert "1 with another link" in said and "router" not in said, said
        assert reaches(a, b)
        other = Client(port, host="127.0.0.3")
        assert reaches(other, other) and not is_told_to_leave(gate)
        (moved,) = free_ports(1)
        gate.reload(at(0x10, moved))
        gate.told(f"client {a.node.hex().upper()} leaves 00000010")
        assert gate.counted(0x10, "clients") == 0
        until(lambda: comes_in(moved), "somebody comes in at the other port")
        gate.reload(at(0x10, "127.0.0.1:0"))
        taken = port_in(gate.shown("links")[0]["link"])
        b = Client(taken)
        gate.reload(at(0x10, taken))
        assert reaches(b, b), "the port that was free is written into the file"
        gate.reload(at(0x10, "127.0.0.1:0"))
        b = Client(port_in(gate.shown("links")[0]["link"]))
        gate.reload(at(0x10, "0.0.0.0:0"))
        assert gate.shown("clients") == [], "nobody finds the tunnel at the port that is free now"
        gate.told(f"client {b.node.hex().upper()} leaves 00000010")


def a_link_is_taken():
    """A link that can't be opened is told and tried again each second; all others run on."""
    first, second = free_ports(2)
    with socket.socket(socket.AF_INET, socket.SOCK_DGRAM) as taken, Changed(at(0x10, first)) as gate:
        a = Client(first)
        taken.bind(("127.0.0.1", second))
        gate.write(at(0x10, first) + at(0x20, second))
        status, out, _ = asked(gate.path, "reload")
        assert status == 1 and "1 link can't be opened, which is tried again each second" in out, out
        assert reaches(a, a)
        assert [it["state"] for it in gate.shown("links")] == ["up", "down"]
        assert fault_words(errno.EADDRINUSE) in gate.shown("links")[1]["lacks"]
        taken.close()
        gate.told("network 00000020 is up")
        assert reaches(Client(second), a)
        gate.run.order(SYSTEM.end)
        gate.run.communicate(timeout=LIMIT)


def the_router_begins_anew():
    """Where its ports change the router takes leave, and asks its neighbours anew: their routes are back as soon as they answer."""
    with Changed(tunnels(2)) as gate:
        a, b = Client(gate.ports[0x10]), Client(gate.ports[0x20])
        a.send(rip_response(0x10, a.node, [(0x77, 2, 3)]))
        gate.until("00000077 hops 2")
        said = gate.reload(tunnels(2).replace("network 20 1", "network 20 5"))
        assert said.endswith("; the router starts afresh\n"), said
        assert b.hear(lambda it: is_farewell(it, 0x10)) is not None, "it takes leave"
        asks = a.hear(lambda it: socket_of(it) == 0x453 and it[30:32] == b"\0\1")
        assert asks is not None, "it asks for routes"
        assert gate.shown("routes") == []
        a.send(rip_response(0x10, a.node, [(0x77, 2, 3)]))
        gate.until("00000077 hops 2")
        assert reaches(a, b) and gate.shown("links")[1]["cost"] == 5 and not is_told_to_leave(gate)


def is_cut(gate, section, short):
    """Whether one of some who are shown a list heard its begin only, since it became shorter meanwhile. Each hears whole records."""
    long = len(gate.shown(section))
    gate.write(short)
    askers, orders = [gate.connects() for _ in range(ASKERS)], gate.connects()
    gate.report()
    for it in askers:
        it.sendall(f"show {section} json\n".encode())
    orders.sendall(b"reload\n")
    lengths = [len(json.loads(answer_of(it)[1:-2])) for it in askers]
    assert answer_of(orders)[-2:] == b"\0" + b"0"
    for it in (*askers, orders):
        it.close()
    return any(len(gate.shown(section)) < it < long for it in lengths)


def is_shortened(gate, long, short, section, fill):
    """A list is shown while it becomes shorter, until that comes between two pieces; then the gateway goes on."""
    for _ in range(CUT):
        gate.reload(long)
        fill()
        if is_cut(gate, section, short):
            return
    raise AssertionError(f"show {section} was never cut")


SHORT = "network F0 1 1424 dosbox 127.0.0.1:0\n"


def shown_while_links_go():
    """Who is shown links while most of them go is shown those that there are, whole."""
    udp = "qemu-udp [2001:db8:1:2:3:4:5:6]:{} [2001:db8:6:5:4:3:2:1]:5001 ethernet2\n"
    if not has_six():
        left_out("links that go while they are shown", "no address of IPv6 here, whose words are long")
        return
    if SYSTEM.words:
        left_out("links that go while they are shown", "this C library's words for what they lack are too short to fill a viewer's room")
        return
    several = "network 10 1 1424\n" + "".join("link " + udp.format(6000 + k) for k in range(32))
    single = "".join(f"network {0x20 + k:X} 1 1424 " + udp.format(7000 + k) for k in range(31))
    with Changed(SHORT) as gate:
        is_shortened(gate, several + single, SHORT, "links", lambda: None)


def shown_while_a_network_goes():
    """The same of clients, stations, routes and services, when their network goes."""
    (port,) = free_ports(1)
    long = f"network 10 1 1424 {ALL_THERE_IS}\nlink dosbox {port}\nrate none\nstrangers none\nlink qemu-tcp listen 127.0.0.1:0 raw\n"
    with Changed(SHORT) as gate:
        def come():
            node = bytes.fromhex(gate.shown("links")[0]["node"])
            come.there = [Client(port, gateway=node) for _ in range(MANY)]

        def tell():
            come.there = come.there[:0]
            a = Client(port, gateway=bytes.fromhex(gate.shown("links")[0]["node"]))
            advertise(a, [b"%d" % k for k in range(MANY)], [(0x1000 + k, 1, 2) for k in range(MANY)])

        for section, fill in (("clients", come), ("stations", come), ("routes", tell), ("services", tell)):
            is_shortened(gate, long, SHORT, section, fill)


def shown_while_counts_go():
    """The same of counts, when the networks go that have them."""
    ports = free_ports(32)
    long = "".join(f"network {0x10 + k:X} 1 1424 dosbox {port}\nrate none\nstrangers none\n" for k, port in enumerate(ports))
    with Changed(SHORT) as gate:
        def count():
            for port in ports:
                it = Client(port)
                for data in (b"no packet", bytes(1500), packet(it.at(), address(it.network, b"\2stran", GAME)),
                             packet(address(0x99, NOBODY, GAME), it.at()), packet(address(0, EVERYONE, GAME), it.at()),
                             packet(address(0, b"nobody", GAME), it.at()), packet(address(0, EVERYONE, RIP), it.at(), b"\0\7")):
                    it.send(data)
                assert reaches(it, it)
                it.close()

        is_shortened(gate, long, SHORT, "counts", count)


def followed():
    """Who follows what happens follows on, whatever changes."""
    with Changed(tunnels(1)) as gate, Follower(gate, "--json") as follower:
        gate.reload(tunnels(1) + "network 30 1 1500 qemu-tcp listen 127.0.0.1:0 raw\n")
        a = Client(gate.ports[0x10])
        follower.told(event="client comes", client=a.node.hex().upper())
        a.send(rip_response(0x10, a.node, [(0x77, 2, 3)]))
        follower.told(event="route comes", network="00000077", on="00000010")
        gate.reload(tunnels(1, first=0x8) + tunnels(1) + "network 30 1 1500 qemu-tcp listen 127.0.0.1:0 raw\n")
        follower.told(event="route goes", network="00000077", on="00000010")
        gate.reload(tunnels(1, first=0x40) + "network 30 1 1500 qemu-tcp listen 127.0.0.1:0 raw\n")
        follower.told(event="client leaves", client=a.node.hex().upper())
        gate.told("network 00000010 is removed")


def at_a_terminal():
    """At a terminal SIGHUP says that the terminal has gone: the gateway ends."""
    with tempfile.NamedTemporaryFile("w", encoding="ascii") as configuration:
        configuration.write(tunnels(1))
        configuration.flush()
        process, terminal = pty.fork()
        if process == 0:
            words = [*SYSTEM.quick, SYSTEM.program, configuration.name]
            os.execvp(words[0], words)
        told_until(terminal, b"network 00000010 on")
        os.kill(process, signal.SIGHUP)
        told_until(terminal, b"end of report")
        _, status = os.waitpid(process, 0)
        os.close(terminal)
        assert os.waitstatus_to_exitcode(status) == 0


# ---- In a network of the test's own ----


def address_of(card):
    return bytes.fromhex(json.loads(ip("-j", "link", "show", card))[0]["address"].replace(":", ""))


def another_card():
    """Where a network's interface is another, the gateway has that one's address there at once; where it isn't there yet, once it is."""
    text = "network 10 1 1424 dosbox 127.0.0.1:0\nnetwork 20 1 1490 interface {} raw\n"
    pair("v0", "v1")
    pair("w0", "w1")
    with Changed(text.format("v0")) as gate:
        gate.until("network 00000020 up")
        far = Client(gate.ports[0x10])
        for name, other in (("w0", "w1"), ("v0", "v1"), ("x0", None), ("w0", "w1")):
            said = gate.reload(text.format(name))
            assert ": 0 added, 0 removed, 1 with another link, " in said and ("afresh" in said) == (other is not None), said
            if other is None:
                assert gate.shown("links")[1]["state"] == "down" and reaches(far, far)
                continue
            card = address_of(name)
            assert gate.shown("links")[1]["node"] == card.hex().upper() and gate.shown("links")[1]["state"] == "up"
            station = Station(Packets(other, "raw"), "raw", 0x20, b"\2\0\0\0\x0a\xa1", card)
            assert reaches(station, far) and reaches(far, station) and gate.ports[0x10]
        assert not is_told_to_leave(gate)
    ip("link", "del", "v0")
    ip("link", "del", "w0")


def a_card_of_several_links():
    """Where a network's first link of several is a card, the gateway's node isn't the card's: the router stays, whatever card is there."""
    text = "network 10 1 1424\nlink interface {} raw\nlink dosbox 127.0.0.1:0\n"
    pair("v0", "v1")
    pair("w0", "w1")
    with Changed(text.format("v0")) as gate:
        there, node = comes_to(gate, nodes_on(gate, 0x10)[1]), gate.nodes[0x10]
        assert gate.reload(text.format("v0")).endswith(": nothing changed\n")
        said = gate.reload(text.format("w0"))
        assert ": 1 added, 1 removed, 0 with another link, " in said and "afresh" not in said, said
        assert {it["node"] for it in gate.shown("links")} == {node.hex().upper()}
        station = Station(Packets("w1", "raw"), "raw", 0x10, b"\2\0\0\0\x0a\xa1", node)
        assert hears(there, tells(station, there)) and hears(station, tells(there, station)) and not is_told_to_leave(gate)
    ip("link", "del", "v0")
    ip("link", "del", "w0")


def inside():
    """In the network of its own."""
    ip("link", "set", "lo", "up")
    if has_cards():
        return tried(another_card, *((a_card_of_several_links,) if hears_all_frames() else ()))
    left_out("another card by a reload", "no pair of interfaces can be made")
    return Counts()


def main():
    if not has_linux("reading the configuration anew"):
        return Counts()
    counts = tried(all_is_compared, nothing_changes, wrong_file, counts_go_on, refusals_go_on, refusals_at_a_shared_link,
                   rules_for_clients, nodes, silence_goes_on, newcomers, limits, limits_of_a_link, a_line, shares, sockets,
                   a_link_is_another, frames_on_another_link, networks_come_and_go, links_that_are_alike, a_node_of_several_links,
                   another_address, a_link_is_taken, the_router_begins_anew, shown_while_links_go, shown_while_a_network_goes,
                   shown_while_counts_go, followed, at_a_terminal)
    return counts + tried_inside(__file__, "cards beside a reload")


if __name__ == "__main__":
    begin(main, inside)

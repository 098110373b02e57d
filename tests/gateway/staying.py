"""What stays while the configuration is read anew: whoever is at a place that the file names still is heard there, and hears, on."""
import json
import socket

from cards import has_bridges, has_cards, has_taps, hears_all_frames, pair
from changed import Changed, at, comes_to, is_told_to_leave, nodes_on
from frames import Packets, Station, Tcp
from lab import EVERYONE, GAME, Client, Clock, address, free_ports, reaches, reaches_again, until
from reloading import FLOOD
from spaces import ip
from systems import SYSTEM
from trying import Counts, begin, has_linux, left_out, tried, tried_inside


def one_link_and_several():
    """A network gets more links, and has one again: who was there stays, and hears without a word of his own, at another address too."""
    (port,) = free_ports(1)
    one = at(0x10, "{}") + at(0x20, "127.0.0.1:0")
    several = "network 10 1 1424\nlink dosbox {}\nlink qemu-tcp listen 127.0.0.1:0 raw\n" + at(0x20, "127.0.0.1:0")
    with Changed(one.format(f"127.0.0.1:{port}")) as gate:
        anna, ben = Client(port), Client(port)
        for text, place in ((several, f"127.0.0.1:{port}"), (several, f"0.0.0.0:{port}"), (one, str(port)), (several, f"0.0.0.0:{port}")):
            gate.reload(text.format(place))
            anna.say(address(0x10, EVERYONE, GAME), b"to who only listens")
            assert ben.hear()[30:] == b"to who only listens"
            assert {it["client"] for it in gate.shown("clients")} == {it.node.hex().upper() for it in (anna, ben)}
        assert not is_told_to_leave(gate)


def other_kinds():
    """Where a link has another kind of frames, or another network's number, its PC isn't cut off: it may connect only once."""
    (port,) = free_ports(1)
    text = "network {} 1 1424 {}qemu-tcp listen 127.0.0.1:%d {}\n" % port + at(0x20, "127.0.0.1:0")
    with Changed(text.format(10, "", "raw")) as gate, socket.create_connection(("127.0.0.1", port)) as connection:
        gate.told("network 00000010 is up")
        far = Client(gate.ports[0x20])
        changes = ((0x10, "llc", ""), (0x10, "ethernet2", ""), (0x30, "ethernet2", ""), (0x30, "raw", "\nlink "), (0x10, "snap", ""))
        for number, kind, front in changes:
            gate.reload(text.format(f"{number:X}", front, kind))
            gate.told(f"network {number:08X} is up")
            pc = Station(Tcp(connection), kind, number, b"\2\0\0\0\0\1", gate.nodes[number])
            assert reaches(pc, far) and reaches(far, pc), (number, kind, front)
            assert gate.counted(number, "connected") == 1


def a_higher_limit_of_a_link():
    """A limit of a link with frames that was too low is forgotten as soon as the file has a higher one: all are heard there at once."""
    (port,) = free_ports(1)
    link = f"network 10 1 1424\nlink dosbox 127.0.0.1:0\nlink qemu-tcp listen 127.0.0.1:{port} raw\nrate "
    with Changed(link + "1\n") as gate, socket.create_connection(("127.0.0.1", port)) as connection:
        pc = Station(Tcp(connection), "raw", 0x10, b"\2\0\0\0\0\1", gate.nodes[0x10])
        gate.told("network 00000010 is up")
        anna = comes_to(gate, nodes_on(gate, 0x10)[0])
        for _ in range(FLOOD):
            anna.say(address(0x10, EVERYONE, GAME), b"too much")
        gate.until("lost: too much for a link")
        gate.reload(link + "800\n")
        anna.say(address(0x10, EVERYONE, GAME), b"heard at once")
        until(lambda: pc.hear()[30:] == b"heard at once", "what is said behind a reload")


# ---- In a network of the test's own ----


def a_tap_stays():
    """A TAP that the new file names too, for whatever network and in whatever kind of frames, isn't taken away: it stays in its bridge."""
    text = "network 10 {} 1424 dosbox 127.0.0.1:0\nnetwork 20 1 1424 tap tap0 raw\n"
    ip("link", "add", "br0", "type", "bridge")
    with Changed(text.format(1)) as gate:
        ip("link", "set", "tap0", "master", "br0")
        there = ip("-o", "link", "show", "tap0").split(":")[0]
        other, several = text.format(1).replace("raw", "auto"), text.format(1).replace("1424 tap", "1424\nlink tap")
        for more in (text.format(2), text.format(2) + "extend 4003\n", text.format(1) + at(0x30, "127.0.0.1:0"), text.format(1), other,
                     other.replace("network 20", "network 40"), several, several + "link dosbox 127.0.0.1:0\n", text.format(1)):
            gate.reload(more)
            shown = ip("-o", "link", "show", "tap0")
            assert shown.split(":")[0] == there and "master br0" in shown, shown
            assert gate.shown("links")[1]["link"] == f"tap tap0 {'auto' if 'auto' in more else 'raw'}"
    ip("link", "del", "br0")


def a_card_becomes_a_tap():
    """Where a network's interface becomes a TAP the gateway has a node of its own there: the card's would be another machine's by then."""
    text = "network 10 1 1424 dosbox 127.0.0.1:0\nnetwork 20 1 1490 {} raw\n"
    pair("v0", "v1")
    ip("link", "add", "br0", "type", "bridge")
    ip("link", "set", "br0", "up")
    with Changed(text.format("interface v0")) as gate:
        gate.until("network 00000020 up")
        far, card = Client(gate.ports[0x10]), gate.nodes[0x20]
        ip("link", "set", "v0", "master", "br0")
        said = gate.reload(text.format("tap tap0"))
        ip("link", "set", "tap0", "master", "br0")
        gate.told("network 00000020 is up")
        assert "afresh" in said and gate.nodes[0x20] != card and gate.shown("links")[1]["node"] == gate.nodes[0x20].hex().upper()
        station = Station(Packets("v1", "raw"), "raw", 0x20, b"\2\0\0\0\x0a\xa1", gate.nodes[0x20])
        assert reaches_again(station, far)
    ip("link", "del", "v0")
    ip("link", "del", "br0")


def a_card_becomes_one_of_several():
    """Where a network on an interface gets a second link, its card hears the frames for nodes there too; where it loses that, its own."""
    one = "network 10 1 1424 interface v0 raw\n"
    several = "network 10 1 1424\nlink interface v0 raw\nlink dosbox 127.0.0.1:0\n"
    pair("v0", "v1")
    with Changed(one) as gate:
        for text, count in ((one, 0), (several, 1), (several, 1), (one, 0)):
            gate.reload(text)
            about = json.loads(ip("-d", "-j", "link", "show", "v0"))[0]
            assert about["promiscuity"] == count, (text, about)
    ip("link", "del", "v0")


def links_that_are_one_cable():
    """Of two links that are one cable, the shut one is open at once where a reload writes it first, or takes the other away."""
    clock, head, opened, shut = Clock(), "network 10 1 1500\n", "link tap sega raw\n", "link tap segb raw\n"
    ip("link", "add", "br0", "type", "bridge")
    ip("link", "set", "br0", "up")
    for name in ("sega", "segb"):
        ip("tuntap", "add", name, "mode", "tap")
        ip("link", "set", name, "up", "master", "br0")
    with Changed(head + opened + shut, program=SYSTEM.fast, environment=clock.environment()) as gate:
        until(lambda: clock.let_pass(1) or "it is one cable with tap sega raw" in gate.report() + "".join(gate.lines), "one cable")
        # (no second passes from here on, after some of which what is quiet opens by itself)
        gate.reload(head + shut + opened)
        assert gate.told("network 00000010 is up: tap segb raw")
        assert gate.told("network 00000010 is down: tap sega raw").endswith(": it is one cable with tap segb raw")
        gate.reload(head + opened)
        assert gate.told("network 00000010 is up: tap sega raw")
    for name in ("sega", "segb", "br0"):
        ip("link", "del", name)


def inside():
    """In the network of its own."""
    ip("link", "set", "lo", "up")
    counts = Counts()
    if not has_cards():
        left_out("a card among several links by a reload", "no pair of interfaces can be made")
    elif hears_all_frames():
        counts.run(a_card_becomes_one_of_several)
    if has_taps() and has_bridges():
        return counts + tried(a_tap_stays, a_card_becomes_a_tap, links_that_are_one_cable)
    left_out("a TAP in its bridge beside a reload", "none can be made")
    return counts


def main():
    if not has_linux("who stays beside a reload"):
        return Counts()
    counts = tried(one_link_and_several, other_kinds, a_higher_limit_of_a_link)
    return counts + tried_inside(__file__, "cards and TAPs beside a reload")


if __name__ == "__main__":
    begin(main, inside)

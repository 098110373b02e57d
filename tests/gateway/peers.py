"""Gateways of several places that share one network over the Internet, as docs/HUB.md has them: from behind routers with NAT, by a hub with one
forwarded port or without one, while routers forget what they knew, and beside somebody who records, alters, cuts, forges and floods.

Homes and the Internet are homes.py; a place that the test plays itself is sealed.py.
"""
import contextlib
import errno
import os
import re
import socket
import struct
import subprocess
import tempfile
import time

from events import Follower
from frames import frame
from homes import NETWORK, PLAYERS_PORT, PORT, Street, key_file, lacks, place_text
from houses import blocks
from lab import AGAIN, EVERYONE, GAME, RIP, Client, address, fresh, is_routers, packet, reaches, tunnels, until
from players import FAST, Party
from sealed import MORE, NOBODYS, SODIUM, Place, new_key
from spaces import Flood, build_flood, ip, run
from status import KEYS, Watched
from systems import SYSTEM, TOP, Linux
from troubles import ends_well, troubled
from trying import begin, figures, left_out, tried, tried_on_own_system

HUB = f"198.51.100.1:{PORT}"
SECONDS = 4  # that players play
FLOOD = 8000  # datagrams a second
STRANGERS, MANY = "198.18.0.1", 500  # the first address of those who have no key, and how many they are
STATION = bytes.fromhex("020000000AA1")
MOST_PLACES = 64  # of a link
MEETS = 3  # seconds in which places find each other
QUIET = 7  # seconds of silence in which somebody who is there is called


PAGE = os.path.join(TOP, "docs", "HUB.md")


# ---- The page ----


def of_page(heading, key, **others):
    """The configuration of a part of the page, with the path of a key, and the addresses of others in place of their names."""
    (text,) = [it.lstrip("\n") for it in blocks(heading, PAGE) if it.lstrip("\n").startswith("network ")]
    for name, at in {"/etc/ipxr-gateway/hub.key": key, **{f"{name}.example.{end}:{PORT}": at for name, at in others.items()
                                                          for end in ("org", "net")}}.items():
        text = text.replace(name, at)
    return text


def hub_text(key):
    return of_page("The hub", key)


def other_text(key):
    return of_page("Each other place", key, play=HUB)


# ---- Places ----


class Play:
    """Some homes with gateways of one network, the first of which is the hub."""

    def __init__(self, texts, street, more=()):
        self.street, self.homes = street, street.homes
        for home, text in zip(self.homes, texts):
            home.starts(text, options=more)

    def party(self, each=1, listens=True):
        """Players at each place, who speak as a game does, and one at each who only listens."""
        party = Party([], None, numbers=(0, 0, 0))
        for home in self.homes:
            for _ in range(each):
                player = home.player(FAST)
                party.put_in("35 a second", player)
                party.speakers.append(player)
            if listens:
                party.put_in("listeners", home.player())
        return party

    def close(self):
        for home in self.homes:
            home.gate.__exit__(None)

    def __enter__(self):
        return self

    def __exit__(self, kind, *_):
        for home in self.homes:
            home.gate.__exit__(kind)


@contextlib.contextmanager
def keyed():
    """A folder with a key, and the path of its file."""
    with tempfile.TemporaryDirectory() as folder:
        os.chmod(folder, 0o755)
        key = new_key()
        yield key, key_file(folder, key)


@contextlib.contextmanager
def star(count=3):
    """A hub with one forwarded port, and places that call it from behind their routers."""
    with keyed() as (key, path), Street(count) as street:
        street.homes[0].forwards()
        with Play([hub_text(path), *[other_text(path)] * (count - 1)], street) as play:
            play.key, play.path = key, path
            yield play


def are_there(gate, count):
    """Waits until so many other places are there. Returns them as they are shown."""
    def there():
        found = [it for it in gate.shown("peers") if it["state"] == "there"]
        return found if len(found) == count else None

    return until(there, f"{count} places")


def plays(party, seconds=SECONDS):
    """They play, and nobody loses anything."""
    end = time.monotonic() + seconds
    party.play(lambda: time.monotonic() < end)
    fault = party.fault(party.settle())
    figures(party.figures())
    assert not fault, fault


def call(one, data):
    one.say(address(one.network, EVERYONE, GAME), data)


def finds(one, other):
    """Whether a broadcast of one comes to another. It is said again, since the other place may not be there yet."""
    data = fresh()

    def is_found():
        call(one, data)
        return other.hear(lambda it: not is_routers(it) and it[30:] == data, 0.5)

    return until(is_found, "a broadcast at another place")


def heard_next(one, near, data=None):
    """What one hears up to what another at the same place says now: nothing else is under way to it there."""
    last, heard = fresh() if data is None else data, []
    call(near, last)
    while not heard or heard[-1] != last:
        found = one.hear()
        assert found is not None, "what is said at the same place"
        heard.append(found[30:])
    return heard[:-1]


# ---- Tests ----


def a_hub_and_two_places():
    """Three places behind NAT, of which one forwards a port, are one network: players of all hear each other, each word once."""
    with star() as play:
        hub = play.homes[0].gate
        party = play.party(each=2)
        party.enter()
        plays(party)
        places = are_there(hub, 2)
        assert {it["peer"].split(":")[0] for it in places} == {"198.51.100.2", "198.51.100.3"}, places
        assert all(list(it) == KEYS["peers"] for it in places) and len(hub.asked("show", "peers").splitlines()) == 3
        assert all(it["in"] > 0 and it["out"] > 0 and it["heard"] <= 15 for it in places), places
        (shown,) = are_there(play.homes[1].gate, 1)
        assert shown["peer"] == HUB
        assert "\n  peers: 2\n" in hub.report() and "comes to network 00000100" in "\n".join(hub.lines)
        assert hub.counted(NETWORK, "lost: repeated") == hub.counted(NETWORK, "lost: not sealed by the key") == 0
        party.close()


def what_is_for_one_goes_to_one():
    """What a player says to one at another place goes there alone, once stations are known, and what is for one at his own place nowhere."""
    with star() as play:
        anna, ben, carl = (home.listens() for home in play.homes)
        near = play.homes[1].listens()
        assert finds(anna, ben) and finds(ben, carl) and finds(carl, anna) and reaches(ben, carl) and reaches(ben, near)
        play.street.datagrams()
        data = bytes(300)
        for _ in range(10):
            assert reaches(ben, carl, data) and reaches(ben, near, data)
        ends = {(one[0], other[0]) for one, other, bytes_ in play.street.datagrams() if len(bytes_) > len(data)}
        assert ends == {("198.51.100.2", "198.51.100.1"), ("198.51.100.1", "198.51.100.3")}, ends


def the_hub_starts_again():
    """While the hub is away each place plays on; once it is back all are one network again, and nobody has to do anything."""
    with star() as play:
        hub, there, elsewhere = play.homes
        party = play.party()
        party.enter()
        hub.gate.__exit__(None)
        ben, near = there.listens(), there.listens()
        assert reaches(ben, near)
        hub.starts(hub_text(play.path))
        began = time.monotonic()
        carl = elsewhere.listens()
        assert finds(ben, carl) and finds(carl, ben)
        figures(f"a broadcast came {time.monotonic() - began:.1f} s after the hub was back")
        are_there(hub.gate, 2)
        party.close()


def a_router_forgets():
    """A place's router loses the ways that it kept open: the hub finds the place at its next word, wherever that comes from."""
    with star() as play:
        hub, there, _ = play.homes
        anna, ben = hub.listens(), there.listens()
        assert finds(anna, ben) and finds(ben, anna)
        before = {it["peer"] for it in are_there(hub.gate, 2)}
        for _ in before:
            hub.gate.told("comes to network")
        there.forgets()
        began = time.monotonic()
        call(ben, fresh())
        assert finds(anna, ben) and finds(ben, anna)
        figures(f"both heard each other {time.monotonic() - began:.1f} s after a word of the place's")
        after = {it["peer"] for it in are_there(hub.gate, 2)}
        assert len(before & after) == 1 and (after - before).pop().startswith("198.51.100.2:"), (before, after)
        assert re.search(r"peer 198\.51\.100\.2:\d+ of network 00000100 was at 198\.51\.100\.2:\d+ before", hub.gate.told(" was at "))


def recorded(play, says):
    """The datagrams that went to the hub while something was said."""
    play.street.datagrams()
    says()
    return [bytes_ for _, to, bytes_ in play.street.datagrams() if f"{to[0]}:{to[1]}" == HUB]


def sends_again(datagrams):
    """Somebody on the Internet sends datagrams to the hub. Returns what comes back to him, and from how many he has sent."""
    with socket.socket(socket.AF_INET, socket.SOCK_DGRAM) as udp:
        for it in datagrams:
            udp.sendto(it, ("198.51.100.1", PORT))
            time.sleep(0.001)
        udp.settimeout(0.5)
        heard = []
        with contextlib.suppress(TimeoutError):
            while True:
                heard.append(udp.recv(65536))
    return heard


def recorded_datagrams():
    """What was recorded on its way to the hub and is sent again is refused and counted, also after the hub's restart: then each is greeted by no
    more bytes than it has, and nobody hears anything."""
    with star() as play:
        hub, there, _ = play.homes
        anna, near, ben = hub.listens(), hub.listens(), there.listens()
        assert finds(ben, anna) and reaches(near, anna)
        kept = recorded(play, lambda: [reaches(ben, anna) for _ in range(20)])
        assert len(kept) >= 20
        heard_next(anna, near)
        assert not sends_again(kept)
        hub.gate.until_counted(NETWORK, "lost: repeated", len(kept))
        assert not heard_next(anna, near)
        assert are_there(hub.gate, 2)[0]["peer"].startswith("198.51.100."), "nobody moved"
        hub.gate.__exit__(None)
        hub.starts(hub_text(play.path))
        anna, near = hub.listens(), hub.listens()
        assert finds(ben, anna) and reaches(near, anna)
        before = hub.gate.counted(NETWORK, "lost: of another session")
        heard_next(anna, near)
        answers = sends_again(kept)
        hub.gate.until_counted(NETWORK, "lost: of another session", before + len([it for it in kept if len(it) > MORE]))
        assert not heard_next(anna, near)
        assert len(answers) <= len(kept) and all(len(it) == MORE for it in answers), [len(it) for it in answers]


def another_key():
    """A place with another key hears nothing of the others, nor they of it, and the hub tells it."""
    with keyed() as (_, path), Street(3) as street, tempfile.TemporaryDirectory() as folder:
        os.chmod(folder, 0o755)
        street.homes[0].forwards()
        wrong = key_file(folder, new_key())
        with Play([hub_text(path), other_text(path), other_text(wrong)], street) as play:
            anna, ben, carl = (home.listens() for home in play.homes)
            near, own = play.homes[0].listens(), play.homes[2].listens()
            assert finds(anna, ben) and reaches(anna, near) and reaches(carl, own)
            for _ in range(20):
                call(carl, b"of nobody")
                call(anna, b"for nobody")
            assert b"of nobody" not in heard_next(near, anna) and b"for nobody" not in heard_next(own, carl)
            hub = play.homes[0].gate
            until(lambda: hub.counted(NETWORK, "lost: not sealed by the key") >= 20, "datagrams of another key")
            assert re.search(r"hears something from 198\.51\.100\.3:\d+ that isn't sealed by its key", hub.report() and "\n".join(hub.lines))
            assert len(are_there(hub, 1)) == 1
            (shown,) = play.homes[2].gate.shown("peers")
            assert (shown["peer"], shown["state"], shown["heard"]) == (HUB, "called", None)


def altered_and_cut():
    """A datagram of which any one byte is another, or that is cut anywhere, or longer, isn't heard, and is counted."""
    with star(2) as play:
        hub, there = play.homes
        anna, near, ben = hub.listens(), hub.listens(), there.listens()
        assert finds(ben, anna) and reaches(near, anna)
        (whole, *_) = recorded(play, lambda: reaches(ben, anna))
        heard_next(anna, near)
        before = hub.gate.counted(NETWORK, "lost: not sealed by the key")
        altered = [whole[:k] + bytes([whole[k] ^ 1 + k % 255]) + whole[k + 1 :] for k in range(len(whole))]
        cut = [whole[:k] for k in range(1, len(whole))] + [whole + b"x", whole.ljust(2000, b"x")]
        assert not sends_again(altered) and not sends_again(cut)
        hub.gate.until_counted(NETWORK, "lost: not sealed by the key", before + len(altered) + len(cut))
        assert not heard_next(anna, near)
        figures(f"{len(altered)} altered datagrams and {len(cut)} cut or longer ones")


def by_ipv6():
    """Places are one network by IPv6, too."""
    with keyed() as (_, path), Street(3) as street:
        hub = f"[{street.homes[0].six}]:{PORT}"
        texts = [place_text(path, at=f"[::]:{PORT}"), *[place_text(path, [hub], f"[::]:{PORT}")] * 2]
        with Play(texts, street) as play:
            party = play.party()
            party.enter()
            plays(party, 2)
            assert {it["peer"] for it in are_there(play.homes[0].gate, 2)} == {f"[{it.six}]:{PORT}" for it in street.homes[1:]}
            party.close()


def each_with_each():
    """Three places that name each other need no hub: each word crosses the Internet once for each other place, and nothing goes round."""
    with keyed() as (_, path), Street(3) as street:
        addresses = [f"{it.outside}:{PORT}" for it in street.homes]
        for it in street.homes:
            it.forwards()
        others = [[it for it in addresses if it != own] for own in addresses]
        texts = [f"{of_page('Without a hub', path, b=one, c=other)}link dosbox 0.0.0.0:{PLAYERS_PORT}\n" for one, other in others]
        with Play(texts, street) as play:
            for home in play.homes:
                are_there(home.gate, 2)
            party = play.party()
            party.enter()
            plays(party)
            anna, ben = play.homes[0].listens(), play.homes[1].listens()
            assert finds(anna, ben)
            street.datagrams()
            for _ in range(10):
                call(anna, bytes(400))
                time.sleep(FAST)
            assert ben.hear(lambda it: it[30:] == bytes(400))
            time.sleep(1)
            crossed = [(one[0], other[0]) for one, other, bytes_ in street.datagrams() if len(bytes_) > 400]
            assert sorted(crossed) == sorted([("198.51.100.1", "198.51.100.2"), ("198.51.100.1", "198.51.100.3")] * 10), crossed
            party.close()


def moved(gate):
    """How many times places were elsewhere than before."""
    gate.report()
    return len([it for it in gate.lines if " was at " in it])


def places_stay():
    """Places that name each other, and whose routers let out by another port what they forward, stay where they are once they have met."""
    with keyed() as (_, path), Street(3) as street:
        addresses = [f"{it.outside}:{PORT}" for it in street.homes]
        for it in street.homes:
            it.forwards()
        with Play([place_text(path, [it for it in addresses if it != own]) for own in addresses], street) as play:
            for home in play.homes:
                are_there(home.gate, 2)
            players = [home.listens() for home in play.homes]
            time.sleep(2 * MEETS)
            before, end = [moved(it.gate) for it in play.homes], time.monotonic() + 4 * MEETS
            while time.monotonic() < end:
                for one in players:
                    call(one, fresh())
                time.sleep(FAST)
            more = [moved(it.gate) - count for it, count in zip(play.homes, before)]
            figures(f"places moved {more} times in {4 * MEETS} s")
            assert sum(more) <= 3, more
            assert all(it["state"] == "there" for home in play.homes for it in home.gate.shown("peers"))
            assert finds(players[0], players[1]) and finds(players[1], players[2]) and finds(players[2], players[0])


def flooded_without_a_key():
    """While many addresses that have no key flood the hub, players lose under 2 %."""
    build_flood()
    with star() as play:
        party = play.party()
        party.enter()
        sent = Flood("forged", "junk", to=HUB, host=STRANGERS, hosts=MANY, first=1024, ports=4, rate=FLOOD, count=FLOOD * SECONDS)
        party.play(sent.lasts)
        figures(sent.end())
        fault = party.fault(party.settle())
        figures(party.figures())
        assert not fault, fault
        lost = play.homes[0].gate.counted(NETWORK, "lost: not sealed by the key")
        figures(f"the hub refused {lost} datagrams")
        assert lost > FLOOD * SECONDS / 4
        party.close()


def lines_of_peers_change():
    """A reload takes lines `peer` away and adds some: the link stays, with whoever is there, and calls those alone that are named."""
    with keyed() as (_, path), Street(2) as street:
        hub, there = street.homes
        hub.forwards()
        with Play([place_text(path), place_text(path, ["198.51.100.77:9"])], street):
            ben = there.listens()
            anna = hub.listens()
            (shown,) = there.gate.shown("peers")
            assert (shown["peer"], shown["state"]) == ("198.51.100.77:9", "called")
            for called, count in (([HUB, "198.51.100.77:9"], 1), ([HUB], 1)):
                reloads(there.gate, place_text(path, called))
                assert finds(ben, anna) and finds(anna, ben)
                are_there(there.gate, count)
                assert len(there.gate.shown("peers")) == len(called)
            (before,) = are_there(hub.gate, 1)
            reloads(there.gate, place_text(path, [HUB], more="# the same\n"))
            assert finds(ben, anna)
            (after,) = are_there(hub.gate, 1)
            assert after["peer"] == before["peer"] and after["in"] > before["in"], "the link stayed"
            reloads(there.gate, place_text(path, ["198.51.100.77:9"]))
            assert [it["state"] for it in there.gate.shown("peers")] == ["there", "called"]
            street.datagrams()
            time.sleep(QUIET)
            assert not [it for _, to, it in street.datagrams() if to[1] == PORT and len(it) == MORE], "the hub is called still"


def reloads(gate, text):
    """Gives a gateway another configuration."""
    with open(gate.configuration, "w", encoding="utf-8") as it:
        it.write(text)
    return gate.asked("reload")


# ---- On the loopback address ----


def here(path, called=(), more=""):
    """The configuration of a place that is tried on this machine's own address."""
    peers = "".join(f"peer {it}\n" for it in called)
    return f"network {NETWORK:X} 1 1360\nlink peers 127.0.0.1:0 {path} raw\n{peers}link dosbox 127.0.0.1:0\n{more}"


def port_of(gate, word="peers"):
    """The port that a link took."""
    (link,) = [it["link"] for it in gate.shown("links") if it["link"].startswith(f"{word} ")]
    return int(re.search(r" 127\.0\.0\.1:(\d+)", link)[1])


def word(data, to=EVERYONE):
    """A frame with what a station says."""
    return frame("raw", to, STATION, packet(address(NETWORK, to, GAME), address(NETWORK, STATION, GAME), data))


def as_the_page_says():
    """A datagram is what the page of the gateway says, by libsodium itself: greeted, heard, echoed; the window is 256 numbers long."""
    with keyed() as (key, path), Watched(here(path)) as gate:
        to = ("127.0.0.1", port_of(gate))
        one, other = Place(key, to), Place(key, to)
        one.comes()
        other.comes()
        one.say(word(b"hello"))
        assert other.hears(lambda it: b"hello" in it)[2] == other.session
        early = [one.made(word(b"early %d" % k)) for k in range(300)]
        one.send(early[-1])
        for it in early:
            one.send(it)
        gate.until_counted(NETWORK, "lost: repeated", 2)  # the highest number, and the one that is 256 less
        for it in early:
            one.send(it)
        gate.until_counted(NETWORK, "lost: repeated", 2 + len(early))
        one.session = os.urandom(16)
        one.say()
        assert gate.until("peers: 2"), "who begins again takes his own turn"
        one.close()
        other.close()


def a_name_is_called():
    """Another place may be named: who answers there is called by the name's address."""
    with keyed() as (_, path), Watched(here(path)) as hub:
        with Watched(here(path, [f"localhost:{port_of(hub)}"])) as gate:
            one, other = (Client(port_of(it, "dosbox"), gateway=it.nodes[NETWORK]) for it in (hub, gate))
            assert finds(one, other) and finds(other, one)
            (shown,) = are_there(gate, 1)
            assert shown["peer"] == f"127.0.0.1:{port_of(hub)}"
            one.close()
            other.close()


def places_are_told():
    """Who follows what happens is told each place that comes, moves, takes the turn of one that was at its address, or goes with another key."""
    with keyed() as (key, path), Watched(f"{tunnels(1)}network {NETWORK:X} 1 1360 peers 127.0.0.1:0 {path} raw\n") as gate:
        with Follower(gate, "--json") as follower:
            to = ("127.0.0.1", port_of(gate))
            place, elsewhere = Place(key, to), Place(key, to)
            before, after = (f"127.0.0.1:{it.udp.getsockname()[1]}" for it in (place, elsewhere))
            place.comes()
            follower.told(event="peer comes", network=f"{NETWORK:08X}", address=before)
            place.udp, elsewhere.udp = elsewhere.udp, place.udp
            place.say()
            follower.told(event="peer moves", address=after)
            place.session, place.number = os.urandom(16), 0
            place.comes()
            follower.told(event="peer leaves", address=after)
            follower.told(event="peer comes", address=after)
            key_file(os.path.dirname(path), new_key())
            assert "other keys" in gate.asked("reload")
            gate.told(f"network {NETWORK:08X} has another key: all places come anew")
            follower.told(event="peer leaves", address=after)
            for it in (place, elsewhere):
                it.close()


def all_places_are_taken():
    """More than 64 places at a time find no room, which is counted; those who are there stay."""
    with keyed() as (key, path), Watched(here(path)) as gate:
        to = ("127.0.0.1", port_of(gate))
        places = [Place(key, to) for _ in range(MOST_PLACES)]
        for it in places:
            it.comes()
        late = Place(key, to)
        late.say()
        late.other = late.hear()[0]
        late.say(word(b"late"))
        gate.until_counted(NETWORK, "lost: no room for a client", 1)
        places[0].say(word(b"first"))
        assert places[-1].hears(lambda it: b"first" in it)
        for it in (*places, late):
            it.close()


def keys_are_read():
    """The key file: none yet, one that others may read, one that is none, and a right one: each is told, and tried again each second."""
    with tempfile.TemporaryDirectory() as folder:
        path = os.path.join(folder, "hub.key")
        with Watched(here(path)) as gate:
            def lacks_now():
                (link,) = [it for it in gate.shown("links") if it["link"].startswith("peers ")]
                return link["lacks"] or ""

            assert lacks_now() == "can't open the key file: No such file or directory"
            key_file(folder, new_key())
            os.chmod(path, 0o644)
            until(lambda: "others may read the key file" in lacks_now(), "the rights are told")
            os.chmod(path, 0o600)
            until(lambda: not lacks_now(), "a link that is up")
            with open(path, "w", encoding="ascii") as it:
                it.write("00" * 31)
            gate.asked("reload")
            gate.told("goes on with the key that it had")
            key_file(folder, key := new_key())
            gate.asked("reload")
            place = Place(key, ("127.0.0.1", port_of(gate)))
            place.comes()
            place.close()
        with open(path, "w", encoding="ascii") as it:
            it.write("no key")
        with Watched(here(path)) as gate:
            assert "hasn't 64 hexadecimal digits" in lacks_now()


def keys_are_made():
    """`ipxr-gateway key` prints 64 hexadecimal digits, others each time."""
    said = [subprocess.run([*SYSTEM.quick, SYSTEM.program, "key"], capture_output=True, check=True).stdout for _ in range(2)]
    assert all(re.fullmatch(rb"[0-9a-f]{64}\r?\n", it) for it in said) and said[0] != said[1], said
    run = subprocess.run([*SYSTEM.quick, SYSTEM.program, "key", "more"], capture_output=True, check=False)
    assert run.returncode == 64 and b"'more': expected nothing more" in run.stderr


def lacks_libsodium(gate):
    """Whether a link says that it lacks libsodium."""
    (link,) = [it for it in gate.shown("links") if it["link"].startswith("peers ")]
    return "libsodium" in (link["lacks"] or "")


def without_libsodium():
    """Where libsodium isn't there the link says so, and all else goes on."""
    with keyed() as (_, path), Watched(here(path)) as gate:
        assert lacks_libsodium(gate)


def libsodium_is_installed():
    """While libsodium isn't there, as where an empty file is in its place, the link is down and says so; once it is, the link comes up by itself."""
    with open("/proc/self/maps", encoding="ascii") as it:
        (file,) = {line.split()[-1] for line in it if "libsodium" in line}
    hides = ["unshare", "-m", "sh", "-c", 'mount --bind /dev/null "$1" && shift && exec "$@"', "sh", file]
    with keyed() as (key, path), Watched(here(path), before=hides) as gate:
        assert lacks_libsodium(gate)
        run("nsenter", "-t", str(gate.run.process()), "-m", "umount", file)
        until(lambda: not lacks_libsodium(gate), "a link that is up")
        place = Place(key, ("127.0.0.1", port_of(gate)))
        place.comes()
        place.close()


def one_floods_with_the_key():
    """While a place that has the key floods, what others say still comes: each has a part of its own."""
    with keyed() as (key, path), Watched(here(path)) as gate:
        to = ("127.0.0.1", port_of(gate))
        guilty, one, other = (Place(key, to) for _ in range(3))
        for it in (guilty, one, other):
            it.comes()
        heard, end, count = 0, time.monotonic() + SECONDS, 0
        other.udp.setsockopt(socket.SOL_SOCKET, socket.SO_RCVBUF, 1 << 22)
        while time.monotonic() < end:
            for _ in range(FLOOD // 35):
                guilty.say(word(b"flood"))
            one.say(word(b"word %d" % count))
            count += 1
            time.sleep(FAST)
        other.udp.settimeout(1)
        with contextlib.suppress(TimeoutError):
            while True:
                heard += b"word " in other.hear()[3]
        figures(f"{heard} of {count} words came beside a flood")
        assert heard >= 0.98 * count
        for it in (guilty, one, other):
            it.close()


# ---- Calls that fail ----


# Each call that the link needs, its fault, and how many times it is let fail.
CALLS = [("socket", errno.EMFILE, 2), ("bind", errno.EADDRNOTAVAIL, 2), ("open", errno.EMFILE, 3), ("fdopen", errno.ENOMEM, 1),
         ("calloc", errno.ENOMEM, 6), ("malloc", errno.ENOMEM, 12), ("getrandom", errno.EINTR, 3), ("recvmmsg", errno.ENOMEM, 4),
         ("sendto", errno.ENETUNREACH, 6), ("sendmmsg", errno.EPERM, 3)]


def asks_routes():
    """A frame in which a station asks for all routes."""
    data = struct.pack(">HIHH", 1, 0xFFFFFFFF, 0xFFFF, 0xFFFF)
    return frame("raw", EVERYONE, STATION, packet(address(NETWORK, EVERYONE, RIP), address(NETWORK, STATION, RIP), data, kind=1))


def is_answered(place):
    """Whether a place that calls is greeted, and its station gets the router's routes. What is lost is said again."""
    place.udp.settimeout(AGAIN)
    with contextlib.suppress(TimeoutError):
        place.say(echo=NOBODYS)
        place.other = place.hear()[0]
        place.say()
        place.say(asks_routes())
        while not place.hear()[3].startswith(STATION):
            pass
        return True
    return False


def one_fails(key, path, name, fault, which):
    """A run in which one call fails: it can't start, and says why; or it goes on."""
    gate = troubled(f"network {NETWORK:X} 1 1360 peers 127.0.0.1:0 {path} raw\n{tunnels(1)}", name, fault, which)
    if gate is None:
        return
    gate.until_open(NETWORK)
    place = Place(key, ("127.0.0.1", gate.ports[NETWORK]))
    until(lambda: is_answered(place), f"{name} {which}")
    place.close()
    ends_well(gate, f"{name} {which}")


def each_call_fails():
    """Each call that the link needs fails once: the gateway doesn't start and says why, or goes on, under the sanitizers."""
    with keyed() as (key, path):
        for name, fault, times in CALLS:
            for which in range(1, times + 1):
                one_fails(key, path, name, fault, which)


HERE = (as_the_page_says, a_name_is_called, places_are_told, all_places_are_taken, keys_are_read, keys_are_made, one_floods_with_the_key, each_call_fails)
OF_HOMES = (a_hub_and_two_places, what_is_for_one_goes_to_one, the_hub_starts_again, a_router_forgets, recorded_datagrams, another_key,
            altered_and_cut, libsodium_is_installed, by_ipv6, each_with_each, places_stay, flooded_without_a_key, lines_of_peers_change)


def inside():
    """In the network that plays the Internet."""
    ip("link", "set", "lo", "up")
    return tried(*OF_HOMES)


def can_seal():
    """Whether libsodium is there for the tests, and for the gateway: one that is linked statically can't load it."""
    with keyed() as (_, path), Watched(here(path)) as gate:
        return SODIUM is not None and not lacks_libsodium(gate)


def main():
    if not can_seal():
        left_out("links by peers", "no libsodium, or the gateway can't load it")
        return tried(keys_are_made, without_libsodium)
    counts = tried(*(it for it in HERE if it is not each_call_fails or SYSTEM is Linux))
    if lack := lacks():
        left_out("links by peers from behind NAT", lack)
        return counts
    return counts + tried_on_own_system(__file__, "links by peers from behind NAT")


if __name__ == "__main__":
    begin(main, inside)

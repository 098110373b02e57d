"""Two houses that are joined over the Internet, by the configurations of docs/HOUSES.md: networks of the test's own play both houses, and
the network in which the test runs plays the Internet between them.

    house A  eth0 198.51.100.1 ---- 198.51.100.254 a0  [ the test ]  b0 203.0.113.254 ---- 203.0.113.2 eth0  house B
"""
import contextlib
import os
import re
import shutil
import socket
import subprocess
import tempfile
import time

from frames import frame
from lab import EVERYONE, GAME, GATEWAY, Client, address, comes_next, fresh, is_routers, packet, reaches, reaches_again, until
from spaces import Space, ip, run
from status import Watched
from systems import TOP
from trying import Counts, begin, has_linux, left_out, tried, tried_inside

PAGE = os.path.join(TOP, "docs", "HOUSES.md")
NAME_ON_PAGE, PORT_ON_PAGE = "a.example.net", 51820
OUTSIDE = {"A": "198.51.100.1", "B": "203.0.113.2"}
WITHIN = {"A": "10.73.0.1", "B": "10.73.0.2"}  # of WireGuard
HOME = {"A": "192.168.1.1", "B": "192.168.2.1"}
PLAYERS_PORT, LINKS_PORT = 2130, 5001
HUNDRED = 100
SHORT = 60  # bytes of IP that WireGuard sends when it has nothing to say
PACE = 35  # packets a second, as games say: beyond are limits
LONGEST, WHOLE = 1424, 1378  # bytes of the longest packet, and of the longest that WireGuard doesn't cut
ROUTER = bytes.fromhex("020000000EE5")  # that somebody pretends
ALL_FRAMES = 3  # ETH_P_ALL
UDP = 17


# ---- The page ----


def blocks(heading, page=PAGE):
    """The indented blocks of a part of a page, in order."""
    with open(page, encoding="utf-8") as it:
        part = re.split(r"(?m)^## ", it.read())
    text = next(it for it in part if it.startswith(heading))
    return ["".join(f"{line[4:]}\n" for line in it.splitlines()) for it in re.findall(r"(?m)(?:^    .*\n|^\n(?=    ))+", text)]


def of_house(texts, which):
    """The one of two texts that names a house's own address first."""
    return next(it for it in texts if re.search(r"10\.73\.0\.[12]", it)[0] == WITHIN[which])


def wireguards():
    return {which: of_house([it for it in blocks("WireGuard") if "[Interface]" in it], which) for which in WITHIN}


def gateways(first):
    """The configurations of both gateways: of one network over both houses, or of two, by the first one's first line."""
    texts = [it.lstrip("\n") for it in blocks("The gateways")]
    here = next(k for k, it in enumerate(texts) if it.startswith(first))
    return {which: of_house(texts[here : here + 2], which) for which in WITHIN}


def one_network():
    return gateways("network 10 1 1424\n")


def two_networks():
    return gateways("network 10 1 1424 dosbox")


# ---- Houses ----


class House(Space):
    """A house: its network, and a folder /run of its own, where WireGuard's programs find each other."""

    waits = ["unshare", "-n", "-m", "sh", "-c", "mount -t tmpfs tmpfs /run && echo && exec cat"]

    def __init__(self, which, card):
        super().__init__()
        self.within += ["-m"]
        self.which, self.folder = which, tempfile.TemporaryDirectory()
        self.file = os.path.join(self.folder.name, "ipx.conf")
        ip("link", "add", card, "type", "veth", "peer", "name", "eth0", "netns", str(self.holder.pid))
        beyond = OUTSIDE[which].rsplit(".", 1)[0] + ".254"
        ip("addr", "add", f"{beyond}/24", "dev", card)
        ip("link", "set", card, "up")
        self.ip("addr", "add", f"{OUTSIDE[which]}/24", "dev", "eth0")
        self.ip("link", "set", "eth0", "up")
        self.ip("addr", "add", f"{HOME[which]}/24", "dev", "lo")
        self.ip("route", "add", "default", "via", beyond)

    def joins(self, text):
        """Starts WireGuard as the page says."""
        with open(os.open(self.file, os.O_WRONLY | os.O_CREAT, 0o600), "w", encoding="utf-8") as it:
            it.write(text)
        self.run("wg-quick", "up", self.file)

    def player(self, gate, network, is_of_several):
        """A DOSBox at home."""
        with self.entered():
            node = gate.nodes[network] if is_of_several else GATEWAY
            return Client(PLAYERS_PORT, HOME[self.which], to=HOME[self.which], gateway=node)

    def close(self):
        if os.path.exists(self.file):
            subprocess.run([*self.within, "wg-quick", "down", self.file], stderr=subprocess.DEVNULL, check=False)
        super().close()
        self.folder.cleanup()


class Line:
    """What passes between house A and the Internet, as anybody on the way hears it."""

    def __init__(self):
        self.heard = socket.socket(socket.AF_PACKET, socket.SOCK_RAW, socket.htons(ALL_FRAMES))
        self.heard.bind(("a0", ALL_FRAMES))
        self.heard.setblocking(False)

    def datagrams(self):
        """What has come of IP: the port of UDP it goes to and comes from, and its bytes."""
        found = []
        with contextlib.suppress(BlockingIOError):
            while True:
                bytes_ = self.heard.recv(65536)
                if bytes_[12:14] == b"\x08\x00":
                    is_udp = bytes_[23] == UDP
                    ports = {int.from_bytes(bytes_[at : at + 2], "big") for at in (34, 36)} if is_udp else set()
                    found.append((ports, bytes_[14:]))
        return found

    def close(self):
        self.heard.close()


class Street:
    """Both houses, with the Internet between; joined by WireGuard, or by nothing."""

    def __init__(self, is_private=True):
        self.is_private = is_private
        self.houses = {"A": House("A", "a0"), "B": House("B", "b0")}
        self.line = Line()
        run("sh", "-c", "echo 1 >/proc/sys/net/ipv4/ip_forward")

    def join(self):
        texts = {which: it.replace(NAME_ON_PAGE, OUTSIDE["A"]) for which, it in wireguards().items()}
        for which in self.houses:
            private = run("wg", "genkey").strip()
            public = subprocess.run(["wg", "pubkey"], input=private, capture_output=True, text=True, check=True).stdout.strip()
            texts = {key: it.replace(f"PRIVATE-KEY-OF-{which}", private).replace(f"PUBLIC-KEY-OF-{which}", public)
                     for key, it in texts.items()}
        for which, house in self.houses.items():
            house.joins(texts[which])

    def players(self, gates, *networks):
        is_of_several = len(set(networks)) == 1
        return [house.player(gate, network, is_of_several) for house, gate, network in zip(self.houses.values(), gates, networks)]

    def close(self):
        self.line.close()
        for it in self.houses.values():
            it.close()
        for card in ("a0", "b0"):
            subprocess.run(["ip", "link", "del", card], stderr=subprocess.DEVNULL, check=False)

    def __enter__(self):
        try:
            if self.is_private:
                self.join()
        except Exception:
            self.close()
            raise
        return self

    def __exit__(self, *_):
        self.close()


@contextlib.contextmanager
def routing(street, texts):
    """The gateways of both houses."""
    with contextlib.ExitStack() as all_:
        yield [all_.enter_context(Watched(texts[which], before=house.within)) for which, house in street.houses.items()]


# ---- What happens there ----


def calls(one, data):
    one.say(address(one.network, EVERYONE, GAME), data)


def finds(one, other):
    """Whether a broadcast of one comes to the other. It is said again, since the other house may not be there yet."""
    data = fresh()

    def is_found():
        calls(one, data)
        return other.hear(lambda it: not is_routers(it) and it[30:] == data, 0.5)

    return until(is_found, "a broadcast in the other house")


def crossing(street, says, data):
    """Says something a hundred times, and returns the datagrams that crossed the Internet with so much in them or more."""
    street.line.datagrams()
    for _ in range(HUNDRED):
        says(data)
        time.sleep(1 / PACE)
    return [it for _, it in street.line.datagrams() if len(it) > len(data)]


def crossed(street, one, other):
    """How many of a hundred broadcasts at home, which another player at home hears, cross the Internet; and how long each is there."""
    data = bytes(HUNDRED - 30)

    def says(data):
        calls(one, data)
        assert other.hear(lambda it: not is_routers(it) and it[30:] == data) is not None

    found = crossing(street, says, data)
    return len(found), {len(it) for it in found}


def told(street, one, other):
    """How many of a hundred packets from one to another cross the Internet."""
    def says(data):
        assert reaches(one, other, data)

    return len(crossing(street, says, bytes(HUNDRED - 30)))


def pieces(street, one, other, length):
    """In how many datagrams a packet crosses the Internet that comes to another as it was; WireGuard's own are short."""
    street.line.datagrams()
    assert len(reaches(one, other, fresh().ljust(length - 30, b"."))) == length
    return sum(PORT_ON_PAGE in ports and len(it) > SHORT for ports, it in street.line.datagrams())


def forges(places, text):
    """Somebody in the Internet, or at house A, says a frame in house B's name to house A's link, by its address at both."""
    ip("addr", "add", f"{places['B']}/32", "dev", "lo")
    ip("route", "replace", f"{places['A']}/32", "via", OUTSIDE["A"], "dev", "a0")
    bytes_ = frame("raw", EVERYONE, ROUTER, packet(address(0x10, EVERYONE, GAME), address(0x10, ROUTER, GAME), text))
    try:
        with socket.socket(socket.AF_INET, socket.SOCK_DGRAM) as udp:
            udp.bind((places["B"], LINKS_PORT))
            for _ in range(HUNDRED):
                udp.sendto(bytes_, (places["A"], LINKS_PORT))
    finally:
        ip("addr", "del", f"{places['B']}/32", "dev", "lo")
        ip("route", "del", f"{places['A']}/32", "via", OUTSIDE["A"], "dev", "a0")


def hears_next(one, other):
    """What one hears up to what the other, at home too, says now."""
    last, heard = fresh(), []
    calls(other, last)
    while not heard or heard[-1] != last:
        found = one.hear()
        assert found is not None, "what is said at home"
        heard.append(found[30:])
    return heard


def one_network_over_both():
    """Two houses are one network by WireGuard: a broadcast finds both, long packets pass, and no datagram but WireGuard's crosses."""
    with Street() as street, routing(street, one_network()) as (one, _):
        anna, ben = street.players((one, _), 0x10, 0x10)
        assert finds(anna, ben) and finds(ben, anna)
        heard = reaches(anna, ben)
        assert heard[4] == 0, "no router between"
        reaches(ben, anna)
        assert pieces(street, anna, ben, WHOLE) == 1 and pieces(street, anna, ben, WHOLE + 1) == pieces(street, anna, ben, LONGEST) == 2
        shown = {it["station"]: it["link"] for it in one.shown("stations")}
        assert shown[ben.node.hex().upper()].startswith("qemu-udp 10.73.0.1:5001 "), shown
        street.line.datagrams()
        secret = fresh() * 8
        assert reaches(anna, ben, secret)
        passed = street.line.datagrams()
        assert passed and all(PORT_ON_PAGE in ports and secret[:20] not in it for ports, it in passed), "nothing else"


def what_crosses():
    """Of one network each broadcast at home crosses once, and what is for a player at home doesn't; of two networks neither does."""
    with Street() as street, routing(street, one_network()) as gates:
        anna, ben = street.players(gates, 0x10, 0x10)
        (near,) = [street.houses["A"].player(gates[0], 0x10, True)]
        assert finds(anna, ben) and reaches(anna, near)
        counted = crossed(street, anna, near)
        assert counted == (HUNDRED, {204}), counted
        assert told(street, anna, near) == 0
    with Street() as street, routing(street, two_networks()) as gates:
        anna, ben = street.players(gates, 0x10, 0x30)
        near = street.houses["A"].player(gates[0], 0x10, False)
        gates[0].until("00000030 hops 1")
        gates[1].until("00000010 hops 1")
        assert reaches_again(anna, ben)[4] == 2 and reaches(anna, near)
        assert crossed(street, anna, near)[0] == 0 and told(street, anna, near) == 0
        assert comes_next(anna, ben), "no broadcast came before"
        assert re.search(r"answers in \d+\.\d{3} ms: hops 1 ", gates[0].asked("trace", "30"))


def is_forged(gate, anna, near):
    """Whether what somebody says in house B's name is heard in house A; what came before is heard first."""
    hears_next(anna, near)
    forges(WITHIN, b"forged")
    until(lambda: gate.report(), "all heard that came")
    return b"forged" in hears_next(anna, near)


def nobody_else_comes_in():
    """By WireGuard nobody beside it speaks in the other house's name; with one alone of the two settings for that, Linux lets him."""
    with Street() as street, routing(street, one_network()) as gates:
        house = street.houses["A"]
        anna, ben = street.players(gates, 0x10, 0x10)
        near = house.player(gates[0], 0x10, True)
        assert finds(anna, ben) and finds(ben, anna) and reaches(anna, near)
        assert not is_forged(gates[0], anna, near)
        for path, early, is_let in ((1, 1, True), (0, 0, True), (1, 0, False)):
            house.set("ipv4/conf/eth0/rp_filter", path)
            house.set("ipv4/udp_early_demux", early)
            assert finds(ben, anna)
            assert is_forged(gates[0], anna, near) == is_let, (path, early)


def the_internet_fails():
    """While the Internet fails each house plays on, and both are together when it is back, without a word."""
    with Street() as street, routing(street, one_network()) as gates:
        anna, ben = street.players(gates, 0x10, 0x10)
        near = street.houses["A"].player(gates[0], 0x10, True)
        assert finds(anna, ben)
        ip("link", "set", "a0", "down")
        for _ in range(HUNDRED):
            assert reaches(anna, near)
            time.sleep(1 / PACE)
        assert gates[0].shown("links")[1]["state"] == "up", "datagrams don't tell"
        ip("link", "set", "a0", "up")
        ip("route", "replace", f"{OUTSIDE['A']}/32", "dev", "a0")
        assert finds(anna, ben) and finds(ben, anna)


def without_a_vpn():
    """Without WireGuard whoever is on the way reads everything, and whoever forges the other house's address speaks in its name."""
    texts = {which: it.replace(WITHIN["A"], OUTSIDE["A"]).replace(WITHIN["B"], OUTSIDE["B"]) for which, it in one_network().items()}
    with Street(is_private=False) as street, routing(street, texts) as gates:
        anna, ben = street.players(gates, 0x10, 0x10)
        assert finds(anna, ben)
        street.line.datagrams()
        secret = fresh() * 8
        assert reaches(anna, ben, secret)
        assert any(secret in it for _, it in street.line.datagrams())
        forges(OUTSIDE, b"forged")
        assert anna.hear(lambda it: it[30:] == b"forged") is not None


def lacks_of_wireguard():
    """What is missing for WireGuard, or None."""
    missing = [it for it in ("wg", "wg-quick", "sysctl") if not shutil.which(it)]
    if missing:
        return f"no {missing[0]}"
    made = subprocess.run(["ip", "link", "add", "wgtry", "type", "wireguard"], stderr=subprocess.DEVNULL, check=False).returncode == 0
    if made:
        ip("link", "del", "wgtry")
    if made or (shutil.which("wireguard-go") and os.path.exists("/dev/net/tun")):
        return None
    return "neither the kernel's WireGuard nor wireguard-go"


def inside():
    """In the network that plays the Internet."""
    ip("link", "set", "lo", "up")
    lacks, counts = lacks_of_wireguard(), Counts()
    if lacks is None:
        counts += tried(one_network_over_both, what_crosses, nobody_else_comes_in, the_internet_fails)
    else:
        left_out("two houses by WireGuard", lacks)
    return counts + tried(without_a_vpn)


def main():
    if has_linux("two houses", "networks of the test's own are Linux' alone"):
        return tried_inside(__file__, "two houses")
    return Counts()


if __name__ == "__main__":
    begin(main, inside)

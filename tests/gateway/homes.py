"""Homes on the Internet for tests, each behind a router with NAT of its own: networks of the test's own play all of it, and the one in which the
test runs plays the Internet.

    place 192.168.1.2 ---- 192.168.1.1 router 198.51.100.N ---- 198.51.100.254 [ the test ]
    2001:db8:N::2          2001:db8:N::1     2001:db8::N        2001:db8::fe

All homes have the same addresses at home. A router lets in what answers what went out; and, where it forwards a port, what comes there. By IPv6
it lets everything through.
"""
import contextlib
import os
import shutil
import socket
import subprocess

from lab import Client
from players import Player
from spaces import Space, ip, run
from status import Watched

INTERNET, HOME, PORT, PLAYERS_PORT = "street", "192.168.1", 2131, 2130
NETWORK = 0x100
FIRST_MASKED = 40000  # of the ports by which a router lets something out
ALL_FRAMES, SENT_HERE = 3, 4  # ETH_P_ALL, PACKET_OUTGOING
UDP = 17


def lacks():
    """What is missing for homes, or None."""
    missing = [it for it in ("nft", "ip") if not shutil.which(it)]
    return f"no {missing[0]}" if missing else None


class Home:
    """A router with NAT, and behind it a place with a gateway and players."""

    def __init__(self, number):
        self.number, self.outside, self.six = number, f"198.51.100.{number}", f"2001:db8:{number}::2"
        self.router, self.place = Space(), Space()
        self.card, self.ports = f"h{number}", FIRST_MASKED
        self.joins(self.card, self.router, "eth0")
        self.between()
        self.router.set("ipv4/ip_forward", 1)
        self.router.set("ipv6/conf/all/forwarding", 1)
        self.router.run("nft", "add table ip nat; add chain ip nat out { type nat hook postrouting priority 100; };"
                               "add chain ip nat in { type nat hook prerouting priority -100; }")
        self.masks()

    @staticmethod
    def joins(card, space, far):
        """A card of the Internet, and one of a router."""
        ip("link", "add", card, "type", "veth", "peer", "name", far, "netns", str(space.holder.pid))
        ip("link", "set", card, "master", INTERNET, "up")

    def between(self):
        """The cable at home; and the addresses."""
        self.router.ip("link", "add", "eth1", "type", "veth", "peer", "name", "eth0", "netns", str(self.place.holder.pid))
        for space, card, four, six in ((self.router, "eth1", f"{HOME}.1", f"2001:db8:{self.number}::1"),
                                       (self.place, "eth0", f"{HOME}.2", self.six)):
            space.ip("addr", "add", f"{four}/24", "dev", card)
            space.ip("addr", "add", f"{six}/64", "dev", card, "nodad")
            space.ip("link", "set", card, "up")
        self.goes_out()
        self.place.ip("route", "add", "default", "via", f"{HOME}.1")
        self.place.ip("-6", "route", "add", "default", "via", f"2001:db8:{self.number}::1")

    def goes_out(self):
        """The router is on the Internet."""
        self.router.ip("addr", "replace", f"{self.outside}/24", "dev", "eth0")
        self.router.ip("addr", "replace", f"2001:db8::{self.number}/64", "dev", "eth0", "nodad")
        self.router.ip("link", "set", "eth0", "up")
        self.router.ip("route", "replace", "default", "via", "198.51.100.254")
        self.router.ip("-6", "route", "replace", "default", "via", "2001:db8::fe")

    def masks(self):
        """What goes out has the router's address, and other ports than before."""
        self.router.run("nft", f"flush chain ip nat out; add rule ip nat out oifname eth0 meta l4proto udp masquerade to :{self.ports}-{self.ports + 99}")
        self.ports += 100

    def forgets(self):
        """The router loses all ways that it keeps open, as one does that is switched off and on: the next have other ports."""
        self.router.ip("link", "set", "eth0", "down")
        self.masks()
        self.goes_out()

    def forwards(self, port=PORT):
        """What comes to a port of the router is for the place."""
        self.router.run("nft", f"add rule ip nat in iifname eth0 udp dport {port} dnat to {HOME}.2:{port}")

    def listens(self, port=PLAYERS_PORT):
        """A DOSBox at home, as far as a test needs to see one."""
        with self.place.entered():
            return Client(port, f"{HOME}.2", to=f"{HOME}.2", gateway=self.gate.nodes[NETWORK])

    def player(self, every=None):
        with self.place.entered():
            return Player(f"{HOME}.2", (f"{HOME}.2", PLAYERS_PORT), every)

    def starts(self, text, **how):
        """Starts the gateway of the place."""
        self.gate = Watched(text, before=self.place.within, **how)
        return self.gate

    def close(self):
        self.router.close()
        self.place.close()


class Street:
    """Some homes, and the Internet between them."""

    def __init__(self, count):
        self.homes, self.heard = [], None
        try:
            self.begin(count)
        except Exception:
            self.close()
            raise

    def begin(self, count):
        ip("link", "set", "lo", "up")
        ip("link", "add", INTERNET, "type", "bridge")
        ip("addr", "add", "198.51.100.254/24", "dev", INTERNET)
        ip("addr", "add", "2001:db8::fe/64", "dev", INTERNET, "nodad")
        ip("link", "set", INTERNET, "up")
        run("sh", "-c", "echo 1 >/proc/sys/net/ipv6/conf/all/forwarding")
        for number in range(1, count + 1):
            self.homes.append(Home(number))
        for it in self.homes:
            ip("-6", "route", "add", f"2001:db8:{it.number}::/64", "via", f"2001:db8::{it.number}")
        self.heard = socket.socket(socket.AF_PACKET, socket.SOCK_RAW, socket.htons(ALL_FRAMES))
        self.heard.setblocking(False)

    def datagrams(self):
        """What routers sent on the Internet by UDP and IPv4: from where, to where, and the bytes."""
        found, cards = [], {it.card for it in self.homes}
        with contextlib.suppress(BlockingIOError):
            while True:
                bytes_, (card, _, way, *_) = self.heard.recvfrom(65536)
                if card not in cards or way == SENT_HERE or bytes_[12:14] != b"\x08\x00" or bytes_[23] != UDP:
                    continue
                ends = [(socket.inet_ntoa(bytes_[at : at + 4]), int.from_bytes(bytes_[port : port + 2], "big"))
                        for at, port in ((26, 34), (30, 36))]
                found.append((*ends, bytes_[42 : 34 + int.from_bytes(bytes_[38:40], "big")]))
        return found

    def close(self):
        if self.heard is not None:
            self.heard.close()
        for it in self.homes:
            it.close()
        subprocess.run(["ip", "link", "del", INTERNET], stderr=subprocess.DEVNULL, check=False)

    def __enter__(self):
        return self

    def __exit__(self, *_):
        self.close()


def key_file(folder, key, name="hub.key"):
    """A file with a key."""
    path = os.path.join(folder, name)
    with open(os.open(path, os.O_WRONLY | os.O_CREAT | os.O_TRUNC, 0o600), "w", encoding="ascii") as it:
        it.write(f"{key.hex()}\n")
    return path


def place_text(key, called=(), at=f"0.0.0.0:{PORT}", more=""):
    """The configuration of a place: one that calls nobody is a hub."""
    peers = "".join(f"peer {it}\n" for it in called)
    return f"network {NETWORK:X} 1 1360\nlink peers {at} {key} raw\n{peers}link dosbox 0.0.0.0:{PLAYERS_PORT}\n{more}"

"""Somebody on the Internet of homes.py, who hears what goes between a hub and its places, and between two gateways that RFC 1234 joins, and says
again what he recorded, as it was, altered or cut, and what he made up, in his own name and in others'. He hasn't the places' key."""
import collections
import contextlib
import random
import socket
import struct
import threading
import time

from altered import Frames
from homes import PORT
from lab import GAME, RIP, SAP, rip_response, sap_response, socket_of
from rfc1234 import NUMBER, node_of

BETWEEN_HARM = 0.005  # seconds between two turns
SELDOM = 200  # of how many turns a peer that tells lies to the router has one
KEPT, OLD = 2000, 500  # datagrams that were recorded: the last, and some of all times
HUB_AT = ("198.51.100.1", PORT)
SITES, TUNNEL_PORT = ("198.51.100.11", "198.51.100.12"), 213  # of the gateways that rfc1234 joins
LIAR = ("198.51.100.254", 5213)  # a third peer of theirs, which says what it likes
IGNORE_OUTGOING, SOL_PACKET = 23, 263


class Harm(threading.Thread):
    """Somebody on the Internet, who hears and says whatever he likes, in anybody's name."""

    def __init__(self, street, networks, seed):
        super().__init__(daemon=True)
        self.street, self.random, self.is_over, self.counts = street, random.Random(seed), False, collections.Counter()
        self.frames = Frames(seed, networks)
        self.last, self.old = collections.deque(maxlen=KEPT), []
        self.raw = socket.socket(socket.AF_INET, socket.SOCK_RAW, socket.IPPROTO_RAW)
        self.liar = socket.socket(socket.AF_INET, socket.SOCK_DGRAM)
        self.liar.bind(LIAR)
        self.liar.setblocking(False)
        street.heard.setsockopt(SOL_PACKET, IGNORE_OUTGOING, 1)
        self.turn, self.fault = 0, ""

    def says(self, what, one, to, data):
        """A datagram in somebody's name."""
        ends = socket.inet_aton(one[0]) + socket.inet_aton(to[0])
        head = struct.pack(">BBHHHBBH", 0x45, 0, 28 + len(data), 0, 0, 64, socket.IPPROTO_UDP, 0) + ends
        with contextlib.suppress(OSError):
            self.raw.sendto(head + struct.pack(">HHHH", one[1], to[1], 8 + len(data), 0) + data, (to[0], 0))
        self.counts[what] += 1

    def stranger(self):
        """Some address of the Internet."""
        return f"198.18.{self.random.randrange(4)}.{self.random.randrange(1, 250)}", self.random.randrange(1024, 1032)

    def records(self):
        for it in self.street.datagrams():
            if HUB_AT in it[:2]:
                self.last.append(it)
                if len(self.old) < OLD:
                    self.old.append(it)
                elif self.random.randrange(OLD) == 0:
                    self.old[self.random.randrange(OLD)] = it

    def changed(self, data):
        """A datagram as somebody changes it."""
        kind = self.random.choice(("sent again", "sent again", "altered", "altered", "cut", "made up"))
        whole = bytearray(data)
        if kind == "altered":
            for _ in range(self.random.randrange(1, 4)):
                whole[self.random.randrange(len(whole))] ^= self.random.randrange(1, 256)
        elif kind == "cut":
            whole = whole[: self.random.randrange(len(whole))] if self.random.randrange(4) else whole + self.random.randbytes(9)
        elif kind == "made up":
            whole = self.random.randbytes(self.random.randrange(1400))
        return kind, bytes(whole)

    def at_hub(self):
        """What was recorded goes to where it went, from there or from elsewhere; into a router comes what is in the hub's name."""
        if not self.last:
            return
        one, to, data = self.random.choice(self.old if self.random.randrange(2) else self.last)
        kind, data = self.changed(data)
        self.says(kind, one if to != HUB_AT or self.random.randrange(2) else self.stranger(), to, data)

    def made_packet(self):
        data = self.frames.altered(self.frames.packet())
        return b"" if len(data) >= 18 and socket_of(data) in (RIP, SAP) else data[:1400]

    def at_sites(self):
        """Strangers, and what is made up in a peer's name; but nothing that leads the router astray, which a peer's name allows."""
        ends = [(it, TUNNEL_PORT) for it in SITES]
        self.random.shuffle(ends)
        one, to = ends
        self.says("in a peer's name", one, to, self.made_packet())
        self.says("of strangers", self.random.choice((self.stranger(), (one[0], 1024))), to, self.frames.altered(self.frames.packet())[:1400])

    def lies(self):
        """A third peer says something, and seldom tells the router of routes and services."""
        number = self.random.randrange
        node, to = node_of(LIAR[0]), (self.random.choice(SITES), TUNNEL_PORT)
        data = self.made_packet()
        if self.turn % SELDOM == 0:
            data = self.random.choice((rip_response(NUMBER, node, [(0x1000 + number(400), number(17), number(9)) for _ in range(number(51))]),
                                       sap_response(NUMBER, node, [(number(9), f"S{number(99)}", NUMBER, node, GAME, number(17))])))
        with contextlib.suppress(OSError):
            self.liar.sendto(data, to)
            while self.liar.recv(65536):
                pass
        self.counts["of a third peer"] += 1

    def act(self):
        self.turn += 1
        self.records()
        self.at_hub()
        self.at_hub()
        self.at_sites()
        self.lies()

    def run(self):
        try:
            while not self.is_over:
                self.act()
                time.sleep(BETWEEN_HARM)
        except Exception as fault:  # (of whatever kind: who does harm must go on)
            self.fault = f"who does harm ends: {type(fault).__name__}: {fault}"

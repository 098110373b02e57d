"""Who is connected from far: what a PC by `qemu-tcp` and a page by `web` hear of a player, beside somebody who says as much as their limits let pass.

It runs in a network of its own. The way to them is as wide as can be, and loses nothing: each frame on it comes a while later.
"""
import collections
import fcntl
import functools
import os
import select
import socket
import struct
import threading
import time

from cards import has_cards, has_taps
from frames import Station, Tcp
from lab import EVERYONE, GAME, Client, Gateway, address, played_anew
from pages import Page
from players import MOST_LOST
from spaces import Space, ip
from trying import Counts, begin, figures, left_out, tried, tried_on_own_system

THERE_AND_BACK = 0.1  # seconds
OPEN_TAP, AS_TAP = 0x400454CA, 0x1002  # what the system calls the order that opens a TAP, without four bytes before each frame
GATEWAY, FAR, NEAR, HERE = "10.5.0.1", "10.5.0.2", "10.77.0.1", ["10.77.1.1", "10.77.1.2"]
LINK, PAGES, TUNNEL = 5201, 8080, 2130
TEXT = f"network 10 1 1424\nlink dosbox {NEAR}:{TUNNEL}\nlink qemu-tcp listen {GATEWAY}:{LINK} raw\nlink web {GATEWAY}:{PAGES}\norigins *\n"
PC = bytes.fromhex("020000000AA1")
SIZES, FLOOD, EVERY = [1394, 1394, 1394, 70], 1 / 900, 1 / 35  # bytes behind the header that somebody says, and seconds from a packet to the next
BEGINS, LASTS, LAST = 3, 6, 2  # seconds until TCP sends as fast as that, in which a player is counted, and in which the last may come


def tap(name):
    fd = os.open("/dev/net/tun", os.O_RDWR | os.O_NONBLOCK)
    fcntl.ioctl(fd, OPEN_TAP, struct.pack("16sH22x", name.encode(), AS_TAP))
    return fd


class Way(threading.Thread):
    """The way between two TAPs: each frame comes to the other end later."""

    def __init__(self, *ends):
        super().__init__(daemon=True)
        self.others, self.waiting = dict([ends, ends[::-1]]), collections.deque()
        self.start()

    def hears(self, end):
        try:
            while True:
                self.waiting.append((time.monotonic() + THERE_AND_BACK / 2, self.others[end], os.read(end, 1 << 16)))
        except OSError:
            return  # (nothing more has come)

    def run(self):
        while True:
            left = self.waiting[0][0] - time.monotonic() if self.waiting else None
            for end in select.select(list(self.others), [], [], left and max(0, left))[0]:
                self.hears(end)
            while self.waiting and self.waiting[0][0] <= time.monotonic():
                _, end, frame = self.waiting.popleft()
                try:
                    os.write(end, frame)
                except OSError:
                    pass  # (it is down)


def cable(space, near, far, own):
    """The near end is the gateway's, with an address, the far one this network's."""
    ip("link", "set", near, "netns", str(space.holder.pid))
    space.ip("addr", "add", f"{GATEWAY if near == 'd0' else NEAR}/16", "dev", near)
    space.ip("link", "set", near, "up")
    ip("link", "set", far, "up")
    for it in own:
        ip("addr", "add", f"{it}/16", "dev", far)


def everybody(client, data):
    client.say(address(0, EVERYONE, GAME), data)


def heard_of(client, other):
    """How many packets a player says beside a flood, and how many come to the other. (what comes is looked at when all is said)"""
    begins = time.monotonic() + BEGINS
    numbers, said, flooded = set(), 0, 0
    while time.monotonic() < begins + LASTS:
        now = time.monotonic()
        while flooded < (now - begins + BEGINS) / FLOOD:
            everybody(client[1], bytes(SIZES[flooded % len(SIZES)]))
            flooded += 1
        while said < (now - begins) / EVERY:
            everybody(client[0], b"play" + struct.pack(">I", said))
            said += 1
        time.sleep(0.002)
    while (heard := other.hear(lambda it: it[30:34] == b"play", LAST)) is not None:
        numbers.add(heard[34:38])
    return said, len(numbers)


def loses_little(other):
    clients = [Client(TUNNEL, host=it, to=NEAR, gateway=other.gateway) for it in HERE]
    said, heard = heard_of(clients, other)
    figures(f"of {said} packets {said - heard} were lost")
    assert heard >= (1 - MOST_LOST) * said, f"{said - heard} of {said} packets were lost"


class FarPC(Station, threading.Thread):
    """A PC that reads at once, whatever its test does meanwhile."""

    def __init__(self, gateway):
        Station.__init__(self, Tcp(socket.create_connection((GATEWAY, LINK))), "raw", 0x10, PC, gateway)
        threading.Thread.__init__(self, daemon=True)
        self.start()

    def run(self):
        try:
            while True:
                self.waiting += self.wire.receive()
        except OSError:
            return  # (the gateway has ended)

    def hear(self, wanted=None, patience=0):
        """(all has come: it is looked at when all was said)"""
        if patience and not getattr(self, "has_waited", False):
            time.sleep(patience)
            self.has_waited = True
        while self.waiting:
            bytes_ = self.waiting.pop(0)[14:]
            if wanted(bytes_):
                return bytes_
        return None


@functools.cache
def field():
    """The gateway's network: behind a way to those from far, and beside the players."""
    space = Space()
    Way(tap("d0"), tap("d1"))
    cable(space, "d0", "d1", [FAR])
    ip("link", "add", "t0", "type", "veth", "peer", "name", "g0")
    cable(space, "g0", "t0", HERE)
    return space


@played_anew
def a_far_pc():
    """A PC that is connected from far hears a player beside somebody who says 900 long and short packets a second"""
    with Gateway(TEXT, before=field().within) as gate:
        loses_little(FarPC(gate.nodes[0x10]))


@played_anew
def a_far_page():
    """So does a page that is connected from far"""
    with Gateway(TEXT, before=field().within) as gate:
        loses_little(Page(PAGES, gateway=gate.nodes[0x10], own=FAR, to=GATEWAY, Host=f"{GATEWAY}:{PAGES}"))


def inside():
    """In the network of its own."""
    if not has_cards() or not has_taps():
        left_out("connections from far", "no TAP can be made")
        return Counts()
    return tried(a_far_pc, a_far_page)


def main():
    return tried_on_own_system(__file__, "connections from far")


if __name__ == "__main__":
    begin(main, inside)

"""Real programs of all kinds on one network: a DOSBox, a page in Chromium, a PC in QEMU on a group of multicast, and a computer on a TAP.

It runs in a network of its own, since TAPs are root's there (cards.py).
"""
import shutil
import tempfile
import time

from browsers import BACK, CHROMIUM, HEARD, HOST, by_page
from cards import has_cards, has_taps
from dosbox import DosBox, told
from frames import Packets, Station
from lab import AGAIN, EVERYONE, GAME, LIMIT, Gateway, address, fresh, free_ports, until
from pc import MOST, NODE, Pc
from pc import missing as missing_for_pc
from players import NETWORK
from spaces import ip
from trying import Counts, begin, left_out, tried, tried_on_own_system

GROUP = "230.0.0.1"
CARD = bytes.fromhex("020000000CC3")  # of the computer on the TAP
NAME = "it is me"


class Everybody:
    """The gateway's network with its links, and all who are there."""

    def __init__(self):
        self.box_port, self.page_port, self.group_port = free_ports(3)
        self.group = f"{GROUP}:{self.group_port}"
        links = (f"dosbox {HOST}:{self.box_port}", f"web {HOST}:{self.page_port}", f"qemu-mcast {self.group} raw", "tap tap0 raw")
        self.gate = Gateway(f"network {NETWORK:X} 1 1424\n" + "".join(f"link {it}\n" for it in links))
        while len(self.gate.lines) < len(links):
            self.gate.line()
        ip("link", "set", "tap0", "up")
        self.card = Station(Packets("tap0", "raw"), "raw", NETWORK, CARD, self.gate.nodes[NETWORK])

    def sends_back(self, node):
        """Whether a program sends back to the card what that says to its node, once it has started."""
        data, end, heard = fresh(), time.monotonic() + MOST, None
        while heard is None and time.monotonic() < end:
            self.card.say(address(NETWORK, node, GAME), data, node=node)
            heard = self.card.hear(lambda it: it[30:] == data and it[22:28] == node, AGAIN)
        return heard is not None

    def meets_page(self):
        """The page says its name to all; it is answered by the card, and says to all that it heard that. Returns its node."""
        said = self.card.hear(lambda it: it[30:] == NAME.encode(), 2 * LIMIT)
        assert said is not None and said[10:16] == EVERYONE, "the page isn't heard"
        self.card.say(address(NETWORK, said[22:28], GAME), BACK, node=said[22:28])
        assert self.card.hear(lambda it: it[30:] == HEARD) is not None, "the page hears nothing"
        return said[22:28]


def on_one_network():
    """A DOSBox, a page in Chromium, a PC in QEMU and one on a TAP are on one network: the last reaches each, and each reaches it."""
    with tempfile.TemporaryDirectory() as folder:
        it = Everybody()
        with it.gate, Pc(folder, f"socket,mcast={it.group},localaddr={HOST}"):
            box = DosBox(folder, "reply", it.box_port)
            try:
                (dosbox,) = until(lambda: told(it.gate, "comes to"), "it is a client")
                with by_page(f"ws://{HOST}:{it.page_port}/ipx/{NETWORK:X}", NAME, folder, browser=CHROMIUM):
                    page = it.meets_page()
                    assert it.sends_back(dosbox) and it.sends_back(NODE)
                report = it.gate.report()
                assert all(node.hex().upper() in report for node in (dosbox, page, NODE, CARD)), report
            finally:
                box.kill()


def missing():
    """What such a network lacks here."""
    return missing_for_pc() + [it for it in ("dosbox", "chromium") if not shutil.which(it)]


def inside():
    """In the network of its own."""
    ip("link", "set", "lo", "up")
    if not has_cards() or not has_taps():
        left_out("real programs of all kinds on one network", "no TAP can be made")
        return Counts()
    return tried(on_one_network)


def main():
    if lacking := missing():
        left_out("real programs of all kinds on one network", f"no {lacking[0]}")
        return Counts()
    return tried_on_own_system(__file__, "real programs of all kinds on one network")


if __name__ == "__main__":
    begin(main, inside)

"""A gateway whose configuration changes while it runs; and who comes to its links, and stays or leaves."""
import re
import socket

from frames import Station, Tcp
from lab import AGAIN, GAME, Client, address, registration, until
from status import Watched


class Changed(Watched):
    """A gateway whose configuration changes."""

    def write(self, text):
        with open(self.configuration, "w", encoding="utf-8") as it:
            it.write(text)

    def reload(self, text):
        """It reads another configuration, which is right. Returns what it says it did."""
        self.write(text)
        return self.asked("reload")


def at(number, port, more="", below=""):
    return f"network {number:X} 1 1424 {more} dosbox {port}\n{below}"


def comes_in(port):
    """Whether who registers there comes in."""
    it = Client(port, registers=False)
    it.send(registration())
    return it.hear(it.is_answer, AGAIN) is not None


def is_told_to_leave(gate):
    """Whether any client left by now."""
    gate.report()
    return any(" leaves " in line for line in gate.lines)


def nodes_on(gate, network):
    """The links of a network as they are shown, each with the port that it took."""
    return [it["link"] for it in gate.shown("links") if it["network"] == f"{network:08X}"]


def port_in(link):
    return int(re.search(r":(\d+)", link)[1])


def comes_to(gate, link):
    """Who comes to a link of the network 10: a DOSBox, or a PC in an emulator."""
    if link.startswith("dosbox"):
        return Client(port_in(link), gateway=gate.nodes[0x10])
    connection = socket.create_connection(("127.0.0.1", port_in(link)))
    pc = Station(Tcp(connection), "raw", 0x10, b"\2\0" + connection.getsockname()[1].to_bytes(4, "big"), gate.nodes[0x10])
    pc.say(address(0x10, pc.gateway, GAME), b"I am here")
    until(lambda: (link, "up") in ((it["link"], it["state"]) for it in gate.shown("links")), "its link is up")
    return pc

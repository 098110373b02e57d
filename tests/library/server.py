"""Plays two players of DOSBox to the example of a server: server.py COMMAND.. which is run with a port behind it. Says nothing where all
goes well."""
import contextlib
import socket
import subprocess
import sys
import time

NETWORK, REGISTRATION, GAME = b"\0\0\0\x10", b"\0\2", b"\x45\x45"
NOBODY, EVERYBODY = bytes(6), b"\xff" * 6
SECONDS, TURNS = 3, 50
# How long a player who says nothing waits for a ping at most: the first comes in the seventh second.
PINGED = 12


def packet(to, source, port, data=b""):
    """A packet from a node to a node, from and to one socket; one that registers names no network."""
    network = NETWORK if source != NOBODY else bytes(4)
    length = (30 + len(data)).to_bytes(2, "big")
    return b"\xff\xff" + length + b"\0\0" + network + to + port + network + source + port + data


class Player:
    """A player, who has no node until the server's answer names one."""

    def __init__(self, port):
        self.udp = socket.socket(socket.AF_INET, socket.SOCK_DGRAM)
        self.udp.settimeout(SECONDS)
        self.udp.connect(("127.0.0.1", port))
        self.node = NOBODY

    def come(self):
        """Registers until the server answers."""
        for _ in range(TURNS):
            with contextlib.suppress(OSError):
                self.udp.send(packet(NOBODY, NOBODY, REGISTRATION))
                self.node = self.udp.recv(2000)[10:16]
                return
            time.sleep(0.1)
        sys.exit("the server doesn't answer")

    def answer(self):
        """Listens until the server's ping comes, and answers it."""
        self.udp.settimeout(PINGED)
        while (it := self.udp.recv(2000))[10:16] != EVERYBODY:
            pass
        self.udp.send(packet(it[22:28], self.node, REGISTRATION))

    def say(self, to, data):
        self.udp.send(packet(to, self.node, GAME, data))

    def hears(self, source, data):
        """Whether a packet comes, behind others."""
        with contextlib.suppress(OSError):
            while True:
                it = self.udp.recv(2000)
                if it[22:28] == source and it[30:] == data:
                    return True
        return False


def free_port():
    with socket.socket(socket.AF_INET, socket.SOCK_DGRAM) as it:
        it.bind(("127.0.0.1", 0))
        return it.getsockname()[1]


def play(port):
    """What goes wrong between a player who speaks and one who only listens at first, or nothing."""
    anna, ben = Player(port), Player(port)
    anna.come(), ben.come()
    if anna.node == ben.node or socket.inet_aton("127.0.0.1") in (anna.node[:4], ben.node[:4]):
        return "a node isn't a player's own, or tells where he is"
    anna.say(EVERYBODY, b"I am here")
    ben.answer()
    time.sleep(0.2)
    anna.say(EVERYBODY, b"who plays?")
    if not ben.hears(anna.node, b"who plays?"):
        return "what one says to all, the other doesn't hear"
    ben.say(anna.node, b"I do")
    return None if anna.hears(ben.node, b"I do") else "what one says to the other isn't heard"


def main(words):
    port = free_port()
    with subprocess.Popen([*words, str(port)]) as server:
        try:
            time.sleep(0.5)
            return play(port)
        finally:
            server.terminate()


if __name__ == "__main__":
    sys.exit(main(sys.argv[1:]))

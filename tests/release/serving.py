"""The commands of a page of which the last serves DOSBox's players: run, and two players come, as DOSBox does, and hear each other."""
import contextlib
import os
import re
import signal
import socket
import struct
import subprocess
import time

# (of a packet of IPX: where it has its receiver's node, its sender's node, and its data)
TO, FROM, DATA = slice(10, 16), slice(22, 28), slice(30, None)
REGISTRATION, GAME = 2, 0x4545
NOBODY, EVERYBODY = bytes(6), b"\xff" * 6
PORT, LOCAL = "2130", "127.0.0.1"
# (a compiler may go before)
SECONDS, SECONDS_A_TURN = 180, 0.1


def packet(to, source, at, data=b""):
    """A packet from a node to a node, between two sockets of one number."""
    return struct.pack(">HHBB4x6sH4x6sH", 0xFFFF, 30 + len(data), 0, 0, to, at, source, at) + data


class Player:
    """A player with the node that the server hands out."""

    def __init__(self, port):
        self.udp = socket.socket(socket.AF_INET, socket.SOCK_DGRAM)
        self.udp.setblocking(False)
        self.udp.connect((LOCAL, port))
        self.node, self.heard = None, []

    def send(self, *words):
        with contextlib.suppress(OSError):
            self.udp.send(packet(*words))

    def hear(self):
        """Hears what has come: the answer to a registration, pings, which are answered, and what others say."""
        with contextlib.suppress(OSError):
            while True:
                it = self.udp.recv(2000)
                if it[DATA]:
                    self.heard.append((it[FROM], it[DATA]))
                elif it[TO] != EVERYBODY:
                    self.node = it[TO]
                elif self.node:
                    self.send(it[FROM], self.node, REGISTRATION)

    def turn(self, to, data):
        """Comes, if he hasn't yet, or says something."""
        if self.node:
            self.send(to, self.node, GAME, data)
        else:
            self.send(NOBODY, NOBODY, REGISTRATION)
        self.hear()


def play(port, server):
    """What is wrong with how two players come to a server and hear each other, if anything is."""
    anna, ben, end = Player(port), Player(port), time.monotonic() + SECONDS
    while time.monotonic() < end:
        time.sleep(SECONDS_A_TURN)
        anna.turn(EVERYBODY, b"who plays?")
        ben.turn(anna.node or EVERYBODY, b"I do")
        if (anna.node, b"who plays?") in ben.heard and (ben.node, b"I do") in anna.heard:
            return ""
        if server.poll() is not None:
            return f"    it ended with {server.returncode}"
    return f"    they don't: {anna.node}, {anna.heard}, {ben.node}, {ben.heard}"


def free_port():
    with socket.socket(socket.AF_INET, socket.SOCK_DGRAM) as it:
        it.bind((LOCAL, 0))
        return it.getsockname()[1]


def ended(server):
    """How a server is ended, with what it has started, and what it said."""
    with contextlib.suppress(ProcessLookupError):
        os.killpg(server.pid, signal.SIGTERM)
    said = server.communicate(timeout=SECONDS)[0]
    return said.decode(errors="replace")


def differs(lines, folder):
    """What is wrong where the commands are run in a folder, at another port than the page's, if anything is."""
    port = free_port()
    lines = [re.sub(rf"\b{PORT}\b", str(port), it) for it in lines]
    if not any(str(port) in it for it in lines):
        return f"    no command names port {PORT}"
    script = "\n".join([*lines[:-1], f"exec {lines[-1]}"])
    how = {"stdin": subprocess.DEVNULL, "stdout": subprocess.PIPE, "stderr": subprocess.STDOUT}
    with subprocess.Popen(["sh", "-eu", "-c", script], cwd=folder, start_new_session=True, **how) as server:
        why = play(port, server)
        said = ended(server)
    return f"{why}\n{said}" if why else ""

"""Switches of VDE for the tests of the gateway: one that the test plays, Debian's, and a PC that is plugged in there."""
import contextlib
import os
import signal
import socket
import struct
import subprocess
import tempfile

from lab import LIMIT, ROOM, tunnels, until

SWITCH = "vde_switch"
REQUEST, PLACE = struct.Struct("=III"), struct.Struct("=H108s")
MAGIC, VERSION = 0xFEEDFACE, 3


def place_of(path):
    """An address as switches write it."""
    return PLACE.pack(socket.AF_UNIX, path.encode())


def path_in(place):
    return place[2:].partition(b"\0")[0].decode()


class Plug:
    """A PC at a switch: it asks for a port as any program does that speaks with VDE's library."""

    def __init__(self, switch, name="plug"):
        self.file = os.path.join(switch, name)
        self.socket = socket.socket(socket.AF_UNIX, socket.SOCK_DGRAM)
        self.socket.setsockopt(socket.SOL_SOCKET, socket.SO_RCVBUF, ROOM)
        self.socket.bind(self.file)
        self.call = socket.socket(socket.AF_UNIX, socket.SOCK_STREAM)
        self.call.settimeout(LIMIT)
        self.call.connect(os.path.join(switch, "ctl"))
        self.call.sendall(REQUEST.pack(MAGIC, VERSION, 0) + place_of(self.file) + b"a test")
        self.socket.connect(path_in(self.call.recv(PLACE.size)))

    def fileno(self):
        return self.socket.fileno()

    def send(self, bytes_):
        self.socket.send(bytes_)

    def receive(self):
        return [self.socket.recv(65536)]


class Port:
    """What a switch that the test plays has of one that it gave a port: the connection, and a socket of its own for frames."""

    def __init__(self, folder, call, number):
        self.call, self.number = call, number
        call.settimeout(LIMIT)
        request = call.recv(4096)
        magic, version, kind = REQUEST.unpack(request[: REQUEST.size])
        assert (magic, version, kind) == (MAGIC, VERSION, 0), request
        self.file = path_in(request[REQUEST.size :][: PLACE.size])
        self.who = request[REQUEST.size + PLACE.size :]
        self.path = os.path.join(folder, f"{number:03}")
        self.socket = socket.socket(socket.AF_UNIX, socket.SOCK_DGRAM)
        self.socket.connect(self.file)
        self.socket.bind(self.path)

    def answer(self):
        self.call.sendall(place_of(self.path))

    def fileno(self):
        return self.socket.fileno()

    def send(self, bytes_):
        self.socket.send(bytes_)

    def receive(self):
        return [self.socket.recv(65536)]

    def close(self):
        self.call.close()
        self.socket.close()
        os.remove(self.path)


class Played:
    """A switch that the test plays."""

    def __init__(self, folder, path=None, control="ctl"):
        self.folder = folder
        self.path = path or folder
        self.listener = socket.socket(socket.AF_UNIX, socket.SOCK_STREAM)
        self.listener.settimeout(LIMIT)
        at = os.path.join(folder, control)
        if os.path.exists(at):
            os.remove(at)
        self.listener.bind(at)
        self.listener.listen(8)
        self.count = 0

    def called(self):
        """The next who calls, and has said what is wanted. (on a slow machine one may have gone by then, and calls again)"""
        while True:
            call, _ = self.listener.accept()
            self.count += 1
            with contextlib.suppress(FileNotFoundError, ConnectionError, struct.error):
                return Port(self.folder, call, self.count)
            call.close()

    def gives(self):
        """The same with a port."""
        it = self.called()
        it.answer()
        return it

    def close(self):
        self.listener.close()


@contextlib.contextmanager
def folder_of():
    """A folder whose path is short enough for sockets."""
    with tempfile.TemporaryDirectory(prefix="vde", dir="/tmp") as it:
        yield it


def line(path, kind="raw"):
    return f"vde {path} {kind}"


def on_switch(path, kind="raw"):
    return tunnels(1) + f"network 20 1 1490 {line(path, kind)}\n"


def files_of(folder):
    """The files of plugs that the gateway has in a folder."""
    return sorted(it for it in os.listdir(folder) if it.startswith("ipxr-"))


def down(gate, path, why):
    """Waits until the link is told to be down, and why."""
    return gate.told(f"network 00000020 is down: {line(path)}: {why}")


def up(gate, network=0x20):
    """Waits until the link is up. (where the switch answers at once it was never down, and nothing is told)"""
    gate.until(f"network {network:08X} up")


class Real:
    """Debian's switch. It runs as long as it is told nothing more: its console ends it."""

    def __init__(self, path, *words):
        self.path = path
        self.run = subprocess.Popen([SWITCH, "-s", path, *words], stdin=subprocess.PIPE, stdout=subprocess.DEVNULL,
                                    stderr=subprocess.PIPE)
        until(self.listens, "a switch that listens")

    def listens(self):
        assert self.run.poll() is None, self.run.stderr.read().decode()
        with socket.socket(socket.AF_UNIX, socket.SOCK_STREAM) as it:
            return it.connect_ex(os.path.join(self.path, "ctl")) == 0

    def end(self, order=signal.SIGTERM):
        self.run.send_signal(order)
        self.run.communicate()

    def __enter__(self):
        return self

    def __exit__(self, *_):
        if self.run.poll() is None:
            self.end(signal.SIGKILL)

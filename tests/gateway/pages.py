"""WebSockets as a browser opens them (RFC 6455), written here on their own; a DOSBox in a page, and stations of a link with frames."""
import base64
import contextlib
import hashlib
import os
import socket
import struct

from lab import GATEWAY, LIMIT, ROOM, Client, ears

CONTINUED, TEXT, BINARY, CLOSE, PING, PONG = 0, 1, 2, 8, 9, 10
FOR_ALL = b"258EAFA5-E914-47DA-95CA-C5AB0DC85B11"
MASK = b"\x11\x22\x33\x44"


def head(path, **fields):
    """A request for a WebSocket, with fields that are named so in C; None leaves one out."""
    usual = {"Host": "127.0.0.1", "Upgrade": "websocket", "Connection": "Upgrade", "Sec_WebSocket_Version": "13",
             "Sec_WebSocket_Key": base64.b64encode(os.urandom(16)).decode()}
    lines = [f"{name.replace('_', '-')}: {value}\r\n" for name, value in {**usual, **fields}.items() if value is not None]
    return f"GET {path} HTTP/1.1\r\n{''.join(lines)}\r\n".encode()


def accepts(key):
    """What a server answers to a key."""
    return base64.b64encode(hashlib.sha1(key.encode() + FOR_ALL).digest()).decode()


def frame(number, bytes_, last=True, mask=MASK, reserved=0, length=None):
    """A frame of a client's: masked, in the fewest bytes, where nothing else is said."""
    size = len(bytes_) if length is None else length
    front = bytes([last << 7 | reserved << 4 | number])
    masked = 0x80 if mask else 0
    if size < 126:
        front += bytes([masked | size])
    elif size < 1 << 16:
        front += bytes([masked | 126]) + struct.pack(">H", size)
    else:
        front += bytes([masked | 127]) + struct.pack(">Q", size)
    return front + (mask + bytes(byte ^ mask[k % 4] for k, byte in enumerate(bytes_)) if mask else bytes_)


def connection(port, own="127.0.0.1", keeps=ROOM, to="127.0.0.1"):
    it = socket.socket()
    it.setsockopt(socket.SOL_SOCKET, socket.SO_RCVBUF, keeps)
    it.setsockopt(socket.IPPROTO_TCP, socket.TCP_NODELAY, 1)
    it.settimeout(LIMIT)
    it.bind((own, 0))
    it.connect((to, port))
    return it


def answer_to(port, request, own="127.0.0.1"):
    """The answer of HTTP to some bytes, as its status, its fields and its text; status 0 where the connection ends without one."""
    with connection(port, own) as it:
        it.sendall(request)
        text = b""
        with contextlib.suppress(ConnectionResetError):
            while piece := it.recv(65536):
                text += piece
    first, _, rest = text.partition(b"\r\n")
    fields, _, body = rest.partition(b"\r\n\r\n")
    named = dict(line.split(": ", 1) for line in fields.decode().split("\r\n") if line)
    return int(first.split()[1]) if first else 0, named, body.decode()


class Refused(Exception):
    """A WebSocket that wasn't opened: the answer's status."""


class WebSocket:
    """A connection on which messages go and come."""

    def __init__(self, port, path, own="127.0.0.1", keeps=ROOM, to="127.0.0.1", **fields):
        self.socket = connection(port, own, keeps, to)
        self.bytes, self.messages, self.closed = b"", [], None
        self.pongs, self.part = [], b""
        request = head(path, **fields)
        self.socket.sendall(request)
        while b"\r\n\r\n" not in self.bytes:
            piece = self.socket.recv(65536)
            if not piece:
                raise Refused(0)
            self.bytes += piece
        answer, _, self.bytes = self.bytes.partition(b"\r\n\r\n")
        if not answer.startswith(b"HTTP/1.1 101 "):
            self.socket.close()
            raise Refused(int(answer.split()[1]))
        key = request.decode().partition("Sec-WebSocket-Key: ")[2].partition("\r\n")[0]
        assert f"Sec-WebSocket-Accept: {accepts(key)}" in answer.decode(), answer
        self.cut()

    # ---- As a socket of datagrams, so that a client of the tunnel speaks by it ----

    def fileno(self):
        return self.socket.fileno()

    def getsockname(self):
        return self.socket.getsockname()

    def send(self, message):
        self.raw(frame(BINARY, message))

    def recv(self, _, flags=0):
        """The next message. Without one there is BlockingIOError where nothing waits."""
        while not self.messages:
            self.read(flags)
        return self.messages.pop(0)

    def close(self):
        self.socket.close()

    # ---- Frames ----

    def raw(self, bytes_):
        self.socket.sendall(bytes_)

    def read(self, flags=0):
        piece = self.socket.recv(65536, flags)
        if not piece:
            raise ConnectionError("the gateway has closed the connection")
        self.bytes += piece
        self.cut()

    def cut(self):
        """Takes what has come as frames, each of which a server sends whole and without a mask."""
        while len(self.bytes) >= 2:
            size, front = self.bytes[1], 2
            assert size < 127, "a server masks nothing, and nothing of its is so long that its length has eight bytes"
            if size == 126:
                if len(self.bytes) < 4:
                    return
                size, front = int.from_bytes(self.bytes[2:4], "big"), 4
                assert size >= 126
            if len(self.bytes) < front + size:
                return
            first, data = self.bytes[0], self.bytes[front : front + size]
            self.bytes = self.bytes[front + size :]
            assert first & 0xF0 == 0x80, "whole frames, with no bit that is reserved"
            self.take(first & 0x0F, data)

    def take(self, number, data):
        if number == BINARY:
            self.messages.append(data)
        elif number == PONG:
            self.pongs.append(data)
        elif number == CLOSE:
            self.closed = int.from_bytes(data[:2], "big") if data else 1005
        else:
            raise AssertionError(f"a frame {number}")

    def until(self, holds):
        """Reads until something holds."""
        while not holds():
            self.read()
        return True

    def end(self):
        """Waits until the gateway has closed the connection. Returns the status for which it did; 0 where it said none."""
        with contextlib.suppress(ConnectionError):
            while True:
                self.read()
        return self.closed or 0


class Page(Client):
    """A DOSBox in a page: a client of the tunnel by WebSocket."""

    def __init__(self, port, network=0x10, own="127.0.0.1", registers=True, answers=True, gateway=GATEWAY, **how):
        self.udp, self.is_heard = WebSocket(port, f"/ipx/{network:X}", own, **how), True
        self.begin(registers, answers, gateway)

    def receive(self):
        """All that has come."""
        try:
            self.udp.read(socket.MSG_DONTWAIT)
        except BlockingIOError:
            pass
        except OSError:
            self.stop()
        while self.udp.messages:
            with contextlib.suppress(OSError):
                self.take(self.udp.messages.pop(0))

    def stop(self):
        """Nothing more comes."""
        if self.is_heard:
            self.is_heard = False
            ears().remove(self)

    def close(self):
        self.stop()
        self.udp.close()


class Frames:
    """The other end of a link of `web` with frames, as frames.Station speaks by it."""

    def __init__(self, port, network, **how):
        self.web = WebSocket(port, f"/ethernet/{network:X}", **how)

    def fileno(self):
        return self.web.fileno()

    def send(self, bytes_):
        self.web.send(bytes_)

    def receive(self):
        if not self.web.messages:
            self.web.read()
        got, self.web.messages = self.web.messages, []
        return got

"""A place that the test plays: it seals and opens datagrams by libsodium itself, and not by the gateway's code."""
import ctypes
import ctypes.util
import os
import socket
import struct

from lab import LIMIT

FILES = ("libsodium.so.23", "libsodium.so.26")
SESSION, ONCE, PROOF = 16, 24, 16
MORE = ONCE + SESSION + PROOF  # bytes that a datagram has beside its frame
NOBODYS = bytes(SESSION)


def loaded():
    """libsodium, or None."""
    for name in FILES:
        try:
            it = ctypes.CDLL(name)
        except OSError:
            continue
        it.sodium_init()
        return it
    return None


SODIUM = loaded()


def new_key():
    return os.urandom(32)


def seal(key, session, number, echo, frame=b""):
    """A datagram."""
    once = session + struct.pack(">Q", number)
    room, plain = ctypes.create_string_buffer(len(frame) + MORE - ONCE), echo + frame
    SODIUM.crypto_aead_xchacha20poly1305_ietf_encrypt(room, None, plain, ctypes.c_ulonglong(len(plain)), None, ctypes.c_ulonglong(0), None,
                                                      once, key)
    return once + room.raw


def unseal(key, datagram):
    """The session, number, echo and frame of a datagram; None where it isn't sealed by the key."""
    if len(datagram) < MORE:
        return None
    room, length = ctypes.create_string_buffer(len(datagram) - ONCE - PROOF), ctypes.c_ulonglong(len(datagram) - ONCE)
    if SODIUM.crypto_aead_xchacha20poly1305_ietf_decrypt(room, None, None, datagram[ONCE:], length, None, ctypes.c_ulonglong(0),
                                                         datagram[:ONCE], key):
        return None
    return datagram[:SESSION], int.from_bytes(datagram[SESSION:ONCE], "big"), room.raw[:SESSION], room.raw[SESSION:]


class Place:
    """One that the test plays, by its socket."""

    def __init__(self, key, to, host="127.0.0.1", port=0):
        self.udp = socket.socket(socket.AF_INET, socket.SOCK_DGRAM)
        self.udp.bind((host, port))
        self.udp.settimeout(LIMIT)
        self.key, self.to = key, to
        self.session, self.number, self.other = os.urandom(SESSION), 0, NOBODYS

    def made(self, frame=b"", echo=None):
        """The next datagram."""
        self.number += 1
        return seal(self.key, self.session, self.number, self.other if echo is None else echo, frame)

    def say(self, frame=b"", echo=None):
        self.udp.sendto(self.made(frame, echo), self.to)

    def send(self, datagram):
        self.udp.sendto(datagram, self.to)

    def hear(self):
        """What comes next: session, number, echo and frame."""
        heard = unseal(self.key, self.udp.recv(65536))
        assert heard is not None, "it is sealed by another key"
        return heard

    def hears(self, wanted):
        """Waits for a frame."""
        while not wanted((heard := self.hear())[3]):
            pass
        return heard

    def comes(self):
        """It calls, and is greeted; then it knows the other's session, and is known."""
        self.say(echo=NOBODYS)
        self.other, _, echo, frame = self.hear()
        assert (echo, frame) == (self.session, b"")
        self.say()
        session, _, echo, frame = self.hear()
        assert (session, echo, frame) == (self.other, self.session, b"")

    def close(self):
        self.udp.close()

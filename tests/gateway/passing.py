"""Descriptors that are passed to the gateway by sockets of this machine, so that closing them waits."""
import array
import contextlib
import socket
import struct

from lab import until

LINGERS = 3600  # seconds for which closing a connection may wait


def unsent():
    """A connection with more to be sent than its other end takes: closing it waits. Returns it, and the other end."""
    with socket.socket() as listener:
        listener.bind(("127.0.0.1", 0))
        listener.listen()
        it = socket.create_connection(listener.getsockname())
        other, _ = listener.accept()
    it.setblocking(False)
    it.setsockopt(socket.SOL_SOCKET, socket.SO_LINGER, struct.pack("ii", 1, LINGERS))
    with contextlib.suppress(BlockingIOError):
        while True:
            it.send(bytes(65536))
    return it, other


def passes(by, data, sockets):
    """Sends a message with descriptors, and closes them here."""
    by.sendmsg([data], [(socket.SOL_SOCKET, socket.SCM_RIGHTS, array.array("i", [it.fileno() for it in sockets]))])
    for it in sockets:
        it.close()


def within():
    """A socket that holds another one, which waits there for an hour when it is closed. Returns it, and what keeps that so."""
    outer, inner = socket.socketpair(socket.AF_UNIX, socket.SOCK_STREAM)
    held, other = unsent()
    passes(outer, b"?", [held])
    return inner, (outer, other)


def state_of(gate):
    """The state of its process, by a letter."""
    with open(f"/proc/{gate.run.pid}/stat", encoding="ascii", errors="replace") as it:
        return it.read().rpartition(")")[2].split()[0]


@contextlib.contextmanager
def halted(gate):
    """The gateway stands still meanwhile: so it closes last what it is passed, and not the test, which would wait."""
    with gate.run.halted():
        until(lambda: state_of(gate) == "T", "a gateway that stands still")
        yield

"""A router for Python, over the shared library."""
import ctypes
from ctypes import POINTER, Structure, byref, c_bool, c_int32, c_size_t, c_uint8, c_uint16, c_uint32, c_void_p

NO_LIMIT = 65535


class Handle(Structure):
    _fields_ = [("made", c_bool), ("at", c_void_p)]


class Port(Structure):
    _fields_ = [
        ("network", c_uint32),
        ("node", c_uint8 * 6),
        ("cost", c_uint16),
        ("longest", c_uint16),
        ("routes", c_uint16),
        ("services", c_uint16),
    ]


class PacketSent(Structure):
    _fields_ = [("length", c_size_t), ("port", c_uint8), ("node", c_uint8 * 6)]


class RouteRecord(Structure):
    _fields_ = [
        ("network", c_uint32),
        ("hops", c_uint16),
        ("ticks", c_uint16),
        ("node", c_uint8 * 6),
        ("port", c_uint8),
        ("age", c_uint8),
    ]


BYTES = POINTER(c_uint8)
SIGNATURES = {
    "make": (c_int32, [POINTER(Port), c_size_t]),
    "free": (None, []),
    "start": (c_int32, []),
    "stop": (c_int32, []),
    "second": (c_int32, []),
    "packet": (c_int32, [c_uint8, BYTES, c_size_t]),
    "port_down": (c_int32, [c_uint8]),
    "port_up": (c_int32, [c_uint8]),
    "sent": (c_size_t, []),
    "get": (c_int32, [c_size_t, POINTER(PacketSent), BYTES, c_size_t]),
    "clear": (None, []),
    "routes": (c_size_t, []),
    "route": (c_int32, [c_size_t, POINTER(RouteRecord)]),
}


def load(path):
    """The library, with the signatures of the calls that are used here."""
    library = ctypes.CDLL(path)
    for name, (result, arguments) in SIGNATURES.items():
        call = getattr(library, "ipxr_" + name)
        call.restype, call.argtypes = result, [POINTER(Handle)] + arguments
    library.ipxr_word.restype, library.ipxr_word.argtypes = c_size_t, [c_int32, BYTES, c_size_t]
    return library


class Fault(Exception):
    """A call that did nothing."""


class Router:
    """A router of some ports, each a tuple: network, node (six bytes), cost, longest packet. Use it in a `with`."""

    def __init__(self, library, ports):
        self.library, self.handle = library, Handle()
        values = [Port(network, (c_uint8 * 6)(*node), cost, longest, NO_LIMIT, NO_LIMIT) for network, node, cost, longest in ports]
        # (one more than there are, since no pointer may be NULL)
        self.call("make", (Port * (len(values) + 1))(*values), len(values))

    def __enter__(self):
        return self

    def __exit__(self, *_):
        self.library.ipxr_free(byref(self.handle))

    def call(self, name, *arguments):
        """What a call answers; below 0 it is a fault."""
        answer = getattr(self.library, "ipxr_" + name)(byref(self.handle), *arguments)
        if answer is not None and answer < 0:
            raise Fault(self.word(answer))
        return answer

    def packet(self, port, data):
        return self.call("packet", port, (c_uint8 * (len(data) + 1))(*data), len(data))

    def word(self, answer):
        word = (c_uint8 * 32)()
        return bytes(word[: self.library.ipxr_word(answer, word, 32)]).decode("ascii")

    def take_sent(self):
        """The packets that are to be sent, which are then taken out: port, node, bytes."""
        packets = [self.sent(k) for k in range(self.call("sent"))]
        self.call("clear")
        return packets

    def sent(self, index):
        told, room = PacketSent(), (c_uint8 * 65535)()
        self.call("get", index, byref(told), room, len(room))
        return told.port, bytes(told.node), bytes(room[: told.length])

    def routes(self):
        for k in range(self.call("routes")):
            record = RouteRecord()
            self.call("route", k, byref(record))
            yield record

"""Packets as tools/packet words them, and what differs between two; and the numbers in them that stand for a router's own."""
import itertools
import struct

HEADER = 30
RIP, SAP, PROPAGATED = 0x453, 0x452, 20
EVERYONE = b"\xff" * 6
CROSSED = 8  # networks for which a packet of type 20 has room
ROUTE, SERVICE = 8, 64  # bytes of an entry
RESPONSE, NEAREST_RESPONSE = 2, 4
RIP_WORDS = {1: "rip request", RESPONSE: "rip response"}
SAP_WORDS = {1: "sap general-query", RESPONSE: "sap general-response", 3: "sap nearest-query", NEAREST_RESPONSE: "sap nearest-response"}
UNREACHABLE = 16  # hops
UNUSED, ALL_ROUTES = 0xFFFF, b"\xff" * 4
RUN = 8  # equal bytes that are worth being counted


def cut(bytes_):
    """A packet without what stands behind the length that it says; as it came, where that length isn't right."""
    length = int.from_bytes(bytes_[2:4], "big")
    return bytes_[:length] if HEADER <= length <= len(bytes_) else bytes_


def sockets(bytes_):
    """To which socket a packet goes, and from which."""
    return int.from_bytes(bytes_[16:18], "big"), int.from_bytes(bytes_[28:30], "big")


def is_of(bytes_, socket):
    return socket in sockets(bytes_)


def is_propagated(bytes_):
    return bytes_[5] == PROPAGATED and bytes_[10:16] == EVERYONE


def operation(bytes_):
    return int.from_bytes(bytes_[30:32], "big")


def is_response(bytes_):
    """Whether it tells routes or services."""
    return entry_size(bytes_) != 0 and operation(bytes_) in (RESPONSE, NEAREST_RESPONSE)


def entry_size(bytes_):
    """The bytes of each entry behind the operation, or 0 where there are none."""
    if is_of(bytes_, RIP) and operation(bytes_) in RIP_WORDS:
        return ROUTE
    return SERVICE if is_of(bytes_, SAP) and operation(bytes_) in (RESPONSE, NEAREST_RESPONSE) else 0


def entries(bytes_):
    """The entries of a request or a response, each as its bytes."""
    size = entry_size(bytes_)
    return [bytes_[at:at + size] for at in range(HEADER + 2, len(bytes_) - size + 1, size)] if size else []


def with_entries(bytes_, kept):
    """The same packet with other entries, and the length that it has then."""
    whole = bytes_[:HEADER + 2] + b"".join(kept)
    return whole[:2] + struct.pack(">H", len(whole)) + whole[4:]


def withdrawn(bytes_):
    """A response that says the opposite: what it tells can't be reached any more."""
    hops = struct.pack(">H", UNREACHABLE)
    return with_entries(bytes_, [it[:4] + hops + it[6:] if len(it) == ROUTE else it[:-2] + hops for it in entries(bytes_)])


def key(entry):
    """What an entry is about: a network, or the type and name of a service."""
    return entry[:4] if len(entry) == ROUTE else entry[:2] + entry[2:50].partition(b"\0")[0]


# ---- Words ----


def number(bytes_):
    return bytes_.hex().upper().lstrip("0") or "0"


def place(network, node):
    return f"{number(network)}.{'all' if node == EVERYONE else number(node)}"


def address(bytes_, socket=None):
    """Twelve bytes as NETWORK.NODE.SOCKET, or without the socket, if it is the one that it has anyhow."""
    own = int.from_bytes(bytes_[10:12], "big")
    return place(bytes_[:4], bytes_[4:10]) + ("" if own == socket else f".{own:X}")


def entry_words(entry):
    if len(entry) == ROUTE:
        network, hops, ticks = struct.unpack(">4sHH", entry)
        asked = hops == ticks == UNUSED
        return f"network={number(network)}" + ("" if asked else f" hops={hops} ticks={ticks}")
    kind, name, at, hops = struct.unpack(">2s48s12sH", entry)
    text = "".join(chr(it) if 33 <= it < 127 and it != 92 else f"\\{it:02X}" for it in name.partition(b"\0")[0])
    return f"type={number(kind)} name={text} at={address(at)} hops={hops}"


def data_words(bytes_):
    """Data in digits: 00x20 is 20 zeros."""
    parts = [""]
    for byte, run in itertools.groupby(bytes_):
        count = len(list(run))
        if count >= RUN:
            parts += [f"{byte:02X}x{count}", ""]
        else:
            parts[-1] += f"{byte:02X}" * count
    return f"data={','.join(it for it in parts if it)}"


def body(bytes_):
    """What a packet is, by its first words, and what stands behind its header in words."""
    data = bytes_[HEADER:]
    if is_propagated(bytes_) and len(data) >= 4 * CROSSED:
        crossed = [number(data[at:at + 4]) for at in range(0, 4 * min(bytes_[4], CROSSED), 4)]
        return "netbios", [f"crossed={','.join(crossed)}"] * bool(crossed) + [data_words(data[4 * CROSSED:])]
    if is_of(bytes_, RIP) and operation(bytes_) in RIP_WORDS:
        found = [] if entries(bytes_) == [ALL_ROUTES + b"\xff" * 4] else [entry_words(it) for it in entries(bytes_)]
        return RIP_WORDS[operation(bytes_)], found
    if is_of(bytes_, SAP) and operation(bytes_) in SAP_WORDS:
        found = [entry_words(it) for it in entries(bytes_)] or [f"type={number(data[2:4])}"]
        return SAP_WORDS[operation(bytes_)], found
    return "data", [data_words(data)]


OWN_SOCKETS = {"rip": RIP, "sap": SAP, "netbios": 0x455, "data": 0x4003}


def words(bytes_):
    """A packet as tools/packet words it, with to= and control= always."""
    if len(bytes_) < HEADER:
        return f"bytes {bytes_.hex().upper() or '-'}"
    kind, rest = body(bytes_)
    socket = OWN_SOCKETS[kind.split()[0]]
    checksum, length = bytes_[:2].hex().upper(), int.from_bytes(bytes_[2:4], "big")
    more = [f"checksum={checksum}"] * (checksum != "FFFF") + [f"length={length}"] * (length != len(bytes_))
    typed = [f"type={bytes_[5]}"] * (kind == "data")
    ends = [address(bytes_[18:30], socket), f"to={address(bytes_[6:18], socket)}"]
    return " ".join([kind, *ends, *typed, *rest, f"control={bytes_[4]}", *more])


def fields(bytes_):
    """What a packet has, by name, for a comparison."""
    kind, rest = body(bytes_)
    length = str(int.from_bytes(bytes_[2:4], "big"))
    return {"checksum": bytes_[:2].hex().upper(), "length": length, "control": str(bytes_[4]), "type": str(bytes_[5]),
            "to": address(bytes_[6:18]), "from": address(bytes_[18:30]), "kind": kind, "content": " ".join(rest)}


# ---- Numbers that stand for others ----


def mapped(bytes_, networks, nodes):
    """A packet with other networks, and other nodes in its two addresses: `nodes` has pairs of network and node, as they were."""
    if len(bytes_) < HEADER:
        return bytes_

    def at_address(it):
        return networks.get(it[:4], it[:4]) + nodes.get((it[:4], it[4:10]), it[4:10]) + it[10:]

    front, data = bytes_[:6] + at_address(bytes_[6:18]) + at_address(bytes_[18:30]), bytes_[HEADER:]
    if is_propagated(bytes_):
        room = min(len(data), 4 * CROSSED) // 4 * 4
        return front + b"".join(networks.get(data[k:k + 4], data[k:k + 4]) for k in range(0, room, 4)) + data[room:]
    if entry_size(bytes_) == ROUTE:
        data = data[:2] + b"".join(networks.get(it[:4], it[:4]) + it[4:] for it in entries(bytes_)) + trailing(bytes_)
    elif entry_size(bytes_) == SERVICE:
        data = data[:2] + b"".join(it[:50] + at_address(it[50:62]) + it[62:] for it in entries(bytes_)) + trailing(bytes_)
    return front + data


def trailing(bytes_):
    """What stands behind the last whole entry."""
    return bytes_[HEADER + 2 + len(entries(bytes_)) * entry_size(bytes_):]

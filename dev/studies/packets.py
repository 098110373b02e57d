"""Packets as a script says them, true ones and forged ones."""
RIP, SAP, OTHER = 0x0453, 0x0452, 0x4003
KIND_OF_RIP, KIND_OF_SAP, KIND_OF_PROPAGATED = 1, 4, 20
REQUEST, RESPONSE = 1, 2
ALL_NODES = 0xFFFFFFFFFFFF
ALL_ROUTES, ALL_SERVICES = 0xFFFFFFFF, 0xFFFF
NAME_LENGTH = 48
# Room for eight networks crossed.
NOT_CROSSED = "00" * 32


def packet(kind, to, source, data, control=0):
    """A packet; either end is a network, a node and a socket."""
    ends = "".join(f"{network:08X}{node:012X}{socket:04X}" for network, node, socket in (to, source))
    return f"FFFF{30 + len(data) // 2:04X}{control:02X}{kind:02X}{ends}{data}"


def broadcast(kind, network, node, socket, data, asked_from=None):
    """What a node says to all of its network; a request may come from another socket than it goes to."""
    return packet(kind, (network, ALL_NODES, socket), (network, node, asked_from or socket), data)


def routes(network, node, entries):
    """A response of routing information; each entry is a network, hops and ticks."""
    data = "".join("%08X%04X%04X" % it for it in entries)
    return broadcast(KIND_OF_RIP, network, node, RIP, f"{RESPONSE:04X}{data}")


def request(network, node, asked_from=RIP):
    """A request for all routes."""
    return broadcast(KIND_OF_RIP, network, node, RIP, f"{REQUEST:04X}{ALL_ROUTES:08X}FFFFFFFF", asked_from)


def services(network, node, entries):
    """A response of services; each entry is a type, a name, an address and hops."""
    words = ("%04X%s%08X%012X%04X%04X" % (kind, name.encode().hex().upper().ljust(2 * NAME_LENGTH, "0"), *address, hops)
             for kind, name, address, hops in entries)
    return broadcast(KIND_OF_SAP, network, node, SAP, f"{RESPONSE:04X}{''.join(words)}")


def query(network, node, asked_from=SAP):
    """A query for all services."""
    return broadcast(KIND_OF_SAP, network, node, SAP, f"{REQUEST:04X}{ALL_SERVICES:04X}", asked_from)


def propagated(network, node):
    return broadcast(KIND_OF_PROPAGATED, network, node, 0x0455, NOT_CROSSED)


def data(network, node, far):
    """A packet of a host for another network."""
    return packet(0, (far, 0xCC, OTHER), (network, node, OTHER), "")


def sent_far(text, far, control=0):
    """The same packet, for all nodes of another network."""
    return f"{text[:8]}{control:02X}{text[10:12]}{far:08X}{text[20:]}"

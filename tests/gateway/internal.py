"""The router's own network, which no cable carries: with it a router of one network answers, so that computers learn their network's number."""
import struct

from changed import Changed, port_in
from frames import Station, Udp
from lab import EVERYONE, NOBODY, RIP, Client, Gateway, address, comes_next, free_ports, packet, reaches, tunnels
from status import asked
from trying import begin, has_linux, tried

STATION = bytes.fromhex("020000000AA1")
NETWORK, OWN, CABLE = 0x10, 0xA1, 0x20
REQUEST = struct.pack(">HIHH", 1, 0xFFFFFFFF, 0xFFFF, 0xFFFF)  # for all routes
INTERNAL = f"internal {OWN:X}\n"
NODE = bytes(5) + b"\1"  # the router's there


def answer_to(client):
    """What the router answers to a request for all routes, and where it says that it is; None where nothing comes before the next packet."""
    client.say(address(0, EVERYONE, RIP), REQUEST, kind=1)
    mark = packet(client.at(), client.at(), b"mark")
    client.send(mark)
    found = client.hear(lambda it: it == mark or (it[28:30] == struct.pack(">H", RIP) and it[16:18] != struct.pack(">H", RIP)))
    return None if found == mark else (int.from_bytes(found[18:22], "big"), found[30:])


def one_network():
    """A router of one network answers no question; with a network of its own it does, and says by that which network it is."""
    told = struct.pack(">HIHH", 2, OWN, 1, 2)
    with Gateway(tunnels(1)) as gate:
        assert answer_to(Client(gate.ports[NETWORK])) is None
    with Gateway(tunnels(1) + INTERNAL) as gate:
        assert f"network {OWN:08X} is the router's own, node {NODE.hex().upper()}" in gate.report()
        assert answer_to(Client(gate.ports[NETWORK])) == (NETWORK, told)
    with Gateway(tunnels(1) + f"internal {OWN:X} node 02:00:00:00:00:77\n") as gate:
        assert f"network {OWN:08X} is the router's own, node 020000000077" in gate.report()


def a_pc_learns_its_number():
    """On one network over several links a PC that says 0 for its network hears from the router which it is."""
    wire = Udp()
    (port,) = free_ports(1)
    text = f"network {CABLE:X} 1 1424\nlink dosbox 127.0.0.1:0\nlink qemu-udp {port} {wire.port} raw\n"
    with Gateway(text + INTERNAL) as gate:
        wire.to = port
        pc = Station(wire, "raw", 0, STATION, gate.nodes[CABLE])
        pc.say(address(0, EVERYONE, RIP), REQUEST, node=EVERYONE, kind=1)
        heard = pc.hear(lambda it: it[28:30] == struct.pack(">H", RIP) and it[16:18] != struct.pack(">H", RIP))
        assert heard[18:28] == struct.pack(">I", CABLE) + gate.nodes[CABLE] and heard[6:10] == struct.pack(">I", CABLE), heard
        pc.network = int.from_bytes(heard[6:10], "big")
        player = Client(port_in(gate.lines[0]), gateway=gate.nodes[CABLE])
        pc.say(player.at(), b"from the PC", node=player.node)
        assert player.hear()[30:] == b"from the PC" and reaches(player, pc)


def nobody_is_there():
    """What is for the router's own network goes nowhere, and nobody else is hurt; it is shown, and asked for."""
    with Changed(tunnels(2) + INTERNAL) as gate:
        one, far = Client(gate.ports[0x10]), Client(gate.ports[0x20])
        for node in (NODE, EVERYONE, NOBODY):
            one.say(address(OWN, node, 0x4444), b"nobody")
        assert reaches(one, far) and comes_next(far, one)
        own = gate.shown("links")[-1]
        assert (own["network"], own["state"], own["node"], own["link"]) == (f"{OWN:08X}", "up", NODE.hex().upper(), "internal"), own
        for words in (("ping", f"{OWN:08X}.{NODE.hex()}"), ("trace", f"{OWN:X}")):
            assert asked(gate.path, *words)[2] == f"network {OWN:08X} is the router's own: nobody else is there\n"


def read_again():
    """It comes, changes and goes while the gateway runs: the router is made anew, and clients stay."""
    text = tunnels(1).replace(":0\n", f":{free_ports(1)[0]}\n")
    with Changed(text) as gate:
        one, other = Client(gate.ports[NETWORK]), Client(gate.ports[NETWORK])
        for below, words in ((INTERNAL, "router"), (INTERNAL, "nothing changed"), ("internal A2\n", "router"), ("", "router")):
            told = gate.reload(text + below)
            assert words in told, told
            said = answer_to(one)
            assert said == ((NETWORK, struct.pack(">HIHH", 2, int(below.split()[1], 16), 1, 2)) if below else None), said
            assert reaches(one, other) and reaches(other, one)
        assert gate.counted(NETWORK, "clients") == 2


def main():
    counts = tried(one_network, a_pc_learns_its_number)
    return counts + tried(nobody_is_there, read_again) if has_linux("the router's own network as it is shown", "the status socket is Linux' own") \
        else counts


if __name__ == "__main__":
    begin(main)

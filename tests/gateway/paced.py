"""The router's broadcasts on a link with frames: those of a table go out one by one, 55 milliseconds apart, so that the card of an old computer
has room for each.
"""
import time

from changed import Changed
from frames import Udp, frame, unframed
from lab import ALL_THERE_IS, EVERYONE, Client, Clock, Gateway, free_ports, is_routers, reaches, sap_response, tunnels, until
from systems import SYSTEM
from trying import Counts, begin, has_linux, tried

CABLE, SERVICES, OF_ONE = 0x20, 70, 7  # a network with frames; services, and those of a packet
SERVER, UNREACHABLE = 0x4010, 16
STEP, PERIOD = 0.056, 60  # seconds from a packet to the next, and from one broadcast of all to the next
PACKETS = 1 + SERVICES // OF_ONE  # of RIP and of SAP
LATE = 2  # seconds in which all of them have gone
LINKS, MANY = 32, 140 * 7  # cables and services: on all together more packets than may wait
STATION = bytes.fromhex("020000000AA1")


class Wire(Udp):
    """A wire that counts what the router says to all there."""

    def __init__(self):
        super().__init__()
        self.socket.setblocking(False)

    def heard(self):
        """Such packets that have come since one looked."""
        found = []
        while True:
            try:
                (bytes_,) = self.receive()
            except BlockingIOError:
                return [it for it in found if it is not None and is_routers(it)]
            found.append(unframed("raw", bytes_))

    def count(self):
        return len(self.heard())


def offers(client):
    """A client advertises services in more than a few packets, all of which are heard."""
    for first in range(0, SERVICES, OF_ONE):
        services = [(SERVER, f"S{first + k:02}", client.network, client.node, 0x451, 1) for k in range(OF_ONE)]
        client.send(sap_response(client.network, client.node, services))
    assert reaches(client, client)


def goes_out(gate, clock, wire, seconds):
    """How many of the router's packets go out as time passes."""
    clock.let_pass(seconds)
    gate.report()
    return wire.count()


def a_table_goes_out_one_by_one():
    """By a set clock: of what the router says each minute one packet goes out at once, and one more each 55 milliseconds."""
    wire, clock = Wire(), Clock()
    text = tunnels(1, extra="rate none\n", shares=ALL_THERE_IS) + f"network {CABLE:X} 1 1490 qemu-udp 0 {wire.port} raw\n"
    with Gateway(text, program=SYSTEM.fast, environment=clock.environment()) as gate:
        wire.to = gate.ports[CABLE]
        offers(Client(gate.ports[0x10]))
        while goes_out(gate, clock, wire, STEP) > 0:
            pass  # (what it says of changes)
        first = next(count for _ in range(2 * PERIOD) if (count := goes_out(gate, clock, wire, 1)) > 0)
        then = [goes_out(gate, clock, wire, STEP) for _ in range(PACKETS - 1)]
        assert first == 1 and then == [1] * (PACKETS - 1), (first, then)
        assert goes_out(gate, clock, wire, LATE) == 0


def all_goes_at_the_end():
    """What waits goes out before the router takes leave, and with it."""
    wire, clock = Wire(), Clock()
    text = tunnels(1, extra="rate none\n", shares=ALL_THERE_IS) + f"network {CABLE:X} 1 1490 qemu-udp 0 {wire.port} raw\n"
    with Gateway(text, program=SYSTEM.fast, environment=clock.environment()) as gate:
        wire.to = gate.ports[CABLE]
        offers(Client(gate.ports[0x10]))
        gate.report()
        wire.count()
        gate.end()
        assert wire.count() >= PACKETS - 1


def leave_goes_by_the_old_link():
    """A reload by which the router starts afresh, and a network gets another link: its old one hears at once that all services are gone, the new
    one of none that is."""
    old, new = Wire(), Wire()
    own, cable = free_ports(2)
    text = f"network 10 1 1424 65535 65535 dosbox 127.0.0.1:{own}\nrate none\n"
    link = f"network {CABLE:X} 1 1490 qemu-udp 127.0.0.1:{cable} 127.0.0.1:%d raw\n"
    with Changed(text + link % old.port) as gate:
        offers(Client(gate.ports[0x10]))
        until(lambda: f"services: {SERVICES}\n" in gate.report(), "all services")
        assert "afresh" in gate.reload(text.replace("10 1 1424", "10 2 1424") + link % new.port)
        gone = {service[2:50].rstrip(b"\0") for service in services_in(old.heard()) if hops_of(service) == UNREACHABLE}
        assert len(gone) == SERVICES, len(gone)
        time.sleep(LATE)
        assert all(hops_of(service) < UNREACHABLE for service in services_in(new.heard()))


def services_in(packets):
    """Each service of responses, as it stands there."""
    return [it[at:at + 64] for it in packets if it[16:18] == b"\x04\x52" for at in range(32, len(it) - 63, 64)]


def hops_of(service):
    return int.from_bytes(service[62:64], "big")


def last_hops(packets, name):
    """The hops of a service as it was told last."""
    return [hops_of(it) for it in services_in(packets) if it[2:50].rstrip(b"\0") == name][-1]


def none_overtakes():
    """Where more would wait than there is room for on all links, each link hears of a service that went that it is gone, and nothing else after."""
    wires, clock = [Wire() for _ in range(LINKS)], Clock()
    text = "".join(f"network {CABLE + k:X} 1 1490 qemu-udp 0 {wire.port} raw\n" for k, wire in enumerate(wires))
    with Gateway(text, program=SYSTEM.fast, environment=clock.environment()) as gate:
        for k, wire in enumerate(wires):
            wire.to = gate.ports[CABLE + k]
        names = [f"S{k:04}" for k in range(MANY)]
        for first in range(0, MANY, OF_ONE):
            services = [(SERVER, name, CABLE, STATION, 0x451, 1) for name in names[first:first + OF_ONE]]
            wires[0].send(frame("raw", EVERYONE, STATION, sap_response(CABLE, STATION, services)))
            gate.report()
        wires[0].send(frame("raw", EVERYONE, STATION, sap_response(CABLE, STATION, [(SERVER, names[-1], CABLE, STATION, 0x451, 16)])))
        assert f"services: {MANY - 1}\n" in gate.report()
        heard = [[] for _ in wires]
        for _ in range(LATE * 4):
            clock.let_pass(1)
            gate.report()
            for wire, packets in zip(wires, heard):
                packets += wire.heard()
        assert all(last_hops(packets, names[-1].encode()) == 16 for packets in heard[1:])


def main():
    if not has_linux("what the router says one by one", "the clock that a test sets is Linux' own"):
        return Counts()
    return tried(a_table_goes_out_one_by_one, all_goes_at_the_end, none_overtakes, leave_goes_by_the_old_link)


if __name__ == "__main__":
    begin(main)

"""A gateway that runs asks stations whether they answer, and routers for their way."""
import re

from lab import EVERYONE, GATEWAY, NOBODY, TUNNEL, Client, address, packet, played_anew, reaches, socket_of, tunnels
from status import Watched, asked
from trying import begin, tried

DIAGNOSTIC = 0x456
MILLISECONDS = r"\d+\.\d{3} ms"


class Station(Client):
    """A client that answers as somebody does: by its function of a packet that came, to what it sends back."""

    def __init__(self, port, answer_to):
        self.answer_to = answer_to
        super().__init__(port)

    def meets(self, bytes_):
        answer = self.answer_to(self, bytes_) if self.network else None
        if answer:
            self.send(answer)


def as_dosbox(own, bytes_):
    """DOSBox answers a packet for all at the socket of pings, whoever sent it."""
    if socket_of(bytes_) == TUNNEL and bytes_[10:16] == EVERYONE and bytes_[22:28] == GATEWAY:
        return packet(address(0, bytes_[22:28], TUNNEL), address(0, own.node, TUNNEL), kind=0)
    return None


def as_diagnostics(own, bytes_):
    """A station that answers at the socket of diagnostics."""
    if socket_of(bytes_) == DIAGNOSTIC and bytes_[30:] == b"\0":
        return packet(bytes_[18:30], own.at(DIAGNOSTIC), b"\1\1", kind=0)
    return None


def name(network, node):
    return f"{network:08X}.{node.hex().upper()}"


@played_anew
def pinged():
    """A client that answers as DOSBox does is pinged, one that is silent is told so, and where there is none that is told."""
    with Watched(tunnels(1)) as gate:
        a, silent = Station(gate.ports[0x10], as_dosbox), Client(gate.ports[0x10])
        out = gate.asked("ping", name(0x10, a.node))
        assert len(re.findall(rf"(?m)^answer \d from {name(0x10, a.node)} in {MILLISECONDS}, through 0 routers$", out)) == 4, out
        assert out.startswith(f"asks {name(0x10, a.node)} at socket 0002\n") and out.endswith("\n4 asked, 4 answered\n"), out
        status, out, _ = asked(gate.path, "ping", name(0x10, silent.node))
        assert status == 1 and out.endswith("no answer to 4\n4 asked, 0 answered\n"), out
        assert reaches(silent, silent), "who is asked stays"
        status, _, complaint = asked(gate.path, "ping", name(0x10, NOBODY[:5] + b"\7"))
        assert (status, complaint) == (1, f"{name(0x10, NOBODY[:5] + bytes([7]))} is no client\n")
        assert asked(gate.path, "ping", name(0x99, a.node))[1:] == ("", "there is no route to network 00000099\n")


@played_anew
def at_a_socket():
    """A station is asked at the socket that is named, with the byte of NetWare's diagnostics that leaves nobody out."""
    with Watched(tunnels(1)) as gate:
        a = Station(gate.ports[0x10], as_diagnostics)
        out = gate.asked("ping", f"{name(0x10, a.node)}.0456")
        assert out.startswith(f"asks {name(0x10, a.node)} at socket 0456\n") and out.endswith("4 asked, 4 answered\n"), out


@played_anew
def traced():
    """A trace shows the route, and asks the router on the way for its own; the gateway's own networks are told."""
    link = "network 20 2 1490 qemu-tcp {} raw\n"
    with Watched(tunnels(1) + link.format("listen 127.0.0.1:0")) as one:
        other = tunnels(1, first=0x30) + link.format(f"connect 127.0.0.1:{one.ports[0x20]}")
        with Watched(other) as two:
            one.until("00000030 hops 1")
            two.until("00000010 hops 1")
            out = one.asked("trace", "30")
            node = two.nodes[0x20].hex().upper()
            first, second = out.splitlines()
            assert re.fullmatch(rf"network 00000030: hops 1 ticks 3 by {node} on 00000020, advertised \d+ s ago", first), out
            assert re.fullmatch(rf"00000020.{node} answers in {MILLISECONDS}: hops 1 ticks 3", second), out
            a = Station(two.ports[0x30], as_diagnostics)
            out = one.asked("ping", name(0x30, a.node))
            assert out.startswith(f"asks {name(0x30, a.node)} at socket 0456\n"), out
            assert out.endswith("4 asked, 4 answered\n") and "through 1 router\n" in out, out
            assert one.asked("trace", "10").startswith("network 00000010 is the gateway's own, and up: dosbox 127.0.0.1:")
            with two.run.halted():
                status, out, _ = asked(one.path, "trace", "30")
                assert status == 1 and out.count("doesn't answer") == 3, out


def main():
    return tried(pinged, at_a_socket, traced)


if __name__ == "__main__":
    begin(main)

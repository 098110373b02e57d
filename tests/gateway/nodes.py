"""The nodes of clients, and those that answer pings: hashes of places, by a key that is kept and by one that isn't."""
import contextlib
import os
import signal
import socket

from lab import KEYED, LIMIT, Client, Gateway, free_ports, is_ping, reaches, registration, tunnels
from trying import begin, has_linux, tried


def ping_of(*clients):
    """The ping that each gets who registers, and says nothing: after seven seconds."""
    for client in clients:
        client.ask()
    pings = [client.hear(is_ping) for client in clients]
    assert None not in pings, "who registers isn't pinged"
    return pings


def cookies_of_places():
    """A ping is answered from its own place alone: neither by another port of the address, nor by that port of another address, even where
    these name the node of that place."""
    port, other_port = free_ports(2)
    with Gateway(tunnels(1)) as gate:
        def client(host, own_port):
            return Client(gate.ports[0x10], host=host, own_port=own_port, registers=False, answers=False)

        one, others = client("127.0.0.1", port), [client("127.0.0.1", other_port), client("127.0.0.2", port)]
        (ping,) = ping_of(one)
        for count, other in enumerate(others, 1):
            other.node = one.node
            other.answer(ping)
            gate.until_counted(0x10, "source of another", count)
            assert gate.counted(0x10, "clients") == 0
        one.answer(ping)
        gate.until_counted(0x10, "clients", 1)


def cookies_of_runs():
    """No two runs of the gateway ask one place by the same node, so that what one run asked answers no other; and no such node is a client's."""
    with contextlib.ExitStack() as all_runs, socket.socket(socket.AF_INET, socket.SOCK_DGRAM) as place:
        place.bind(("127.0.0.1", 0))
        place.settimeout(LIMIT)
        gates = [all_runs.enter_context(Gateway(tunnels(1))) for _ in range(3)]
        for gate in gates:
            place.sendto(registration(), ("127.0.0.1", gate.ports[0x10]))
        cookies, nodes = [], set()
        while len(cookies) < len(gates):
            bytes_ = place.recv(2048)
            if is_ping(bytes_):
                cookies.append(bytes_[22:28])
            else:
                nodes.add(bytes_[10:16])
        assert len(set(cookies)) == 3, cookies
        assert len(nodes) == 3 and all(it[0] == KEYED for it in nodes), "no two gateways give one place the same node"


def nodes_of_places():
    """A place has the same node on each network of a gateway; two ports of an address have two, and so have two addresses."""
    with Gateway(tunnels(2)) as gate:
        (port,) = free_ports(1)
        first = Client(gate.ports[0x10], own_port=port)
        other, elsewhere = Client(gate.ports[0x10]), Client(gate.ports[0x10], host="127.0.0.2", own_port=port)
        assert len({first.node, other.node, elsewhere.node}) == 3
        first.close()
        assert Client(gate.ports[0x20], own_port=port).node == first.node


def the_key():
    """The key of nodes is kept in a file that its owner alone reads. Whatever else is there isn't read: then, and where nothing can be kept,
    there is a new one at each start, which is told once."""
    def node_by(told, **environment):
        gate.end()
        gate.start(gate.program, environment=environment)
        client = Client(gate.ports[0x10], own_port=port)
        client.close()
        lines = [it for it in gate.report() and gate.lines if "other nodes at each start" in it]
        assert (len(lines) == 1 and told in lines[0]) if told else not lines, lines
        return client.node

    with Gateway(tunnels(1)) as gate:
        (port,) = free_ports(1)
        path = os.path.join(gate.state, "nodes.key")
        about = os.stat(path)
        assert about.st_size == 16 and about.st_mode & 0o777 == 0o600, about
        kept = node_by("")
        assert kept == node_by("") and len({kept, *(node_by("no STATE_DIRECTORY", STATE_DIRECTORY="") for _ in range(2))}) == 3
        assert kept == node_by("", STATE_DIRECTORY=f"{gate.state}:/elsewhere")
        key = gate.key()
        for other in key + b"x", key[:15], b"":
            with open(path, "wb") as it:
                it.write(other)
            assert node_by("nodes.key is no file with a key") != kept
        os.remove(path)
        for make in (lambda: os.symlink("/dev/zero", path)), (lambda: os.mkfifo(path)), (lambda: os.mkdir(path)):
            make()
            assert node_by("nodes.key is no file with a key") != kept
            (os.rmdir if os.path.isdir(path) else os.remove)(path)
        assert node_by("nodes.key can't be kept: No such file or directory", STATE_DIRECTORY=f"{gate.state}/nowhere") != kept
        with open(path, "wb") as it:
            it.write(key)
        assert node_by("") == kept


def the_key_by_a_reload():
    """Where the first tunnel comes by a reload its nodes have a key, too."""
    with Gateway("network 20 1 1424 qemu-tcp listen 127.0.0.1:0 raw\n") as gate:
        with open(gate.configuration, "a", encoding="utf-8") as it:
            it.write(tunnels(1))
        gate.run.order(signal.SIGHUP)
        gate.until_open(0x10)
        client = Client(gate.ports[0x10])
        assert gate.key() != bytes(16) and client.node[0] == KEYED
        gate.run.order(signal.SIGHUP)
        gate.told("nothing changed")
        again = Client(gate.ports[0x10])
        assert reaches(again, client)


def main():
    counts = tried(cookies_of_places, cookies_of_runs, nodes_of_places)
    return counts + tried(the_key, the_key_by_a_reload) if has_linux("a key that is kept", "Windows keeps none") else counts


if __name__ == "__main__":
    begin(main)

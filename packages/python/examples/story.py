"""A tour of the package without a socket: a tunnel with two players, one whose nodes are handed out, a network over two links, a service
that is found, a packet, frames, and a share that holds. The package for each language has this program, and all print the same."""
import ipxr
from ipxr import BROADCAST, Frame, LinkKind, Node, PacketKind, Place, Port, RouteEntry, Said, ServiceEntry, Verdict

NOBODY, SERVER = Node(bytes(6)), Node("02:00:00:00:00:01")
ANNA, BEN, STRANGER = Place("10.0.0.1:2130"), Place("10.0.0.2:2130"), Place("192.0.2.7:1000")
TUNNEL_SOCKET, GAME_SOCKET = 2, 0x4545
SECOND = 1_000_000_000
keys = ipxr.Keys()


def datagram(source: bytes, to: bytes, socket: int, text: str = "") -> bytes:
    network = 0 if source == NOBODY else 0x10
    return ipxr.write_packet((network, source, socket), (network, to, socket), 4, text.encode())


def parts(data: bytes) -> ipxr.Read:
    found = ipxr.read_packet(data)
    assert found is not None
    return found


def cookie_of(owns: list[ipxr.Own]) -> Node:
    return next(it.source.node for it in (parts(own.data) for own in owns) if it.to.node == BROADCAST)


def joined(places: list[Place]) -> str:
    return ", ".join(map(str, places)) or "nobody"


def show_heard(what: str, heard: ipxr.Heard) -> None:
    print(f"{what}: to {joined(heard.receivers)}{', and to the router' if heard.is_heard else ''}")


def play_tunnel() -> None:
    print("a tunnel for DOSBox")
    with ipxr.Tunnel("10", SERVER, capacity=64, share=16) as tunnel:
        for place in (ANNA, BEN):
            owns = tunnel.hear(keys.sender(place, 600), datagram(NOBODY, NOBODY, TUNNEL_SOCKET)).owns
            print(f"{place} registers: {len(owns)} datagrams of the tunnel's own")
            tunnel.hear(keys.sender(place, 600), datagram(place, cookie_of(owns), TUNNEL_SOCKET))
            print(f"it answers its ping: clients {joined([it.place for it in tunnel.clients()])}")
        show_heard("Anna calls all", tunnel.hear(keys.sender(ANNA, 600), datagram(ANNA, BROADCAST, GAME_SOCKET, "who plays?")))
        show_heard("Ben answers Anna", tunnel.hear(keys.sender(BEN, 600), datagram(BEN, ANNA, GAME_SOCKET, "I do")))
        show_heard("a stranger calls all", tunnel.hear(keys.sender(STRANGER, 600), datagram(STRANGER, BROADCAST, GAME_SOCKET)))
        print(f"the router sends to all: to {joined(tunnel.send(BROADCAST))}")
        left = [it for _ in range(30) for it in tunnel.second().leavers]
        print(f"30 seconds without an answer: {joined(left)} left")


def play_keyed() -> None:
    print("a tunnel that hands out nodes")
    with ipxr.KeyedTunnel("10", SERVER, capacity=64, share=16) as tunnel:
        owns = tunnel.hear(keys.keyed_sender(ANNA, 600), datagram(NOBODY, NOBODY, TUNNEL_SOCKET)).owns
        node = parts(owns[0].data).to.node
        print(f"Anna registers: her node is {'the one of her place' if node == keys.node(ANNA) else 'another'}")
        heard = tunnel.hear(keys.keyed_sender(ANNA, 600), datagram(node, BROADCAST, GAME_SOCKET, "who plays?"))
        print(f"she speaks from it: {'the router hears it' if heard.said is Said.SPEAKS and heard.is_heard else 'nobody hears it'}")
        print(f"clients: {joined([it.place for it in tunnel.clients()])}; waiters: {len(tunnel.waiters())}")


def play_segment() -> None:
    print("one network over two links")
    with ipxr.Segment(0x10, SERVER, links=2, capacity=100) as segment:
        segment.change(0, LinkKind.CABLE, 50)
        segment.change(1, LinkKind.CABLE, 50)
        for what, link, source, to in (("a PC at link 0 calls all", 0, "0200000000AA", "FFFFFFFFFFFF"),
                                       ("a PC at link 1 writes to it", 1, "0200000000BB", "0200000000AA"),
                                       ("the first writes to the router", 0, "0200000000AA", str(SERVER))):
            heard = segment.hear(link, source, to)
            print(f"{what}: to links {heard.receivers}{', and to the router' if heard.is_heard else ''}")
        print(f"stations: {', '.join(f'{it.node} at link {it.link}' for it in segment.stations())}")


def play_service() -> bytes:
    print("a service that is found")
    with ipxr.Router([Port("10", SERVER), Port("20", SERVER, longest=1500)]) as router:
        router.start()
        told = ipxr.write_sap("20.0200000000FE.452", "20.FFFFFFFFFFFF.452", [ServiceEntry("FILES", "20.0200000000FE.451", 4)])
        print(f"a server advertises FILES: {ipxr.words(router.packet(1, told).outcome)}")
        for it in router.services():
            print(f"the router knows {it.name}, type {it.type}, at {it.address}")
        outcome, sent = router.packet(0, ipxr.write_query("10.0200000000AA.4003", "10.FFFFFFFFFFFF.452", 4, nearest=True))
        print(f"a client asks for the nearest: {ipxr.words(outcome)}")
        for port, node, data in sent:
            services = ipxr.read_sap(parts(data).data)
            service = services[1][0] if services else None
            print(f"to {node} on port {port}: {service.name} at {service.address}, {service.hops} hops" if service else "no service")
        asked = ipxr.write_rip("10.0200000000AA.453", "10.FFFFFFFFFFFF.453", ipxr.Rip.REQUEST, [ipxr.ALL_ROUTES])
        answer = ipxr.read_rip(parts(router.packet(0, asked).sent[0].data).data)
        routes: list[RouteEntry] = answer[1] if answer else []
        print(f"routes: {', '.join(f'{ipxr.network_text(it.network)} {it.hops} {it.ticks}' for it in routes)}")
        return told


def play_packets(told: bytes) -> None:
    print("a packet, and frames")
    one = parts(ipxr.write_packet("10.0200000000AA.4003", "20.0200000000FE.451", 17, b"hello"))
    print(f"{one.source} to {one.to}, type {one.type}: {one.data.decode()}")
    for kind in Frame:
        frame = ipxr.write_frame(kind, "02:00:00:00:00:fe", "02-00-00-00-00-aa", told)
        found = frame and ipxr.read_frame(frame)
        is_same = found and found[0] is kind and found[1][: len(told)] == told
        print(f"{kind.name}: {len(frame or b'')} bytes, {'read as it was written' if is_same else 'read otherwise'}")
    edge = ipxr.Edge(Port("10", SERVER))
    numbered = edge.enter(ipxr.write_packet("0.0200000000AA.4003", "0.FFFFFFFFFFFF.4545", 4, b"hello")) or b""
    print(f"a station that doesn't know its network: {parts(numbered).source}")
    copied = ipxr.extend("10", ["4545"], "20", numbered) or b""
    print(f"its broadcast on network 20: {parts(copied).to}")
    print(f"to a socket that isn't named: {'no copy' if ipxr.extend('10', ['4546'], '20', numbered) is None else 'a copy'}")


def play_shares() -> None:
    print("a share that holds")
    reader = ipxr.Fair(one=2_000_000, own=12_000_000, reserve=100_000_000, room=150_000_000)
    quiet = flood = 0
    for step in range(1000):
        reader.look(step * (SECOND // 1000))
        if step % 20 == 0:
            quiet += reader.says(0, 1_000_000)
        flood += sum(reader.says(1, 1_000_000) for _ in range(3))
    print(f"in a second: of the quiet one {quiet} of 50, of the flood {flood} of 3000")
    limits = ipxr.Limits(ipxr.LimitsLink.TUNNEL, rate=800, share=50)
    client, pings = ipxr.ClientUse(), ipxr.Meter()
    passed = [it for it in range(100) if limits.says(PacketKind.PING, client, pings) is Verdict.PASSES]
    print(f"pings at once: {len(passed)} of 100")


def main() -> None:
    play_tunnel()
    play_keyed()
    play_segment()
    play_packets(play_service())
    play_shares()
    print(f"sockets {ipxr.RIP_SOCKET:x} and {ipxr.SAP_SOCKET:x}")


if __name__ == "__main__":
    main()

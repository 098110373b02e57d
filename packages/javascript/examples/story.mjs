// A tour of the package without a socket: a tunnel with two players, one whose nodes are handed out, a network over two links, a service
// that is found, a packet, frames, and a share that holds. The package for each language has this program, and all print the same.
import * as ipxr from "ipxr";

const { BROADCAST, Frame, LinkKind, PacketKind, RIP_SOCKET, SAP_SOCKET, Said, addressText, nodeText, placeText } = ipxr;
const NOBODY = "000000000000";
const [SERVER, ANNA, BEN] = ["02:00:00:00:00:01", "10.0.0.1:2130", "10.0.0.2:2130"];
const [TUNNEL_SOCKET, GAME_SOCKET] = [2, 0x4545];
const SECOND = 1_000_000_000n;
const keys = new ipxr.Keys();
const bytesOf = (text) => new TextEncoder().encode(text);
const textOf = (bytes) => new TextDecoder().decode(bytes);

function datagram(from, to, socket, text = "") {
    const [source, destination] = [from, to].map((node) => ({ network: from === NOBODY ? 0 : 0x10, node, socket }));
    return ipxr.writePacket(source, destination, 4, 0, bytesOf(text));
}

const isPing = ({ bytes }) => nodeText(ipxr.readPacket(bytes).to.node) === nodeText(BROADCAST);
const cookieOf = (owns) => ipxr.readPacket(owns.find(isPing).bytes).from.node;

function showHeard(what, { receivers, isHeard }) {
    console.log(`${what}: to ${receivers.map(placeText).join(", ") || "nobody"}${isHeard ? ", and to the router" : ""}`);
}

function playTunnel() {
    console.log("a tunnel for DOSBox");
    const tunnel = new ipxr.Tunnel({ network: "10", node: SERVER, capacity: 64, share: 16 });
    const hear = (place, bytes) => tunnel.hear(keys.sender(place, 600), bytes);
    for (const place of [ANNA, BEN]) {
        const { owns } = hear(place, datagram(NOBODY, NOBODY, TUNNEL_SOCKET));
        console.log(`${place} registers: ${owns.length} datagrams of the tunnel's own`);
        hear(place, datagram(ipxr.placeOf(place), cookieOf(owns), TUNNEL_SOCKET));
        console.log(`it answers its ping: clients ${tunnel.clients().map((it) => placeText(it.place)).join(", ")}`);
    }
    showHeard("Anna calls all", hear(ANNA, datagram(ipxr.placeOf(ANNA), BROADCAST, GAME_SOCKET, "who plays?")));
    showHeard("Ben answers Anna", hear(BEN, datagram(ipxr.placeOf(BEN), ipxr.placeOf(ANNA), GAME_SOCKET, "I do")));
    showHeard("a stranger calls all", hear("192.0.2.7:1000", datagram(ipxr.placeOf("192.0.2.7:1000"), BROADCAST, GAME_SOCKET)));
    console.log(`the router sends to all: to ${tunnel.send(BROADCAST).map(placeText).join(", ")}`);
    const left = Array.from({ length: 30 }, () => tunnel.second().leavers).flat();
    console.log(`30 seconds without an answer: ${left.map(placeText).join(", ")} left`);
    tunnel.free();
}

function playKeyed() {
    console.log("a tunnel that hands out nodes");
    const tunnel = new ipxr.KeyedTunnel(
        { network: "10", node: SERVER, capacity: 64, share: 16, remembered: 1024, rememberedShare: 64 });
    const { owns } = tunnel.hear(keys.keyedSender(ANNA, 600), datagram(NOBODY, NOBODY, TUNNEL_SOCKET));
    const node = ipxr.readPacket(owns[0].bytes).to.node;
    console.log(`Anna registers: her node is ${nodeText(node) === nodeText(keys.node(ANNA)) ? "the one of her place" : "another"}`);
    const { said, isHeard } = tunnel.hear(keys.keyedSender(ANNA, 600), datagram(node, BROADCAST, GAME_SOCKET, "who plays?"));
    console.log(`she speaks from it: ${said === Said.SPEAKS && isHeard ? "the router hears it" : "nobody hears it"}`);
    console.log(`clients: ${tunnel.clients().map((it) => placeText(it.place)).join(", ")}; waiters: ${tunnel.waiters().length}`);
    tunnel.free();
}

function playSegment() {
    console.log("one network over two links");
    const segment = new ipxr.Segment({ network: 0x10, node: SERVER, links: 2, capacity: 100 });
    segment.change(0, { kind: LinkKind.CABLE, share: 50 });
    segment.change(1, { kind: LinkKind.CABLE, share: 50 });
    const hear = (what, link, from, to) => {
        const { isHeard, receivers } = segment.hear(link, from, to);
        console.log(`${what}: to links [${receivers.join(", ")}]${isHeard ? ", and to the router" : ""}`);
    };
    hear("a PC at link 0 calls all", 0, "0200000000AA", BROADCAST);
    hear("a PC at link 1 writes to it", 1, "0200000000BB", "0200000000AA");
    hear("the first writes to the router", 0, "0200000000AA", SERVER);
    console.log(`stations: ${segment.stations().map((it) => `${nodeText(it.node)} at link ${it.link}`).join(", ")}`);
    segment.free();
}

function playService() {
    console.log("a service that is found");
    const router = new ipxr.Router([
        { network: "10", node: SERVER, cost: 1, longest: 576 },
        { network: "20", node: SERVER, cost: 1, longest: 1500 },
    ]);
    router.start();
    const files = { name: "FILES", address: "20.0200000000FE.451", type: 4, hops: 1 };
    const told = ipxr.writeSap("20.0200000000FE.452", "20.FFFFFFFFFFFF.452", false, [files]);
    console.log(`a server advertises FILES: ${ipxr.words(router.packet(1, told).outcome)}`);
    for (const it of router.services()) console.log(`the router knows ${it.name}, type ${it.type}, at ${addressText(it)}`);
    const { outcome, sent } = router.packet(0, ipxr.writeQuery("10.0200000000AA.4003", "10.FFFFFFFFFFFF.452", true, 4));
    console.log(`a client asks for the nearest: ${ipxr.words(outcome)}`);
    for (const { port, node, bytes } of sent) {
        const [service] = ipxr.readSap(ipxr.readPacket(bytes).data).services;
        console.log(`to ${nodeText(node)} on port ${port}: ${service.name} at ${addressText(service)}, ${service.hops} hops`);
    }
    const asked = ipxr.writeRip("10.0200000000AA.453", `10.FFFFFFFFFFFF.${RIP_SOCKET.toString(16)}`, ipxr.Rip.REQUEST,
        [{ network: "FFFFFFFF", hops: 0xffff, ticks: 0xffff }]);
    const [answer] = router.packet(0, asked).sent;
    const { routes } = ipxr.readRip(ipxr.readPacket(answer.bytes).data);
    console.log(`routes: ${routes.map((it) => `${ipxr.networkText(it.network)} ${it.hops} ${it.ticks}`).join(", ")}`);
    router.free();
    return told;
}

function playPackets(told) {
    console.log("a packet, and frames");
    const one = ipxr.writePacket("10.0200000000AA.4003", "20.0200000000FE.451", 17, 0, bytesOf("hello"));
    const { from, to, type, data } = ipxr.readPacket(one);
    console.log(`${addressText(from)} to ${addressText(to)}, type ${type}: ${textOf(data)}`);
    for (const [name, kind] of Object.entries(Frame)) {
        const frame = ipxr.writeFrame(kind, "02:00:00:00:00:fe", "02-00-00-00-00-aa", told);
        const found = ipxr.readFrame(frame);
        const isSame = found.kind === kind && told.every((it, k) => found.packet[k] === it);
        console.log(`${name}: ${frame.length} bytes, ${isSame ? "read as it was written" : "read otherwise"}`);
    }
    const edge = new ipxr.Edge({ network: "10", node: SERVER, cost: 1, longest: 576 });
    const numbered = edge.enter(ipxr.writePacket("0.0200000000AA.4003", "0.FFFFFFFFFFFF.4545", 4, 0, bytesOf("hello")));
    console.log(`a station that doesn't know its network: ${addressText(ipxr.readPacket(numbered).from)}`);
    const copied = ipxr.extend("10", ["4545"], "20", numbered);
    console.log(`its broadcast on network 20: ${addressText(ipxr.readPacket(copied).to)}`);
    console.log(`to a socket that isn't named: ${ipxr.extend("10", ["4546"], "20", numbered) === null ? "no copy" : "a copy"}`);
}

function playShares() {
    console.log("a share that holds");
    const reader = new ipxr.Fair({ one: 2_000_000, own: 12_000_000, reserve: 100_000_000, room: 150_000_000 });
    const heard = { quiet: 0, flood: 0 };
    for (let step = 0; step < 1000; step++) {
        reader.look(BigInt(step) * (SECOND / 1000n));
        if (step % 20 === 0) heard.quiet += reader.says(0, 1_000_000);
        for (let k = 0; k < 3; k++) heard.flood += reader.says(1, 1_000_000);
    }
    console.log(`in a second: of the quiet one ${heard.quiet} of 50, of the flood ${heard.flood} of 3000`);
    const limits = new ipxr.Limits({ link: ipxr.LimitsLink.TUNNEL, rate: 800, share: 50 });
    const [client, all] = [new ipxr.ClientUse(), new ipxr.Meter()];
    const passed = Array.from({ length: 100 }, () => limits.says(PacketKind.PING, client, all)).filter((it) => it === ipxr.Verdict.PASSES);
    console.log(`pings at once: ${passed.length} of 100`);
}

await ipxr.load();
playTunnel();
playKeyed();
playSegment();
playPackets(playService());
playShares();
console.log(`sockets ${RIP_SOCKET.toString(16)} and ${SAP_SOCKET.toString(16)}`);

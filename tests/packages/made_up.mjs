// Plays made-up events to whatever the package has, and prints for each part a sum of all that came of them. made_up.py plays the same.
import * as ipxr from "ipxr";

const shown = process.argv[2] === "all";
let state = 1;
let sum = 0;

function chance(below) {
    state ^= state << 13;
    state ^= state >>> 17;
    state ^= state << 5;
    state >>>= 0;
    return state % below;
}

const pick = (list) => list[chance(list.length)];
const hex = (bytes) => Array.from(bytes, (it) => it.toString(16).padStart(2, "0")).join("");

// The same text in each language for what a call returns.
function text(it) {
    if (it === null || it === undefined) return "-";
    if (typeof it === "boolean") return it ? "1" : "0";
    if (it instanceof Uint8Array) return hex(it);
    if (Array.isArray(it)) return `[${it.map(text).join(" ")}]`;
    return String(it);
}

function add(...its) {
    const line = its.map(text).join(" ");
    if (shown) console.log(line);
    for (const letter of `${line}\n`) sum = Math.imul(sum ^ letter.charCodeAt(0), 16777619) >>> 0;
}

function part(name, turns, play) {
    state = 1;
    sum = 2166136261;
    for (let turn = 0; turn < turns; turn++) play(turn);
    console.log(`${name}: ${turns} turns, ${sum.toString(16).padStart(8, "0")}`);
}

const node = () => (chance(6) === 0 ? "FFFFFFFFFFFF" : `02000000000${(1 + chance(9)).toString(16)}`);
const network = () => (chance(9) === 0 ? 0 : 0x10 * (1 + chance(4)));
const socket = () => pick([0x451, 0x452, 0x453, 0x4545, 2]);
const address = () => ({ network: network(), node: node(), socket: socket() });
const place = () => `10.0.${chance(3)}.${chance(4)}:${2000 + chance(3)}`;
const data = () => Uint8Array.from({ length: chance(60) }, () => chance(256));
const route = () => ({ network: 0x10 * (1 + chance(30)), hops: chance(18), ticks: chance(40) });
const service = () => ({ name: `S${chance(20)}`, ...address(), type: 1 + chance(5), hops: chance(18) });
const several = (most, make) => Array.from({ length: 1 + chance(most) }, make);

function packet() {
    const [from, to, kind] = [address(), address(), chance(5)];
    if (kind === 0) return ipxr.writeRip(from, to, 1 + chance(2), several(5, route));
    if (kind === 1) return ipxr.writeSap(from, to, chance(2) === 1, several(3, service));
    if (kind === 2) return ipxr.writeQuery(from, to, chance(2) === 1, chance(6));
    return ipxr.writePacket(from, to, kind === 3 ? 4 : 20, chance(4), kind === 3 ? data() : new Uint8Array(32));
}

const tried = (call) => {
    try {
        return call();
    } catch (why) {
        if (!(why instanceof ipxr.IpxrError)) throw why;
        return why.number;
    }
};

await ipxr.load();
const PORTS = [0x10, 0x20, 0x30].map((it) => ({ network: it, node: "020000000001", cost: 1, longest: 576 }));

// ---- A router, tunnels and a segment ----

const router = new ipxr.Router(PORTS);
router.start();

// What a neighbour on a port's network tells.
function told(port, of) {
    const ends = ["02000000000A", "FFFFFFFFFFFF"].map((it) => ({ network: 0x10 * (1 + port), node: it, socket: of }));
    return of === 0x453 ? ipxr.writeRip(...ends, 2, several(5, route)) : ipxr.writeSap(...ends, false, several(3, service));
}

part("router", 600, () => {
    const [what, port] = [chance(12), chance(4)];
    const calls = [() => router.second(), () => router.portDown(port), () => router.portUp(port),
        () => router.packet(port, told(port, 0x453)), () => router.packet(port, told(port, 0x452)), () => router.portUp(port)];
    const it = tried(calls[what] ?? (() => router.packet(port, packet())));
    if (typeof it === "number") return add(it);
    add(it.outcome, it.sent.map((one) => [one.port, one.node, one.bytes]));
});
part("tables", 1, () => {
    for (const it of router.routes()) add(it.network, it.hops, it.ticks, it.node, it.port, it.age);
    for (const it of router.services()) add(it.name, ipxr.addressText(it), it.type, it.hops, it.neighbour, it.port, it.age);
});

const SETTING = { network: 0x10, node: "020000000001", capacity: 6, share: 3 };
const cookie = (of) => `0600${ipxr.nodeText(ipxr.placeOf(of)).slice(4)}`;
const keyed = (of) => `0200${ipxr.nodeText(ipxr.placeOf(of)).slice(4)}`;

function datagram(own, of) {
    const here = { network: 0x10, node: own, socket: 2 };
    const to = pick([address(), { ...here, node: cookie(of) }, { ...here, node: "000000000000" }]);
    return ipxr.writePacket(chance(5) === 0 ? address() : here, to, 4, chance(3), data());
}

function tunnelTurn(tunnel, sender, of) {
    const what = chance(8);
    if (what === 0) {
        const { owns, pings = 0, leavers } = tunnel.second();
        return add(owns.map((it) => [it.place, it.bytes]), pings, leavers.map((it) => it.place ?? it));
    }
    if (what === 1) return add(tunnel.send(node()));
    const { said, owns, receivers, packet: carried, isHeard } = tunnel.hear(sender, of);
    add(said, owns.map((it) => [it.place, it.bytes]), receivers, carried, isHeard);
}

const plain = new ipxr.Tunnel(SETTING);
part("tunnel", 400, () => {
    const of = place();
    const sender = { place: of, current: cookie(of), previous: cookie(of), isTrusted: chance(9) === 0 };
    tunnelTurn(plain, sender, datagram(ipxr.placeOf(of), of));
    add(plain.clients().map((it) => [it.place, it.secondsLeft]));
});
const handing = new ipxr.KeyedTunnel({ ...SETTING, remembered: 4, rememberedShare: 2 });
part("keyed", 400, () => {
    const of = place();
    const sender = { place: of, node: keyed(of), former: keyed(of), current: cookie(of), previous: cookie(of), isTrusted: chance(9) === 0,
        mayRegister: chance(4) > 0 };
    tunnelTurn(handing, sender, datagram(keyed(of), of));
    add([...handing.clients(), ...handing.waiters()].map((it) => [it.place, it.node, it.secondsLeft]));
});
part("extend", 200, () => add(ipxr.extend(network(), [socket(), socket()], network(), packet())));

const segment = new ipxr.Segment({ network: 0x10, node: "020000000001", links: 4, capacity: 20 });
part("segment", 500, () => {
    const [what, link] = [chance(8), chance(5)];
    const calls = [() => segment.change(link, { kind: chance(4), share: 5 + chance(9) }), () => segment.come(link, node()),
        () => segment.leave(link, node()), () => segment.second(), () => segment.send(node())];
    const it = tried(calls[what] ?? (() => segment.hear(link, node(), node())));
    add(it?.receivers ?? it, it?.isHeard);
    add(segment.stations().map((one) => [one.node, one.link, one.isSure, one.secondsLeft]), segment.nextNode(address()));
    add(tried(() => segment.link(link).kind), tried(() => segment.link(link).share));
});

// ---- Shares and limits ----

const FAIR = { one: 2000, own: 9000, reserve: 30000, room: 50000 };
const [one, other, meter, second] = [new ipxr.Fair(FAIR), new ipxr.Fair({ ...FAIR, room: 40000 }), new ipxr.Meter(), new ipxr.Meter()];
part("fair", 500, (turn) => {
    one.look(turn * 900);
    other.pass(chance(2000));
    meter.pass(500);
    add(one.says(chance(5), chance(3000)), one.bothHear(other, chance(5), chance(2000), chance(2000)));
    add(meter.lets(5000, chance(1500)), meter.bothLet(5000, chance(900), second, 9000, chance(100)), meter.used, second.used);
    add(one.state().total, other.state().waits);
});

const limits = new ipxr.Limits({ link: ipxr.LimitsLink.TUNNEL, rate: 100, share: 20, routes: 300, services: 100 });
const household = new ipxr.HouseholdLimits(150);
const [clients, address_use] = [Array.from({ length: 3 }, () => new ipxr.ClientUse()), new ipxr.AddressUse()];
const readers = clients.map(() => new ipxr.Reader(limits));
const [receives, links] = [household.receiver(), ipxr.toldByLinks()];
const meters = Array.from({ length: 6 }, () => new ipxr.Meter());
part("limits", 1500, (turn) => {
    const [k, kind, now, size, queue] = [chance(3), chance(6), turn * 3_000_000, chance(1000), chance(4)];
    for (const it of [clients[k], address_use, readers[k]]) it.look(now);
    const calls = [() => limits.says(kind, clients[k], meters[0]), () => limits.framesSay(kind, meters[1]),
        () => limits.answers(2, clients[k], address_use), () => limits.routerAnswers(2, clients[k], address_use),
        () => limits.hands(2, kind, clients[k], address_use, meters[2], meters[3]),
        () => limits.framesHand(queue, kind, meters[4], meters[5], links), () => limits.receives(readers[k], queue, size),
        () => limits.hearsRouter(readers[k], queue, size), () => limits.carries(readers[k], queue, size, 2),
        () => household.receives(limits, readers[k], receives, queue, size),
        () => household.receivesOfOwn(limits, readers[k], meters[5], queue, size),
        () => household.receivesOfRouter(limits, readers[k], receives, queue, size)];
    add(pick(calls)(), ipxr.kindOf(packet()));
});
const [strangers, queues] = [new ipxr.StrangersLimits(40), new ipxr.Queues()];
part("queues", 300, () => {
    add(strangers.send(chance(9), meters[0], meters[1]), queues.take(3, 9), queues.unshare(3 + chance(7), 3, 9));
    if (chance(3) === 0) queues.giveBack(3 + chance(7));
});
part("limits' numbers", 1, () => {
    const { received, handed, handedAnswers, pings, allPings, questions, advertisements, answers, pages } = limits.numbers();
    add(received.packet, received.piece, received.packets.one, received.pieces.room, handed.each, handed.burst, handedAnswers, pings.each,
        allPings.burst, questions.each, advertisements.burst, answers.each, pages.burst);
});

const line = new ipxr.Line(512);
const ends = Array.from({ length: 4 }, () => new ipxr.LineAddress());
const [said, answered] = [new ipxr.Moment(), new ipxr.Moment()];
part("line", 1500, (turn) => {
    const [k, now, size] = [chance(4), turn * 2_000_000, chance(1400)];
    const calls = [() => line.join(ends[k]), () => line.leave(ends[k]), () => line.second(ends[k]), () => line.silence(ends[k]),
        () => line.letsBeyond(now), () => line.letsAnswer(now, answered), () => line.sendAnswer(now, size, answered),
        () => line.sendPing(now, 30), () => line.letsStranger(now, answered), () => line.sendToStranger(now, 60, answered)];
    const number = line.speak(ends[k]);
    const rank = line.room(now, number, size, said, ends[(k + 1) % 4]);
    if (rank !== ipxr.LineRank.FULL) line.send(now, number, size, rank, said, ends[(k + 1) % 4]);
    add(number, rank, pick(calls)(), said.nanoseconds, answered.nanoseconds, line.betweenPings(30));
    add(line.strangers().send(1 + chance(3), meters[2], meters[3]));
});

// ---- The edge, cables and fates ----

const edge = new ipxr.Edge(PORTS[0]);
const rule = () => ({ permits: chance(2), what: 1 + chance(5), way: 1 + chance(2), names: chance(3), type: chance(6), socket: socket(),
    from: 0x10,
    to: 0x10 * chance(20), name: `S${chance(4)}` });
part("edge", 800, () => {
    const given = packet();
    add(edge.enter(given), edge.isHeld(given), edge.number(given), edge.claim(given), edge.isNeedless(chance(4), given));
    add(tried(() => edge.filter(1 + chance(2), several(4, rule), given)), edge.writeRoutes("020000000009", several(5, route)));
    add(tried(() => edge.writeServices("020000000009", several(3, service))));
});

const [kinds, loops, pace, twins, asks] = [new ipxr.Kinds(), [new ipxr.Loop(), new ipxr.Loop()], new ipxr.Pace(), new ipxr.Twins(),
    new ipxr.Asks()];
const asked = Array.from({ length: 3 }, () => new ipxr.Asked());
part("cable", 800, (turn) => {
    const [hash, of, kind, k, now] = [chance(99), node(), chance(6), chance(3), 1 + turn * 40_000_000];
    add(kinds.hear(hash, of, kind, chance(2) === 1), kinds.of(hash, of), kinds.isUsed(kind), kinds.speaks(hash, of, kind));
    if (turn % 20 === 0) kinds.second();
    add(ipxr.probe(chance(3), 3 + chance(3), turn - chance(6) + 10, turn + 10, loops[0], loops[1]), loops[0].left, loops[1].second());
    add(ipxr.rangesHave([{ host: "10.0.0.0", bits: chance(33) }, { host: [192, 168, 0, chance(3)], bits: 32 }], [192, 168, 0, chance(3)]));
    add(ipxr.isFirstOfRange({ host: `10.0.${chance(3)}.0`, bits: 8 + chance(20) }), twins.hear("020000000003", chance(2), turn));
    pace.moreWait(chance(9), 50_000_000, now);
    add(pace.letsGo(chance(9), now), asked[k].isDue(asks, now), asks.areDue(now), asks.patience(5000, now));
    if (chance(2) === 0) asked[k].ask(asks, now, chance(1000));
    else asked[k].answer();
    add(ipxr.chooseNode({ isTunnel: chance(2) === 1, isOfSeveral: chance(2) === 1, said: chance(2) ? of : undefined, card: node(), hash }));
});

const counts = new ipxr.Counts();
part("fates", 800, () => {
    const course = chance(2) ? ipxr.Course.ofFrame() : ipxr.Course.ofDatagram();
    while (course.next !== ipxr.Next.END) {
        add(course.next);
        course.answer(pick([0, 1, 2, 3, 28, 28, 600, 1600]));
    }
    add(course.fate, course.number);
    counts.count(course);
    course.free();
    if (chance(5) === 0) counts.lose(chance(30));
});
part("counts", 1, () => {
    const { in: came, lost } = counts.values();
    add(came, lost, counts.droppedFor(ipxr.Drop.NO_ROUTE), counts.droppedFor(ipxr.Drop.CROSSED_FULL));
});

// ---- A configuration and a plan ----

const LINES = ["network 10 1 1424 dosbox 2130", "clients 40 8", "trust 192.168.0.0/16 10.0.0.0/8", "extend 4545 451", "rate 800 50 300",
    "line 512", "nodes by-address", "network 20 1 1500 # of several", "permit type 4", "deny service 4 FILES* in",
    "route 30 2 3 via 020000000005", "service 4 FILES 30.020000000005.451 2 via 020000000005", "adopt no", "link tap ipx0 raw",
    "link qemu-udp 127.0.0.1:5000 127.0.0.1:5001 raw", "internal 99 node 02:00:00:00:00:07", "link interface eth0 auto",
    "network 30 1 1500 tap ipx1 snap", "what", "", "permit type 4", "link tap ipx0 raw"];
part("settings", 400, () => {
    const words = pick(LINES).split(" ");
    if (chance(2)) words[chance(words.length)] = pick(["0", "FFFF", "raw", "65536", "x", "192.168.0.0/16", "020000000005"]);
    const asking = words.join(" ");
    const { expected, said: told } = ipxr.settingsLine(asking, { hasCards: chance(3) > 0, isBelowTunnel: chance(2) === 1 });
    add(expected, told.read, told.kind, told.bits, told.network.number, told.network.node, told.link.carrier, told.link.name,
        told.link.local.port,
        told.numbers, told.rule.what, told.rule.name, told.route.via, told.service.service.name, told.service.line);
    const word = words[chance(words.length)];
    add(ipxr.settingsSocket(word), ipxr.settingsHexadecimal(word, 8), ipxr.settingsNode(word), ipxr.settingsRange(word)?.first);
    add(ipxr.settingsWord(asking, chance(4))?.start, ipxr.settingsLinkWords(told.link));
    add(ipxr.settingsAddressWords({ four: [10, 0, 0, chance(9)], port: chance(65536) }),
        ipxr.settingsAddressWords({ six: [0xfd00, 0, 0, 0, 0, 0, 0, chance(9)], port: 213, isSix: true }));
});
const configuration = new ipxr.Configuration();
part("configuration", 1, () => {
    for (const it of LINES) {
        const { expected, said: told, wrong } = configuration.line(it);
        add(expected, told.read, wrong.unlinked, wrong.word, wrong.line, wrong.numbers, wrong.isBelowTunnel);
    }
    const own = configuration.internal();
    add(configuration.unlinked(), own?.line, own?.number, own?.node);
    for (const it of configuration.links()) {
        add(it.line, it.networkLine, it.port, it.number, it.cost, it.longest, it.isOfSeveral, it.carrier.number, it.carrier.name,
            it.clients, it.ofAddress,
            it.rate, it.share, it.household, it.kilobits, it.sockets, it.trusted.map((range) => [range.first, range.bits]),
                it.nodesByAddress, it.adopts);
        add(it.rules.map((rule_of) => [rule_of.permits, rule_of.what, rule_of.type, rule_of.name]),
            it.staticRoutes.map((way) => [way.line, way.route.network, way.via]), it.staticServices.map((way) => [way.line,
                way.service.name]));
    }
});
const planned = () => Array.from({ length: chance(5) }, (_, k) => ({ network: 0x10 * (1 + k), carrier: chance(4), frames: chance(3),
    udpPort: 2130 + chance(2),
    number: chance(3), port: chance(2), clients: chance(2), sockets: chance(2), node: node(), hasNode: chance(3) > 0,
        isOfSeveral: chance(3) === 0,
    isFirst: chance(2) === 1 }));
part("plan", 400, () => {
    const { staysRouter, origins, fates } = ipxr.plan(planned(), planned());
    const none = (it) => (it === ipxr.NO_ONE ? null : it);
    add(staysRouter, origins.map((it) => [none(it.was), it.cable, it.tunnel, it.isKept, it.isAsBefore, it.hasOtherClients,
        it.hasOtherSockets]));
    add(fates.map((it) => [none(it.becomes), it.isClosed, it.endsTunnel]));
});

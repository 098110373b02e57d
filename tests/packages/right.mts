// Uses what the package has: tsc takes it.
import {
    addressText, AddressUse, Asked, Asks, chooseNode, ClientUse, Configuration, Counts, Course, Drop, Edge, extend, Fair, Fault, Frame,
        HouseholdLimits,
    IpxrError, isDrop, KeyedTunnel, Keys, kindOf, Kinds, Limits, LimitsLink, Line, LineAddress, LineRank, LinkKind, load, Loop, Lost,
        Meter, Moment, Names,
    Next, nodeText, NO_ONE, Outcome, Pace, PacketKind, placeText, plan, probe, Probe, Queues, rangesHave, Reader, readFrame, readPacket,
        readRip, readSap,
    Rip, Router, RuleOf, Said, Segment, settingsLine, StrangersLimits, toldByLinks, Tunnel, Twins, Verdict, Way, words, writeFrame,
        writePacket,
    writeQuery, writeRip, writeSap,
} from "ipxr";
import type { AddressLike, Heard, NodeLike, Port, Rule, Sender } from "ipxr";

const ports: readonly Port[] = [{ network: "10", node: "02:00:00:00:00:01", cost: 1, longest: 576 }, { network: 0x20, node: [0, 0, 0, 0,
    0, 2],
    cost: 1, longest: 1500, routes: 9 }];
const here: AddressLike = "10.020000000001.451";
const node: NodeLike = Uint8Array.of(2, 0, 0, 0, 0, 1);

function router(): string[] {
    const it = new Router(ports);
    const { outcome, sent } = it.start();
    const asked = [writeQuery(here, { network: 0x10, node, socket: "452" }, true, 4), writeRip(here, here, Rip.REQUEST,
        [{ network: "FFFFFFFF", hops: 0xffff, ticks: 0xffff }])];
    const services = [{ name: "FILES", address: here, type: 4, hops: 1 }, { name: "PRINT", network: 1, node, socket: 2, type: 7, hops: 1 }];
    asked.push(writeSap(here, here, false, services), writePacket(here, here, 4, 0, new Uint8Array()));
    for (const one of asked) sent.push(...it.packet(0, one).sent);
    const texts = sent.map(({ port, node: to, bytes }) => `${port} ${nodeText(to)} ${bytes.length}`);
    if (isDrop(outcome)) texts.push(words(outcome === Drop.NO_ROUTE ? Drop.NO_ROUTE : Outcome.STARTED));
    return [...texts, ...it.services().map((one) => addressText(one))];
}

function heard(sender: Sender): Heard {
    const tunnel = new Tunnel({ network: "10", node, capacity: 4, share: 2 });
    const found: Heard = tunnel.hear(sender, new Uint8Array(30));
    const places: string[] = [...found.receivers, ...tunnel.send("FFFFFFFFFFFF"), ...tunnel.second().leavers].map((it) => placeText(it));
    if (found.said === Said.SPEAKS) console.log(places, tunnel.clients()[0].secondsLeft);
    tunnel.free();
    return found;
}

function keyed(keys: Keys): number {
    const tunnel = new KeyedTunnel({ network: "10", node, capacity: 4, share: 2, remembered: 4, rememberedShare: 2 });
    const { owns } = tunnel.hear(keys.keyedSender("10.0.0.1:2130", 60), new Uint8Array(30));
    const { pings, leavers } = tunnel.second();
    return owns.length + pings + leavers.length + tunnel.waiters().length;
}

function joined(): string {
    const segment = new Segment({ network: 0x10, node, links: 2, capacity: 9 });
    segment.change(0, { kind: LinkKind.CABLE, share: 4 });
    const { isHeard, receivers } = segment.hear(0, node, "FFFFFFFFFFFF");
    return `${isHeard} ${receivers.join()} ${segment.stations().map((it) => it.isSure)} ${nodeText(segment.nextNode(here))}`;
}

function shares(now: bigint): boolean {
    const fair = new Fair({ one: 1n, own: 2, reserve: 3n, room: 4 });
    fair.look(now);
    const limits = new Limits({ link: LimitsLink.TUNNEL, rate: 800, share: 50 });
    limits.set(limits.numbers());
    const [client, address, meter, reader] = [new ClientUse(), new AddressUse(), new Meter(), new Reader(limits)];
    const verdicts: Verdict[] = [limits.says(PacketKind.PING, client, meter), limits.hands(1, kindOf(new Uint8Array()), client, address,
        meter, meter),
        limits.receives(reader, 1, 30), new HouseholdLimits(9).receives(limits, reader, toldByLinks(), 1, 30),
            new StrangersLimits(9).send(1, meter, meter)];
    const [line, end, said] = [new Line(512), new LineAddress(), new Moment()];
    const rank: LineRank = line.room(now, new Queues().take(1, 9), 30, said, end);
    return verdicts.includes(Verdict.PASSES) && rank !== LineRank.FULL && said.nanoseconds > now && fair.says(0, 1n);
}

function edges(packet: Uint8Array): Uint8Array | null {
    const edge = new Edge(ports[0]);
    const rules: Rule[] = [{ permits: 0, what: RuleOf.SERVICES, way: Way.IN, names: Names.ALL, type: 4 }, { permits: 1,
        what: RuleOf.ROUTES, from: "10",
        to: 0x20, way: Way.OUT }];
    return edge.filter(Way.IN, rules, edge.enter(packet) ?? edge.number(packet)) ?? extend("10", ["4545", 2], 0x20, packet);
}

function cables(now: bigint): boolean {
    const [loop, other, asks, asked] = [new Loop(), new Loop(), new Asks(), new Asked()];
    asked.ask(asks, now, 7n);
    new Pace().moreWait(1, 2, now);
    const own: Uint8Array = chooseNode({ isTunnel: true, hash: now });
    const isShut = probe(0, 1, 1, 1, loop, other) === Probe.THERE && new Twins().hear(own, 1, 1) === null;
    return isShut && new Kinds().speaks(now, own, Frame.RAW) && rangesHave([{ host: "10.0.0.0", bits: 8 }], [10, 0, 0,
        1]) && asked.isDue(asks, now);
}

function fates(): bigint {
    const [course, counts] = [Course.ofFrame(), new Counts()];
    while (course.next !== Next.END) course.answer(true);
    counts.count(course);
    counts.lose(Lost.DENIED);
    return counts.values().lost[Lost.DENIED] + counts.droppedFor(Drop.NO_ROUTE);
}

function configured(): number {
    const configuration = new Configuration();
    const { expected, said, wrong } = configuration.line("network 10 1 1424 dosbox 2130");
    const { origins } = plan([{ network: 1, carrier: 0 }], [{ network: 1, carrier: 0, node, isFirst: true }]);
    const own: number = configuration.internal()?.number ?? configuration.links()[0].sockets[0];
    return expected + said.read + wrong.word + own + settingsLine("").expected + (origins[0].was === NO_ONE ? 1 : 0);
}

export async function main(packet: Uint8Array): Promise<void> {
    await load();
    const keys = new Keys(new Uint8Array(16));
    try {
        console.log(router(), heard(keys.sender("10.0.0.1:2130", 1)), keyed(keys), joined(), shares(1n), edges(packet), cables(1n),
            fates(), configured());
        console.log(readFrame(writeFrame(Frame.SNAP, node, node, packet) ?? packet)?.kind, readPacket(packet)?.from.socket);
        console.log(readRip(packet)?.routes[0].hops, readSap(packet)?.services[0].name);
    } catch (why) {
        if (why instanceof IpxrError && why.number === Fault.NO_TUNNEL) console.log(why.message);
    }
}

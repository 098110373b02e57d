// Uses all that ipxr.d.mts has: tsc takes it.
import {
    BROADCAST, Drop, Fault, Frame, IpxrError, LONGEST_FRAME, NO_LIMIT, Outcome, PACKET_ROUTES, PACKET_SERVICES, RIP_SOCKET, Rip, Router,
        SAP_SOCKET,
    SHORTEST_FRAME, isDrop, readFrame, version, words, writeFrame, writePacket, writeQuery, writeRip, writeSap,
} from "../../examples/embed/web/ipxr.mjs";
import type { Address, Happened, NodeBytes, Packet, Port, Route, RouteEntry, Service, ServiceEntry,
    Source } from "../../examples/embed/web/ipxr.mjs";

const node: NodeBytes = Uint8Array.of(0, 0, 0, 0, 0, 1);
const ports: readonly Port[] = [
    { network: 0x10, node, cost: 1, longest: 576 },
    { network: 0x20, node: [0, 0, 0, 0, 0, 2], cost: 1, longest: 1500, routes: NO_LIMIT, services: 0 },
];

async function load(module: WebAssembly.Module): Promise<void> {
    const sources: Source[] = [new Uint8Array(), new ArrayBuffer(0), "libipxr.wasm", new URL("http://localhost/libipxr.wasm"),
        await fetch("libipxr.wasm"), module];
    await Router.load(sources[0]);
    await Router.load(fetch("libipxr.wasm"));
    return Router.load();
}

function transmit({ port, node: to, bytes }: Packet): number {
    const frame: Uint8Array | null = writeFrame(Frame.ETHERNET2, to, node, bytes);
    return port + (frame?.length ?? SHORTEST_FRAME + LONGEST_FRAME);
}

function play(router: Router): string {
    const happened: Happened[] = [router.start(), router.second(), router.portDown(1), router.portUp(1), router.stop()];
    const { outcome, sent } = router.packet(0, new Uint8Array(30));
    sent.forEach(transmit);
    if (isDrop(outcome)) {
        const why: Drop = outcome;
        return why === Drop.NO_ROUTE ? "no route" : words(why);
    }
    const what: Outcome = outcome;
    return `${what === Outcome.FORWARDED} ${happened.length}`;
}

function known(router: Router): string {
    const routes: string[] = router.routes().map((it: Route) =>
        `${it.network} ${it.hops} ${it.ticks} ${it.node.length} ${it.port} ${it.age}`);
    const services = router.services().map((it: Service) =>
        `${it.name.trim()} ${it.network} ${it.node.length} ${it.socket} ${it.type} ${it.hops}`);
    const neighbours = router.services().map((it) => it.neighbour.length + it.port + it.age);
    return [...routes, ...services, ...neighbours, router.isRunning() && router.isUp(0)].join("\n");
}

function heard(frame: Uint8Array): number {
    const found = readFrame(frame);
    return found === null ? 0 : found.kind + found.packet.length;
}

function said(router: Router): Uint8Array[] {
    const [from, to]: Address[] = [{ network: 0x10, node, socket: RIP_SOCKET }, { network: 0x10, node: BROADCAST, socket: SAP_SOCKET }];
    const routes: RouteEntry[] = [...router.routes(), { network: 0x30, hops: 1, ticks: 2 }].slice(0, PACKET_ROUTES);
    const services: ServiceEntry[] = [...router.services(), { name: "FILES", ...from, type: 4, hops: 1 }].slice(0, PACKET_SERVICES);
    const operation: Rip = Rip.RESPONSE;
    const packets = [writeRip(from, to, operation, routes), writeQuery(from, to, true, 4), writeSap(from, to, false, services)];
    return [...packets, writePacket(from, to, 20, 0, new Uint8Array(32))];
}

export async function main(module: WebAssembly.Module): Promise<void> {
    await load(module);
    const router = new Router(ports);
    try {
        console.log(play(router), known(router), heard(new Uint8Array(60)), said(router).length, version() >> 16, BROADCAST[0]);
    } catch (why) {
        if (why instanceof IpxrError && why.number === Fault.OUT_OF_MEMORY) console.log(why.message);
    } finally {
        router.free();
    }
}

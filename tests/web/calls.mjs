// Tries that the module has what the header has: its numbers, words and calls; and what each call returns and throws.
import assert from "node:assert/strict";
import { readFileSync } from "node:fs";
import { check } from "./checking.mjs";
import { fresh, watched } from "./library.mjs";
import { address, EVERYONE, hex, packet, routeRequest, routes, serviceQuery, services } from "./packets.mjs";

const HEADER = readFileSync("include/ipxr.h", "utf8");
// (those of tunnels and of segments, which have headers of their own, aren't the module's)
const ANSWERS = readFileSync("examples/embed/c/header.out",
    "utf8").trim().split("\n").map((line) => line.match(/^IPXR_(\w+): (-?\d+) (.*)$/))
    .filter(([, name]) => HEADER.includes(`#define IPXR_${name} `));
const CALLS = Array.from(HEADER.matchAll(/^IPXR_CALL \w+ (ipxr_\w+)\(([^)]*)\)/gm),
    ([, name, of]) => [name, of.split(",").map((it) => it.trim())]);
// The places of buffers, and their room, are the module's own.
const OWN = /\*(?!router)|\[6\]|size_t room/;
const PORTS = [
    { network: 0x10, node: [0, 0, 0, 0, 0, 1], cost: 1, longest: 576 },
    { network: 0x20, node: [0, 0, 0, 0, 0, 2], cost: 1, longest: 576 },
];

const asked = new Map();
const seen = watched((name, given) => {
    if (!asked.has(name)) asked.set(name, []);
    asked.get(name).push(given);
});
const it = await fresh();
const { Router, Outcome, Drop, Fault, Frame, IpxrError, words } = it;

const fault = (number) => (why) => why instanceof IpxrError && why instanceof Error && why.number === number
    && why.message === words(number);
const defined = (pattern) => Object.fromEntries(Array.from(HEADER.matchAll(pattern), ([, name, value]) => [name, Number(value)]));
const told = (happened) => words(happened.outcome);

await check("the numbers of answers, and their words, are the header's", () => {
    const numbers = { ...Outcome, ...Drop, ...Fault };
    assert.deepEqual(Object.entries(numbers).map(([name, value]) => `${name} ${value} ${words(value)}`),
        ANSWERS.map(([, name, value, text]) => `${name} ${value} ${text}`));
    for (const value of Object.values(Outcome)) assert.equal(it.isDrop(value), false);
    for (const value of Object.values(Drop)) assert.equal(it.isDrop(value), true);
    for (const value of [13, 99, 101, 1900, -29, -30, 2 ** 31 - 1, -(2 ** 31)]) assert.equal(words(value), "");
});

await check("the other numbers are the header's", () => {
    const { KINDS, ...kinds } = defined(/^#define IPXR_FRAME_(\w+) (\d+)/gm);
    assert.deepEqual({ ...Frame }, kinds);
    assert.equal(Object.keys(Frame).length, KINDS);
    const { SHORTEST_FRAME, LONGEST_FRAME, NO_LIMIT } = it;
    assert.deepEqual({ SHORTEST_FRAME, LONGEST_FRAME, NO_LIMIT }, defined(/^#define IPXR_((?:SHORTEST|LONGEST)_FRAME|NO_LIMIT) (\d+)/gm));
    assert.deepEqual(it.BROADCAST, Array(6).fill(255));
    assert.equal(it.version() >> 16, defined(/^#define IPXR_(VERSION) (\d+)/gm).VERSION >> 16);
});

await check("events and questions", () => {
    const router = new Router(PORTS);
    const other = new Router(PORTS.slice(1));
    assert.equal(told(router.stop()), "drop NotRunning");
    assert.equal(router.isRunning(), false);
    for (const one of [router, other]) assert.equal(told(one.start()), "started");
    assert.deepEqual(router.start(), { outcome: Outcome.ALREADY_RUNNING, sent: [] });
    assert.equal(router.isRunning() && other.isRunning(), true);
    assert.equal(told(router.packet(1, routes(0x20, "0000000000BB", [[0x30, 1, 2], [0x31, 2, 3]]))), "learned");
    const offers = [[4, "FILES", 0x451], [7, "PRINT", 0x452]].map(([type, name, socket]) =>
        [type, name, address(0x30, "000000000001", socket), 1]);
    assert.equal(told(router.packet(1, services(0x20, "0000000000BB", offers))), "learned");
    assert.equal(told(other.packet(0, routes(0x20, "0000000000BB", [[0x40, 1, 2]]))), "learned");
    assert.equal(told(other.packet(0, services(0x20, "0000000000BB", offers.slice(1)))), "learned");
    assert.deepEqual(router.routes().map(({ network }) => network), [0x30, 0x31]);
    assert.deepEqual(router.services().map(({ name }) => name), ["FILES", "PRINT"]);
    assert.deepEqual(other.routes(), [{ network: 0x40, hops: 1, ticks: 2, node: Uint8Array.of(0, 0, 0, 0, 0, 0xbb), port: 0, age: 0 }]);
    assert.deepEqual(other.services().map(({ name }) => name), ["PRINT"]);
    const answers = router.packet(0, routeRequest(0x10, "0000000000AA"));
    assert.equal(told(answers), "answered");
    assert.deepEqual(answers.sent.map(({ port, node, bytes }) => [port, hex(node), bytes.length]), [[0, "0000000000AA", 56]]);
    assert.equal(router.packet(0, serviceQuery(0x10, "0000000000AA")).sent.length, 1);
    for (const one of [router, other]) assert.equal(told(one.second()), "ticked");
    assert.equal(router.routes()[0].age, 1);
    for (const port of [0, 1]) {
        assert.equal(told(router.portDown(port)), "went down");
        assert.equal(told(router.portDown(port)), "already down");
        assert.equal(router.isUp(port), false);
        assert.equal(router.isUp(1 - port), true);
        assert.equal(told(router.portUp(port)), "came up");
        assert.equal(told(router.portUp(port)), "already up");
    }
    assert.deepEqual([other.portDown(0), other.isUp(0), other.portUp(0)].map((one) => one.outcome ?? one),
        [Outcome.WENT_DOWN, false, Outcome.CAME_UP]);
    for (const one of [router, other]) {
        assert.equal(told(one.stop()), "stopped");
        one.free();
    }
});

await check("a packet that was returned stays, whatever comes after it", () => {
    const router = new Router(PORTS);
    const kept = router.start().sent;
    const texts = kept.map(({ node, bytes }) => hex(node) + hex(bytes));
    for (let k = 0; k < 100; k++) router.second();
    router.free();
    assert.equal(kept.length, 6);
    assert.deepEqual(kept.map(({ node, bytes }) => hex(node) + hex(bytes)), texts);
});

await check("faults are thrown, with the header's numbers and words", () => {
    const router = new Router(PORTS);
    router.start();
    for (const call of [() => router.packet(2, new Uint8Array(30)), () => router.portDown(2), () => router.portUp(255),
        () => router.isUp(2)])
        assert.throws(call, fault(Fault.NO_PORT));
    const spoiled = (what) => () => new Router([PORTS[0], { ...PORTS[1], ...what }]);
    assert.throws(() => new Router([]), fault(Fault.NO_PORTS));
    assert.throws(() => new Router(Array.from({ length: 33 }, (_, k) => ({ ...PORTS[0], network: k + 1 }))), fault(Fault.MANY_PORTS));
    assert.throws(spoiled({ longest: 575 }), fault(Fault.BAD_LONGEST));
    assert.throws(spoiled({ cost: 0 }), fault(Fault.BAD_COST));
    for (const network of [0, 0xfffffffe, 0xffffffff]) assert.throws(spoiled({ network }), fault(Fault.BAD_NETWORK));
    assert.throws(spoiled({ node: it.BROADCAST }), fault(Fault.BAD_NODE));
    assert.throws(spoiled({ network: 0x10 }), fault(Fault.SAME_NETWORK));
    new Router(Array.from({ length: 32 }, (_, k) => ({ ...PORTS[0], network: k + 1 }))).free();
    assert.equal(`${new IpxrError(Fault.NO_PORT)}`, "IpxrError: no such port");
    router.free();
});

await check("a router that was freed throws at each call, and can be freed again", () => {
    const router = new Router(PORTS);
    router.start();
    router.free();
    router.free();
    const calls = ["start", "stop", "second", "isRunning", "routes", "services"].map((name) => () => router[name]());
    calls.push(...["portDown", "portUp", "isUp"].map((name) => () => router[name](0)), () => router.packet(0, new Uint8Array(30)));
    for (const call of calls) assert.throws(call, fault(Fault.NO_ROUTER));
    if (Symbol.dispose) {
        const other = new Router(PORTS);
        other[Symbol.dispose]();
        assert.throws(() => other.start(), fault(Fault.NO_ROUTER));
    }
});

await check("frames of each kind are written and read", () => {
    const [to, from] = [[1, 2, 3, 4, 5, 6], Uint8Array.of(0x12, 0x34, 0x56, 0x78, 0x9a, 0xbc)];
    const one = packet(4, address(0x10, "0000000000AA", 0x4003), address(0x20, "0000000000BB", 0x4003), "0102");
    const heads = { ETHERNET2: "8137", RAW: "0020", LLC: "0023E0E003", SNAP: "0028AAAA030000008137" };
    for (const [name, kind] of Object.entries(Frame)) {
        const frame = it.writeFrame(kind, to, from, one);
        assert.equal(hex(frame), `010203040506123456789ABC${heads[name]}${hex(one)}`.padEnd(120, "0"));
        const found = it.readFrame(frame);
        assert.equal(found.kind, kind);
        assert.equal(hex(found.packet).startsWith(hex(one)), true);
        assert.equal(found.packet.buffer, frame.buffer);
    }
    assert.equal(it.writeFrame(Frame.RAW, to, from, new Uint8Array(30)), null);
    assert.equal(it.writeFrame(5, to, from, one), null);
    for (const [length, whole] of [[1500, 1514], [1501, undefined], [200000, undefined]])
        assert.equal(it.writeFrame(Frame.ETHERNET2, to, from, new Uint8Array(length))?.length, whole);
    assert.equal(it.readFrame(new Uint8Array(60)), null);
    assert.equal(it.readFrame(new Uint8Array()), null);
});

await check("the numbers of packets that are written are the header's", () => {
    const { RIP_SOCKET, SAP_SOCKET, PACKET_ROUTES, PACKET_SERVICES } = it;
    const numbers = defined(/^#define IPXR_(RIP_\w+|SAP_SOCKET|PACKET_\w+) (\w+)/gm);
    assert.deepEqual({ RIP_SOCKET, SAP_SOCKET, RIP_REQUEST: it.Rip.REQUEST, RIP_RESPONSE: it.Rip.RESPONSE, PACKET_ROUTES, PACKET_SERVICES },
        numbers);
});

await check("packets are written as docs/PACKETS.md has them", () => {
    const end = (network, last, socket) => ({ network, node: [0, 0, 0, 0, 0, last], socket });
    const all = (network, socket) => ({ network, node: it.BROADCAST, socket });
    const [rip, sap] = [it.RIP_SOCKET, it.SAP_SOCKET];
    const ways = [[0x30, 1, 2], [0x31, 16, 3]].map(([network, hops, ticks]) => ({ network, hops, ticks }));
    assert.equal(hex(it.writeRip(end(0x20, 0xbb, rip), all(0x20, rip), it.Rip.RESPONSE, ways)),
        hex(routes(0x20, "0000000000BB", [[0x30, 1, 2], [0x31, 16, 3]])));
    const asked = { network: 0xffffffff, hops: 0xffff, ticks: 0xffff };
    assert.equal(hex(it.writeRip(end(0x10, 0xaa, rip), all(0x10, rip), it.Rip.REQUEST, [asked])), hex(routeRequest(0x10, "0000000000AA")));
    assert.equal(hex(it.writeQuery(end(0x10, 0xaa, sap), all(0x10, sap), false, 0xffff)), hex(serviceQuery(0x10, "0000000000AA")));
    const nearest = packet(4, address(0x10, EVERYONE, sap), address(0x10, "0000000000AA", sap), "00030004");
    assert.equal(hex(it.writeQuery(end(0x10, 0xaa, sap), all(0x10, sap), true, 4)), hex(nearest));
    const offer = { name: "FILES", ...end(0x30, 1, 0x451), type: 4, hops: 1 };
    assert.equal(hex(it.writeSap(end(0x20, 0xbb, sap), all(0x20, sap), false, [offer])),
        hex(services(0x20, "0000000000BB", [[4, "FILES", address(0x30, "000000000001", 0x451), 1]])));
    const wanted = packet(17, address(0x20, "0000000000BB", 0x451), address(0x10, "0000000000AA", 0x4003), "010203");
    assert.equal(hex(it.writePacket(end(0x10, 0xaa, 0x4003), end(0x20, 0xbb, 0x451), 17, 0, Uint8Array.of(1, 2, 3))), hex(wanted));
    assert.equal(it.writePacket(end(0, 0, 0), end(0, 0, 0), 20, 2, new Uint8Array(65505)).length, 65535);
});

await check("a service that a router learned is written as it came", () => {
    const router = new Router(PORTS);
    router.start();
    const given = services(0x20, "0000000000BB", [[4, "A B\xff", address(0x30, "000000000001", 0x451), 1]]);
    router.packet(1, given);
    const [from, to] = [[0, 0, 0, 0, 0, 0xbb], it.BROADCAST].map((node) => ({ network: 0x20, node, socket: it.SAP_SOCKET }));
    assert.equal(hex(it.writeSap(from, to, false, router.services())), hex(given));
    router.free();
});

await check("what isn't written is a fault, with the header's number and words", () => {
    const here = { network: 0, node: [0, 0, 0, 0, 0, 1], socket: 0 };
    const [way, offer] = [{ network: 1, hops: 1, ticks: 1 }, { ...here, name: "A", type: 4, hops: 1 }];
    const many = (count, one) => Array(count).fill(one);
    assert.throws(() => it.writeRip(here, here, 3, []), fault(Fault.BAD_OPERATION));
    assert.throws(() => it.writeRip(here, here, 1, []), fault(Fault.NO_ENTRIES));
    for (const count of [51, 8191, 8192, 10000]) assert.throws(() => it.writeRip(here, here, 2, many(count, way)),
        fault(Fault.MANY_ENTRIES));
    assert.throws(() => it.writeSap(here, here, true, []), fault(Fault.NO_ENTRIES));
    for (const count of [8, 1024]) assert.throws(() => it.writeSap(here, here, false, many(count, offer)), fault(Fault.MANY_ENTRIES));
    for (const length of [0, 48, 49, 1000])
        assert.throws(() => it.writeSap(here, here, false, [offer, { ...offer, name: "A".repeat(length) }]), fault(Fault.BAD_NAME));
    for (const length of [65506, 65536, 200000]) assert.throws(() => it.writePacket(here, here, 0, 0, new Uint8Array(length)),
        fault(Fault.LONG_PACKET));
    assert.equal(it.writeRip(here, here, 2, many(50, way)).length, 432);
    assert.equal(it.writeSap(here, here, false, many(7, { ...offer, name: "A".repeat(47) })).length, 480);
});

await check("every call of the header is made, with several values of each argument", () => {
    const own = ["memory", "rattle_alloc", "rattle_dealloc"];
    assert.deepEqual(seen.names.sort(), [...CALLS.map(([name]) => name), ...own].sort());
    for (const [name, parameters] of CALLS.filter(([, of]) => of[0] !== "void")) {
        assert.ok(asked.has(name), name);
        for (const [k, parameter] of parameters.entries()) {
            const values = new Set(asked.get(name).map((given) => given[k]));
            assert.ok(OWN.test(parameter) || values.size > 1, `${name}: ${parameter}`);
        }
    }
    assert.ok(asked.has("ipxr_version"));
});

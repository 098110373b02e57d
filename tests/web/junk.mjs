// Tries what isn't meant: values of wrong types, packets and frames of any bytes, and libraries that are none.
import assert from "node:assert/strict";
import { createServer } from "node:http";
import { pathToFileURL } from "node:url";
import { runInNewContext } from "node:vm";
import { check, folder, imported } from "./checking.mjs";
import { bytes, fresh } from "./library.mjs";
import { address, fromHex, hex, packet } from "./packets.mjs";

const it = await fresh();
const { Router, Frame, Outcome, words } = it;
const PORT = { network: 0x10, node: [0, 0, 0, 0, 0, 1], cost: 1, longest: 576 };
const OTHER = { network: 0x20, node: [0, 0, 0, 0, 0, 2], cost: 1, longest: 576 };
const NODE = PORT.node;
const SEED = 20;
const TURNS = 20000;

// What is no number of a field of so many bytes; no node; and no bytes.
const NOTHING = [undefined, null, true, "1", "", 1n, {}, [], [1], () => 1, Symbol("1"), new Date(1), Object(1)];
const noNumber = (size) => [...NOTHING, NaN, Infinity, -Infinity, -1, 0.5, 2 ** (8 * size), 2 ** 53, -(2 ** 53)];
const NO_NODE = [...NOTHING, 1, NODE.slice(1), [...NODE, 0], "000000000001", [0, 0, 0, 0, 0, 256], [0, 0, 0, 0, 0, -1],
    [0, 0, 0, 0, 0, "1"], Array(6),
    new Uint16Array(6), new Uint8Array(5), new ArrayBuffer(6), { length: 6 }];
const NO_BYTES = [...NOTHING, 1, NODE, new ArrayBuffer(30), new DataView(new ArrayBuffer(30)), new Uint16Array(30),
    new Uint8ClampedArray(30),
    new Int8Array(30), { length: 30 }];

const refuses = (values, call) => values.forEach((value) =>
    assert.throws(() => call(value), TypeError, `${typeof value} ${String(value)}`));

// Numbers below a bound that look random, the same each time.
function random(seed) {
    let state = seed;
    return (below) => {
        state = (Math.imul(state, 1103515245) + 12345) >>> 0;
        return Math.floor((state / 2 ** 32) * below);
    };
}

await check("values of wrong types are TypeErrors, and change nothing", () => {
    const router = new Router([PORT, OTHER]);
    for (const name of ["portDown", "portUp", "isUp"]) refuses(noNumber(1), (value) => router[name](value));
    refuses(noNumber(1), (value) => router.packet(value, new Uint8Array(30)));
    refuses(NO_BYTES, (value) => router.packet(0, value));
    refuses([...NOTHING, NaN, 0.5, 2 ** 31, -(2 ** 31) - 1], words);
    refuses(noNumber(1), (value) => it.writeFrame(value, NODE, NODE, new Uint8Array(30)));
    refuses(NO_NODE, (value) => it.writeFrame(Frame.RAW, value, NODE, new Uint8Array(30)));
    refuses(NO_NODE, (value) => it.writeFrame(Frame.RAW, NODE, value, new Uint8Array(30)));
    refuses(NO_BYTES, (value) => it.writeFrame(Frame.RAW, NODE, NODE, value));
    refuses(NO_BYTES, it.readFrame);
    assert.equal(router.start().outcome, Outcome.STARTED);
    assert.equal(router.isUp(0) && router.isUp(1), true);
    router.free();
});

await check("packets of wrong types are TypeErrors", () => {
    const here = { network: 1, node: NODE, socket: 2 };
    const [way, offer] = [{ network: 1, hops: 1, ticks: 1 }, { ...here, name: "A", type: 4, hops: 1 }];
    const noObject = NOTHING.filter((value) => typeof value !== "object" || value === null);
    for (const value of noObject) {
        refuses([value], (from) => it.writePacket(from, here, 0, 0, new Uint8Array()));
        refuses([value], (to) => it.writePacket(here, to, 0, 0, new Uint8Array()));
        refuses([value], (route) => it.writeRip(here, here, 1, [route]));
        refuses([value], (service) => it.writeSap(here, here, false, [service]));
    }
    refuses(noNumber(4), (network) => it.writePacket({ ...here, network }, here, 0, 0, new Uint8Array()));
    refuses(NO_NODE, (node) => it.writePacket(here, { ...here, node }, 0, 0, new Uint8Array()));
    refuses(noNumber(2), (socket) => it.writePacket(here, { ...here, socket }, 0, 0, new Uint8Array()));
    refuses(noNumber(1), (type) => it.writePacket(here, here, type, 0, new Uint8Array()));
    refuses(noNumber(1), (control) => it.writePacket(here, here, 0, control, new Uint8Array()));
    refuses(NO_BYTES, (data) => it.writePacket(here, here, 0, 0, data));
    refuses(noNumber(2), (operation) => it.writeRip(here, here, operation, [way]));
    for (const name of ["hops", "ticks"]) refuses(noNumber(2), (value) => it.writeRip(here, here, 1, [{ ...way, [name]: value }]));
    refuses(noNumber(2), (type) => it.writeQuery(here, here, true, type));
    refuses([...NOTHING.filter((value) => value !== true), 0, 1], (nearest) => it.writeQuery(here, here, nearest, 4));
    refuses([...NOTHING.filter((value) => value !== true), 0, 1], (nearest) => it.writeSap(here, here, nearest, [offer]));
    refuses([undefined, null, 1, ["A"], "A\0", "\u0100"], (name) => it.writeSap(here, here, false, [{ ...offer, name }]));
    refuses(NOTHING.filter((value) => !Array.isArray(value)), (value) => it.writeSap(here, here, false, value));
    assert.equal(it.writeSap(here, here, false, [offer]).length, 96);
});

await check("ports of wrong types are TypeErrors", () => {
    refuses(NOTHING.filter((value) => !Array.isArray(value)), (value) => new Router(value));
    refuses([[1], [null], [undefined], [PORT, "port"], Array(2), [[]]], (value) => new Router(value));
    refuses(noNumber(4), (network) => new Router([{ ...PORT, network }]));
    refuses(NO_NODE, (node) => new Router([{ ...PORT, node }]));
    for (const name of ["cost", "longest"]) refuses(noNumber(2), (value) => new Router([{ ...PORT, [name]: value }]));
    for (const name of ["routes", "services"]) refuses(noNumber(2).filter((value) => value != null),
        (value) => new Router([{ ...PORT, [name]: value }]));
    assert.throws(() => Router([PORT]), TypeError);
    assert.throws(() => Router.prototype.start.call({}), TypeError);
});

await check("bytes may lie anywhere, and be as many as there are", () => {
    const router = new Router([PORT, OTHER]);
    router.start();
    const one = packet(4, address(0x20, "0000000000BB", 0x4003), address(0x10, "0000000000AA", 0x4003), "010203");
    const forwarded = (given) => {
        const { outcome, sent } = router.packet(0, given);
        assert.deepEqual([words(outcome), sent.length, hex(sent[0].bytes).slice(10)], ["forwarded", 1, hex(one).slice(10)]);
    };
    const within = new Uint8Array(100).fill(7);
    within.set(one, 50);
    const shared = new Uint8Array(new SharedArrayBuffer(one.length));
    shared.set(one);
    for (const given of [one, Buffer.from(one), within.subarray(50), shared, runInNewContext("Uint8Array").from(one)]) forwarded(given);
    for (const behind of [1, 65535 - one.length, 65536, 10 ** 7]) forwarded(Buffer.concat([one, Buffer.alloc(behind, 7)]));
    structuredClone(within.buffer, { transfer: [within.buffer] });
    assert.throws(() => router.packet(0, within), TypeError);
    const node = Uint8Array.from(NODE);
    new Router([{ ...PORT, node }]).free();
    router.free();
});

await check("a port whose field makes a router while it is read", () => {
    const inner = [];
    const ports = [{ ...PORT, get cost() { return inner.push(new Router([PORT])); } }];
    const outer = new Router(ports);
    for (const router of [outer, ...inner]) assert.equal(router.start().outcome, Outcome.STARTED);
});

await check(`${TURNS} packets and frames of random bytes have outcomes that have words`, () => {
    const router = new Router([PORT, OTHER]);
    router.start();
    const below = random(SEED);
    const head = fromHex(`FFFF0028000100000010${"FF".repeat(6)}0453000000100000000000AA04530002`);
    const seen = new Set();
    for (let k = 0; k < TURNS; k++) {
        const given = Uint8Array.from({ length: below(80) }, () => below(256));
        if (below(2)) given.set(head.subarray(0, Math.min(given.length, below(head.length + 1))));
        const { outcome, sent } = router.packet(below(2), given);
        assert.ok(words(outcome));
        if (it.isDrop(outcome)) assert.deepEqual(sent, []);
        seen.add(outcome);
        const found = it.readFrame(given);
        assert.ok(found === null || found.packet.length <= given.length - 14);
    }
    assert.ok(seen.size > 8, `${seen.size} outcomes`);
    router.free();
});

await check("the library is loaded from whatever has it", async () => {
    const server = createServer(({ url }, response) => response.writeHead(url === "/libipxr.wasm" ? 200 : 404).end(bytes)).listen(0,
        "127.0.0.1");
    await new Promise((resolve) => server.once("listening", resolve));
    const at = `http://127.0.0.1:${server.address().port}`;
    const path = `${folder}/libipxr.wasm`;
    const module = await WebAssembly.compile(bytes);
    const sources = [undefined, path, pathToFileURL(path), `${pathToFileURL(path)}`, bytes, Uint8Array.from(bytes).buffer,
        module, Promise.resolve(bytes), `${at}/libipxr.wasm`, fetch(`${at}/libipxr.wasm`),
            `data:application/wasm;base64,${bytes.toString("base64")}`];
    try {
        for (const source of sources) assert.equal((await fresh(source)).words(Outcome.STARTED), "started", String(source).slice(0, 80));
        await assert.rejects(fresh(`${at}/elsewhere`), /404/);
    } finally {
        server.closeAllConnections();
        server.close();
    }
});

await check("what isn't the library isn't loaded", async () => {
    const empty = Uint8Array.of(0, 0x61, 0x73, 0x6d, 1, 0, 0, 0);
    for (const source of [null, 1, true, {}, [], Symbol("x")]) await assert.rejects(fresh(source), TypeError);
    const broken = [new Uint8Array(), bytes.subarray(0, 1000), Buffer.from("<!doctype html>")];
    for (const source of broken) await assert.rejects(fresh(source), WebAssembly.CompileError);
    await assert.rejects(fresh(empty), /version 0/);
    await assert.rejects(fresh(`${folder}/elsewhere.wasm`), { code: "ENOENT" });
});

await check("it is loaded once, and nothing goes before", async () => {
    const made = await imported("ipxr.mjs", "once");
    for (const call of [() => new made.Router([PORT]), () => made.words(0), () => made.version(), () => made.readFrame(new Uint8Array(60)),
        () => made.writeFrame(1, NODE, NODE, new Uint8Array(30)), () => made.writeRip(), () => made.writeQuery(), () => made.writeSap(),
        () => made.writePacket()]) assert.throws(call, /isn't loaded/);
    await assert.rejects(made.Router.load(new Uint8Array()));
    await Promise.all([made.Router.load(bytes), made.Router.load(bytes)]);
    const router = new made.Router([PORT]);
    await made.Router.load();
    assert.equal(router.start().outcome, Outcome.STARTED);
});

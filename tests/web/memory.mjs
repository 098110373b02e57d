// Tries what becomes of memory: where it is refused, where routers are freed, and where they are forgotten. Wants --expose-gc.
import assert from "node:assert/strict";
import { check, imported } from "./checking.mjs";
import { bytes, fresh, limited, watched } from "./library.mjs";
import { routes } from "./packets.mjs";

// A port on each of some networks.
const portsOf = (count) => Array.from({ length: count },
    (_, k) => ({ network: 0x10 + k, node: [0, 0, 0, 0, 0, 1], cost: 1, longest: 576 }));
const MANY = portsOf(32);
// Pages that are enough for the library and a few routers.
const FEW = 40;
const ROUTERS = 10000;
// How often the collector is asked at most.
const TURNS = 100;

const refused = ({ Fault, IpxrError, words }) => (why) =>
    why instanceof IpxrError && why.number === Fault.OUT_OF_MEMORY && why.message === words(Fault.OUT_OF_MEMORY);

// What a call gives, or undefined where memory is refused.
function given(call, it) {
    try {
        return call();
    } catch (why) {
        if (refused(it)(why)) return undefined;
        throw why;
    }
}

// The library's memory, and how many blocks are there that the module asked for itself.
function counted() {
    const it = watched((name) => (it.blocks += (name === "rattle_alloc") - (name === "rattle_dealloc")));
    it.blocks = 0;
    return it;
}

// As many routers as there is memory for.
function filled(it) {
    const made = [];
    for (let next; (next = given(() => new it.Router(MANY), it)); ) made.push(next);
    return made;
}

await check("where memory is refused there is no router, and those that are there stay", async () => {
    const it = await fresh(limited(FEW));
    const first = new it.Router(portsOf(2));
    first.start();
    first.packet(1, routes(0x11, "0000000000BB", [[0x30, 1, 2]]));
    const all = filled(it);
    assert.ok(all.length > 3);
    assert.throws(() => new it.Router(MANY), refused(it));
    assert.deepEqual(first.routes().map(({ network }) => network), [0x30]);
    assert.equal(first.isRunning(), true);
    all.pop().free();
    assert.equal(new it.Router(MANY).isRunning(), false);
});

await check("an event to which memory is refused did nothing, and can be given again", async () => {
    const it = await fresh(limited(FEW));
    const other = new it.Router(MANY);
    const wanted = other.start();
    // (each keeps the room for what it sent)
    const one = filled(it).find((next) => given(() => next.start(), it) === undefined);
    for (let turn = 0; turn < 3; turn++) assert.throws(() => one.start(), refused(it));
    assert.deepEqual([one.isRunning(), one.isUp(0), one.routes(), one.services()], [false, false, [], []]);
    // (which gives back the room of what it sent)
    other.free();
    assert.equal(wanted.sent.length, 96);
    assert.deepEqual(one.start(), wanted);
});

await check("a library that has no memory to be loaded in is refused, and another can be loaded then", async () => {
    const { Router, Fault } = await imported("ipxr.mjs", "again");
    await assert.rejects(Router.load(limited(0)), { name: "IpxrError", number: Fault.OUT_OF_MEMORY });
    assert.throws(() => new Router(MANY), /isn't loaded/);
    await Router.load(bytes);
    new Router(MANY).free();
});

await check(`${ROUTERS} routers that are made, used and freed don't grow the memory`, async () => {
    const seen = counted();
    const { Router } = await fresh();
    const { blocks } = seen;
    let size;
    for (let k = 0; k < ROUTERS; k++) {
        const router = new Router(k % 2 ? MANY : portsOf(2));
        router.start();
        router.packet(1, routes(0x11, "0000000000BB", [[0x1000 + k, 1, 2]]));
        router.free();
        if (k === 1) size = seen.memory.buffer.byteLength;
    }
    assert.deepEqual([seen.memory.buffer.byteLength, seen.blocks], [size, blocks]);
});

await check("ports that make no router don't grow it either", async () => {
    const seen = counted();
    const { Router } = await fresh();
    new Router(MANY).free();
    const { memory: { buffer: { byteLength } }, blocks } = seen;
    for (let k = 0; k < ROUTERS; k++) assert.throws(() => new Router([...MANY.slice(0, k % 32), { ...MANY[0], cost: 0 }]));
    assert.deepEqual([seen.memory.buffer.byteLength, seen.blocks], [byteLength, blocks]);
});

await check("routers that are forgotten are freed", async () => {
    const it = await fresh(limited(FEW));
    for (let k = 0; k < 1000; k++) {
        for (let turn = 0; given(() => new it.Router(MANY), it) === undefined; turn++) {
            assert.ok(turn < TURNS, `after ${k} routers`);
            globalThis.gc();
            await new Promise(setImmediate);
        }
    }
});

await check("routers that are freed and then forgotten are freed once", async () => {
    const { Router } = await fresh();
    for (let turn = 0; turn < TURNS; turn++) {
        new Router(MANY).free();
        globalThis.gc();
        await new Promise(setImmediate);
    }
    const [one, other] = [new Router(MANY), new Router(MANY)];
    one.start();
    assert.deepEqual([one.isRunning(), other.isRunning()], [true, false]);
});

await check("memory that grows is seen where it is", async () => {
    const seen = watched(() => {});
    const { Router, words } = await fresh(bytes);
    const first = new Router(MANY);
    const size = seen.memory.buffer.byteLength;
    while (seen.memory.buffer.byteLength === size) new Router(MANY);
    assert.equal(words(first.start().outcome), "started");
    seen.memory.grow(1);
    assert.equal(words(6), "forwarded");
    assert.throws(() => first.isUp(40), { message: "no such port" });
    seen.memory.grow(1);
    assert.equal(first.packet(1, routes(0x11, "0000000000BB", [[0x1000, 1, 2]])).sent.length, 31);
    seen.memory.grow(1);
    assert.deepEqual(first.routes().map(({ network }) => network), [0x1000]);
});

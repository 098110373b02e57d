// How long it takes to forward a packet through a router in JavaScript, as forward.c does through the calls of C: the same router, packets
// and rounds. Prints nanoseconds a packet, the fewest of several runs. The argument is the folder of ipxr.mjs and libipxr.wasm.
import { resolve } from "node:path";
import { pathToFileURL } from "node:url";

const [ROUTES, RUNS, TURNS, HEADER, ENTRY, LONGEST] = [16, 9, 50000, 30, 8, 576];
// The first far network; the others follow it.
const FAR = 0x1000;

const { Router, Outcome } = await import(pathToFileURL(resolve(process.argv[2], "ipxr.mjs")));

function fromHex(text) {
    return Uint8Array.from(text.match(/../g), (it) => parseInt(it, 16));
}

function network(number) {
    return number.toString(16).padStart(8, "0");
}

// BB on network 20 advertises the far networks: one hop, two ticks.
function advertisement() {
    const length = (HEADER + 2 + ENTRY * ROUTES).toString(16).padStart(4, "0");
    const entries = Array.from({ length: ROUTES }, (_, k) => `${network(FAR + k)}00010002`);
    return fromHex(`ffff${length}000100000020ffffffffffff0453000000200000000000bb04530002${entries.join("")}`);
}

// Without data, from AA on network 10 to CC on a far network.
function packetTo(far) {
    return fromHex(`ffff001e0000${network(far)}0000000000cc4003000000100000000000aa4003`);
}

// Forwards TURNS rounds, and adds up the lengths of what is sent.
function forward(router, packets) {
    let length = 0;
    for (let turn = 0; turn < TURNS; turn++)
        for (const packet of packets) for (const { bytes } of router.packet(0, packet).sent) length += bytes.length;
    return length;
}

await Router.load();
const router = new Router([
    { network: 0x10, node: [0, 0, 0, 0, 0, 1], cost: 1, longest: LONGEST },
    { network: 0x20, node: [0, 0, 0, 0, 0, 2], cost: 1, longest: LONGEST },
]);
router.start();
if (router.packet(1, advertisement()).outcome !== Outcome.LEARNED) throw new Error("the routes weren't learned");
const packets = Array.from({ length: ROUTES }, (_, k) => packetTo(FAR + k));
let least = Infinity;
for (let run = 0; run < RUNS; run++) {
    const began = process.hrtime.bigint();
    if (forward(router, packets) !== TURNS * ROUTES * HEADER) throw new Error("packets weren't forwarded");
    least = Math.min(least, Number(process.hrtime.bigint() - began) / (TURNS * ROUTES));
}
console.log(`forward a packet through JavaScript: ${least.toFixed(1)} ns a packet`);
router.free();

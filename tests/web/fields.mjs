// Gives each field and each argument a value of its own, and reads it back: it prints what examples/embed/c/fields.c does.
import { imported } from "./checking.mjs";
import { address, HEADER, hex, number, numberAt, packet, routes, services } from "./packets.mjs";

const { Router, Outcome, Rip, words, writePacket, writeQuery, writeRip, writeSap } = await imported("ipxr.mjs");
await Router.load();

const PORTS = [
    { network: 0x11121314, node: [0x21, 0x22, 0x23, 0x24, 0x25, 0x26], cost: 0x0501, longest: 700, routes: 3, services: 2 },
    { network: 0x31323334, node: [0x41, 0x42, 0x43, 0x44, 0x45, 0x46], cost: 7, longest: 1009, routes: 2, services: 1 },
];
const NEIGHBOURS = ["616263646566", "717273747576"];
const SERVER = "919293949596";
const [FAR, OFFERED, TICKS, SOCKET, TYPE] = [0x51525350, 0x81828384, 0x0102, 0xa1a2, 0x0b0c];
const MOST = 1500;
// Where the first entry of a response has its ticks.
const AT_TICKS = HEADER + 2 + 6;

const router = new Router(PORTS);

function tell(event, { outcome, sent }) {
    console.log(`${event}: ${words(outcome)}`);
    return sent;
}

function show({ port, node, bytes }, index) {
    const from = `from network ${hex(bytes.subarray(18, 22))}, node ${hex(bytes.subarray(22, 28))}`;
    console.log(`packet ${index}: length ${bytes.length}, port ${port}, node ${hex(node)}, ${from}`);
}

// Each port hears of more than its shares.
function learn() {
    for (const [port, { network }] of PORTS.entries()) {
        const entries = [0, 1, 2, 3].map((k) => [FAR + 4 * port + k, 3 + port, TICKS]);
        const [first] = tell("four routes", router.packet(port, routes(network, NEIGHBOURS[port], entries)));
        console.log(`cost of port ${first.port}: ${numberAt(first.bytes, AT_TICKS, 2) - TICKS}`);
        tell("a second", router.second());
        const offers = [0, 1, 2].map((k) => [TYPE, `FILES ${"ABCDEFG"[4 * port + k]}`, address(OFFERED, SERVER, SOCKET), 5 + port]);
        tell("three services", router.packet(port, services(network, NEIGHBOURS[port], offers)));
    }
}

function showRecords() {
    for (const [k, it] of router.routes().entries()) {
        const what = `network ${number(it.network, 4)}, hops ${it.hops}, ticks ${it.ticks}, node ${hex(it.node)}`;
        console.log(`route ${k} of ${router.routes().length}: ${what}, port ${it.port}, age ${it.age}`);
    }
    for (const [k, it] of router.services().entries()) {
        const where = `network ${number(it.network, 4)}, node ${hex(it.node)}, socket ${number(it.socket, 2)}`;
        const how = `type ${number(it.type, 2)}, hops ${it.hops}, neighbour ${hex(it.neighbour)}`;
        console.log(`service ${k} of ${router.services().length}: name ${it.name}, ${where}, ${how}, port ${it.port}, age ${it.age}`);
    }
}

// A packet from a neighbour on the other port to the server on this one.
function sendThrough(port, length) {
    const from = address(PORTS[1 - port].network, NEIGHBOURS[1 - port], SOCKET);
    return router.packet(1 - port, packet(0, address(PORTS[port].network, SERVER, SOCKET), from, "00".repeat(length - HEADER)));
}

// How long a packet may be that leaves on a port; and one that leaves there.
function showLongest(port) {
    let longest = 0;
    for (let length = HEADER; length <= MOST; length++) if (sendThrough(port, length).outcome === Outcome.FORWARDED) longest = length;
    console.log(`longest on port ${port}: ${longest}`);
    tell("333 bytes", sendThrough(port, 333)).forEach(show);
}

// The numbers among the arguments.
function showArguments() {
    tell("29 bytes of 30", router.packet(0, new Uint8Array(HEADER).subarray(1)));
    tell("30 bytes, a length of 0", router.packet(0, new Uint8Array(HEADER)));
    tell("port 1 goes down", router.portDown(1));
    console.log(`up: port 0 ${Number(router.isUp(0))}, port 1 ${Number(router.isUp(1))}`);
    tell("port 1 comes up", router.portUp(1));
}

const bytesFrom = (first, count) => Array.from({ length: count }, (_, k) => first + k);
const FROM = { network: 0xb1b2b3b4, node: bytesFrom(0xb5, 6), socket: 0xbbbc };
const TO = { network: 0xc1c2c3c4, node: bytesFrom(0xc5, 6), socket: 0xcbcc };
const WAYS = [{ network: 0xd1d2d3d4, hops: 0xd5d6, ticks: 0xd7d8 }, { network: 0xe1e2e3e4, hops: 0xe5e6, ticks: 0xe7e8 }];
const OFFERS = [
    { name: "FILES", network: 0x01020304, node: bytesFrom(5, 6), socket: 0x0b0c, type: 0x0d0e, hops: 0x0f10 },
    { name: "PRINT", network: 0x11121314, node: bytesFrom(21, 6), socket: 0x1b1c, type: 0x1d1e, hops: 0x1f20 },
];

// Packets that are written.
function showWritten() {
    const written = {
        "a request": writeRip(FROM, TO, Rip.REQUEST, WAYS.slice(0, 1)),
        "a response": writeRip(FROM, TO, Rip.RESPONSE, WAYS),
        "a query": writeQuery(FROM, TO, false, 0xa1a2),
        "for the nearest": writeQuery(FROM, TO, true, 0xa1a2),
        "a service": writeSap(FROM, TO, true, OFFERS.slice(0, 1)),
        "two services": writeSap(FROM, TO, false, OFFERS),
        data: writePacket(FROM, TO, 0xa3, 0xa4, Uint8Array.of(0xf1, 0xf2, 0xf3)),
    };
    for (const [what, bytes] of Object.entries(written)) console.log(`${what}: ${hex(bytes)}`);
}

tell("start", router.start()).forEach(show);
learn();
showRecords();
showLongest(0);
showLongest(1);
showArguments();
showWritten();
router.free();

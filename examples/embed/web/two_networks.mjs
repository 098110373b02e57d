// Joins two networks, plays a few packets to the router, and prints what it sends; ../c/two_networks.c draws the networks. It runs in Node
// and in a page.
import { Router, words } from "./ipxr.mjs";

const PACKETS = [
    [1, "BB advertises network 30", "FFFF0028000100000020FFFFFFFFFFFF0453000000200000000000BB045300020000003000010002"],
    [0, "AA asks for all routes", "FFFF0028000100000010FFFFFFFFFFFF0453000000100000000000AA04530001FFFFFFFFFFFFFFFF"],
    [0, "AA writes to CC on network 20", "FFFF001E0000000000200000000000CC4003000000100000000000AA4003"],
    [0, "AA writes to network 99", "FFFF001E0000000000990000000000CC4003000000100000000000AA4003"],
    [0, "29 bytes come", "00".repeat(29)],
];

function hex(bytes) {
    return Array.from(bytes, (it) => it.toString(16).toUpperCase().padStart(2, "0")).join("");
}

function fromHex(text) {
    return Uint8Array.from(text.match(/../g), (it) => parseInt(it, 16));
}

function show(event, { outcome, sent }) {
    console.log(`${event}: ${words(outcome)}`);
    for (const { port, node, bytes } of sent) console.log(`out ${port} ${hex(node)} ${hex(bytes)}`);
}

await Router.load();
const router = new Router([
    { network: 0x10, node: [0, 0, 0, 0, 0, 1], cost: 1, longest: 576 },
    { network: 0x20, node: [0, 0, 0, 0, 0, 2], cost: 1, longest: 576 },
]);
show("start", router.start());
for (const [port, what, text] of PACKETS) show(what, router.packet(port, fromHex(text)));
for (const { network, hops, ticks, port, node, age } of router.routes())
    console.log(`route ${network.toString(16).toUpperCase().padStart(8, "0")} ${hops} ${ticks} ${port} ${hex(node)} ${age}`);
show("second", router.second());
show("port 1 goes down", router.portDown(1));
show("stop", router.stop());
router.free();

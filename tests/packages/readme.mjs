// Runs the lines of the package's README that show a router and a server, with what they call "yours": readme.mjs README.
import assert from "node:assert/strict";
import { readFileSync, writeFileSync } from "node:fs";
import { pathToFileURL } from "node:url";
import * as ipxr from "ipxr";

const text = readFileSync(process.argv[2], "utf8");

// The lines of a section that are code.
function shown(section) {
    const [, part] = text.split(`\n## ${section}\n`);
    return part.split("\n## ")[0].split("\n").filter((it) => it.startsWith("    ")).map((it) => it.slice(4)).join("\n");
}

await ipxr.load();
const [sent, answered] = [[], []];
const registration = ipxr.writePacket("0.000000000000.2", "0.000000000000.2", 0, 0, new Uint8Array());
Object.assign(globalThis, {
    ...ipxr,
    bytes: ipxr.writeQuery("10.0200000000AA.4003", "10.FFFFFFFFFFFF.452", false, 4),
    transmit: (port, node, bytes) => sent.push([port, node, bytes]),
    send: (place, bytes) => answered.push([ipxr.placeText(place), bytes]),
    udp: { on: (_, hear) => hear(registration, { address: "10.0.0.1", port: 2130 }) },
});
writeFileSync("shown.mjs", `${shown("A router")}\n${shown("A server for DOSBox")}\n`);
await import(pathToFileURL("shown.mjs"));
assert.ok(sent.length > 0);
assert.deepEqual(answered.map(([place]) => place), ["10.0.0.1:2130"]);

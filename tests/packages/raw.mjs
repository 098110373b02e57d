// Makes each raw call of the package with zeros, and with a block of zeros for each pointer, which every call must answer: raw.mjs CALLS,
// a file that has for each call its name, what it returns, and for each argument its name, its type and whether it is a pointer.
import assert from "node:assert/strict";
import { readFileSync } from "node:fs";
import * as ipxr from "ipxr";
import * as raw from "ipxr/raw";

const ROOM = 400_000;
const TYPES = { void: "undefined", ipxr_flag: "boolean", uint64_t: "bigint" };
const [calls, numbers] = JSON.parse(readFileSync(process.argv[2], "utf8"));

assert.throws(() => raw.ipxr_version(), /isn't loaded/);
await ipxr.load();
const blocks = Array.from({ length: 9 }, () => raw.allocate(ROOM));

function argument({ type, isPointer }, k) {
    if (isPointer) return blocks[k];
    return type === "uint64_t" ? 0n : type === "ipxr_flag" ? false : 0;
}

for (const { name, answer, arguments: taken } of calls) {
    const call = raw[name];
    assert.equal(typeof call, "function", name);
    assert.deepEqual(String(call).match(/^\(([^)]*)\)/)[1].split(", ").filter((it) => it), taken.map((it) => it.name), name);
    for (const at of blocks) raw.memory().fill(0, at, at + ROOM);
    const given = taken.map(argument);
    assert.equal(typeof call(...given), TYPES[answer] ?? "number", name);
}
for (const at of blocks) raw.release(at);

for (const [name, number] of Object.entries(numbers)) assert.equal(String(raw[name]), String(number), name);
const named = Object.keys(raw).filter((it) => /^ipxr_|^IPXR_/.test(it)).sort();
assert.deepEqual(named, [...calls.map((it) => it.name), ...Object.keys(numbers)].sort());

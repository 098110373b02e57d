// The library as tests see it: what is called in it, its memory, and libraries with less memory.
import { readFileSync } from "node:fs";
import { folder, imported } from "./checking.mjs";

export const bytes = readFileSync(`${folder}/libipxr.wasm`);

const [HEAD, MEMORY_SECTION, HAS_MOST] = [8, 5, 1];

// Calls `see(name, arguments)` before each call of a library that is loaded from now on; returns where its memory and its names are put.
export function watched(see) {
    const real = WebAssembly.instantiate;
    const seen = {};
    WebAssembly.instantiate = async (module, imports) => {
        const { exports } = await real(module, imports);
        const watching = ([name, it]) => [name, typeof it === "function" ? (...given) => (see(name, given), it(...given)) : it];
        Object.assign(seen, { memory: exports.memory, names: Object.keys(exports) });
        return { exports: Object.fromEntries(Object.entries(exports).map(watching)) };
    };
    return seen;
}

// A number in the form of WebAssembly, and the place behind it.
function read(at) {
    let value = 0;
    for (let shift = 0; ; shift += 7) {
        value += (bytes[at] & 0x7f) * 2 ** shift;
        if (bytes[at++] < 0x80) return [value, at];
    }
}

function written(value) {
    return value < 0x80 ? [value] : [(value & 0x7f) | 0x80, ...written(value >>> 7)];
}

// The library with a memory of so many pages more, at most, than it begins with.
export function limited(more) {
    for (let at = HEAD; at < bytes.length; ) {
        const [size, start] = read(at + 1);
        if (bytes[at] === MEMORY_SECTION) {
            const [least] = read(start + 2);
            const content = [1, HAS_MOST, ...written(least), ...written(least + more)];
            return Buffer.concat([bytes.subarray(0, at), Uint8Array.of(MEMORY_SECTION, ...written(content.length), ...content),
                bytes.subarray(start + size)]);
        }
        at = start + size;
    }
    throw new Error("the library has no memory of its own");
}

let copies = 0;

// The module with a library of its own, of such bytes.
export async function fresh(source = bytes) {
    const it = await imported("ipxr.mjs", `${++copies}`);
    await it.Router.load(source);
    return it;
}

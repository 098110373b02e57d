// Plays a module: node play.mjs MODULE.wasm <CALLS. Each line of the calls is a function's name and its arguments, as JavaScript writes
// them. Prints a line for each: what it returned, nothing where that is nothing, or trap.
import { readFileSync } from "node:fs";

// A memory of a page, with wide addresses where the module asks for them. (The words for these changed with the engines.)
const MEMORIES = [{ initial: 1 }, { initial: 1n, address: "i64" }, { initial: 1, index: "i64" }];

const number = (text) => (text.endsWith("n") ? BigInt(text.slice(0, -1)) : Number(text));

function instance(module) {
    const next = (it) => it + 1n;
    for (const how of MEMORIES) {
        try {
            return new WebAssembly.Instance(module, { env: { next, memory: new WebAssembly.Memory(how) } });
        } catch (why) {
            if (how === MEMORIES.at(-1)) throw why;
        }
    }
}

function played(run, line) {
    const [name, ...words] = line.split(" ");
    try {
        const found = run.exports[name](...words.map(number));
        return found === undefined ? "" : typeof found === "bigint" ? `${found}n` : `${found}`;
    } catch (why) {
        if (why instanceof WebAssembly.RuntimeError) return "trap";
        throw why;
    }
}

const run = instance(new WebAssembly.Module(readFileSync(process.argv[2])));
const lines = readFileSync(0, "utf8").split("\n").filter((it) => it);
const found = lines.map((line) => played(run, line));
if (found.length) console.log(found.join("\n"));

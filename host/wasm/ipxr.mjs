// Runs the program as WebAssembly: node host/wasm/ipxr.mjs MODULE.wasm VERB [FILE]. What it asks of the system is done by Node.
import { closeSync, openSync, readFileSync, readSync, writeSync } from "node:fs";

// The program knows faults by Linux' numbers.
const [EINTR, EIO] = [4, 5];
const REFUSED = -1;

const [file, ...rest] = process.argv.slice(2);
const given = ["ipxr", ...rest].map((it) => new TextEncoder().encode(it));
let memory;
let fault = 0;

const bytes = (at, count) => new Uint8Array(memory.buffer, Number(at), Number(count));

function text(at) {
    const whole = new Uint8Array(memory.buffer);
    return new TextDecoder().decode(whole.slice(Number(at), whole.indexOf(0, Number(at))));
}

// What a call of the system returns, or -1 where it fails; where there is nothing yet, it is asked again.
function asked(call) {
    for (;;) {
        try {
            return call();
        } catch (why) {
            if (why.code === "EOF") return 0;
            if (why.code === "EAGAIN") continue;
            fault = why.code === "EINTR" ? EINTR : EIO;
            return REFUSED;
        }
    }
}

const system = {
    open: (path) => asked(() => openSync(text(path), "r")),
    close: (it) => asked(() => (closeSync(it), 0)),
    read: (it, at, count) => BigInt(asked(() => readSync(it, bytes(at, count)))),
    write: (it, at, count) => BigInt(asked(() => writeSync(it, bytes(at, count)))),
    rattle_arg(number, at, room) {
        if (number >= given.length) return -1n;
        const word = given[Number(number)];
        bytes(at, room).set(word.subarray(0, Number(room)));
        return word.length <= room ? BigInt(word.length) : -2n;
    },
    rattle_errno: () => fault,
    rattle_set_errno: (it) => void (fault = it),
    // (a reader that is gone is a write that fails)
    __sysv_signal: () => 0n,
};

const run = new WebAssembly.Instance(new WebAssembly.Module(readFileSync(file)), { env: system });
memory = run.exports.memory;
process.exitCode = run.exports.main(0, 0n);

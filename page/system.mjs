// One run of the program: what it asks of a system is given by a reader and taken by a list of pieces.
import { joined } from "./bytes.mjs";

// The name by which a run opens its input, and the number that it gets; standard output is 1, and what is said of faults is 2.
const [INPUT, OUTPUT] = [3, 1];
const LINE_FEED = 10;

// Gives input in pieces: as much as is asked for; or at most one line, and notes how much had been written when the next was asked for. The
// program answers each line before it asks for more, so that is where the answer to a line ends. (It answers a last one without a line feed
// when it has heard that nothing follows.)
class Reader {
    constructor(input, isByLine, tell) {
        Object.assign(this, { input, isByLine, tell, at: 0, told: 0, ends: [] });
    }

    // How far the next piece goes.
    end(count) {
        const most = Math.min(this.at + count, this.input.length);
        if (!this.isByLine) return most;
        const feed = this.input.indexOf(LINE_FEED, this.at);
        return feed < 0 ? most : Math.min(most, feed + 1);
    }

    read(room, written) {
        if (this.isByLine && this.at && this.input[this.at - 1] === LINE_FEED) this.ends.push(written);
        const end = this.end(room.length);
        room.set(this.input.subarray(this.at, end));
        const count = end - this.at;
        this.at = end;
        if (this.at - this.told > this.input.length / 50) {
            this.told = this.at;
            this.tell(this.at / this.input.length);
        }
        return count;
    }
}

// What the program asks of a system.
function system(words, reader, pieces, memory) {
    const bytes = (at, count) => new Uint8Array(memory().buffer, Number(at), Number(count));
    const state = { fault: 0, written: 0 };
    return {
        open: () => INPUT,
        close: () => 0,
        read: (_, at, count) => BigInt(reader.read(bytes(at, count), state.written)),
        write(to, at, count) {
            pieces[to === OUTPUT ? "text" : "error"].push(bytes(at, count).slice());
            if (to === OUTPUT) state.written += Number(count);
            return BigInt(count);
        },
        rattle_arg(number, at, room) {
            if (number >= words.length) return -1n;
            const word = words[Number(number)];
            bytes(at, room).set(word.subarray(0, Number(room)));
            return word.length <= room ? BigInt(word.length) : -2n;
        },
        rattle_errno: () => state.fault,
        rattle_set_errno: (it) => void (state.fault = it),
        __sysv_signal: () => 0n,
    };
}

// Plays input to a verb of the program. Returns its text, what it said of a fault, its status, and where the answer to each line ends.
export function run(module, verb, input, { isByLine = false, tell = () => {} } = {}) {
    const words = ["ipxr", verb].map((it) => new TextEncoder().encode(it));
    const reader = new Reader(input, isByLine, tell);
    const pieces = { text: [], error: [] };
    let made;
    made = new WebAssembly.Instance(module, { env: system(words, reader, pieces, () => made.exports.memory) });
    const status = made.exports.main(0, 0n);
    return { status, text: joined(pieces.text), error: new TextDecoder().decode(joined(pieces.error)), ends: reader.ends };
}

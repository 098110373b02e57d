// The worker: it plays runs of the program, and keeps an opened capture, of which it hands out what is looked at. The page never waits for
// it.
import { answers } from "./timeline.mjs";
import { moves } from "./moves.mjs";
import { openCapture } from "./capture.mjs";
import { parsed } from "./script.mjs";
import { run } from "./system.mjs";

let module;
let capture;

const bytesOfInput = (it) => (typeof it === "string" ? new TextEncoder().encode(it) : it);

function byLine(verb, text) {
    const { text: said, ends } = run(module, verb, bytesOfInput(text), { isByLine: true });
    return { text: new TextDecoder().decode(said), ends };
}

// The packets that each settle of a script hands out.
function movesOf(text) {
    const script = parsed(text);
    const { text: said, ends } = byLine("internet", text);
    return moves(script, answers(said, ends, script.lines.length), (lines) => byLine("replay", lines));
}

const ACTS = {
    module: (it) => void (module = new WebAssembly.Module(it.bytes)),
    run(it, tell) {
        const done = run(module, it.verb, bytesOfInput(it.input), { isByLine: it.isByLine, tell });
        return { ...done, text: new TextDecoder().decode(done.text) };
    },
    moves: (it) => movesOf(it.text),
    open(it, tell) {
        capture = openCapture(it.bytes, (bytes) => run(module, "decode", bytes, { tell }));
        return capture.told();
    },
    choose: (it) => capture.choose(it.filter),
    rows: (it) => capture.rows(it.from, it.to),
    record: (it) => capture.record(it.place),
    totals: () => capture.totals(),
    ladder: (it) => capture.ladder(it.most),
    text: () => capture.chosenText(),
};

// What is wrong, in the program's words where it has some: a page has no more memory than the browser gives.
const faultOf = (why) => (why instanceof RangeError || /memory/i.test(String(why)) ? "out of memory" : String(why.message ?? why));

self.onmessage = ({ data }) => {
    const tell = (share) => self.postMessage({ id: data.id, share });
    try {
        self.postMessage({ id: data.id, answer: ACTS[data.act](data, tell) });
    } catch (why) {
        self.postMessage({ id: data.id, fault: faultOf(why) });
    }
};

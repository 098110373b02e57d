// Queries that nobody answers: a node asks for networks or services, and no answer comes back to it in time in the same kind of frame. Who
// answers in another kind doesn't hear it.
import { FRAMES, recordOf } from "./records.mjs";

// So long an answer is waited for, in seconds, and so many records are looked at for one.
const [PATIENCE, MOST_AHEAD, MOST_READ] = [10, 5000, 20000];
const ANSWERS = { "rip request": "rip response", "sap nearest-query": "sap nearest-response", "sap general-query": "sap general-response" };
const EVERYTHING = ["FFFFFFFF", "FFFF"];

const saysOf = ({ lines }) => (lines[1] ?? "").split(" ").slice(0, 2).join(" ");
const isQuery = (it) => it.isPacket && Boolean(ANSWERS[saysOf(it)]);
// What is asked for: networks, or the type of a service.
const askedBy = ({ lines }) => (lines[1].startsWith("rip") ? lines.slice(2).map((it) => it.split(" ")[1]) : [lines[1].split(" ")[2]]);

function isAnswer(query, it) {
    if (!it.isPacket || it.frame !== query.frame || it.to.node !== query.from.node || saysOf(it) !== ANSWERS[saysOf(query)]) return false;
    const asked = askedBy(query);
    const told = it.lines.slice(2).map((line) => line.split(" ")[1]);
    return asked.some((one) => EVERYTHING.includes(one) || told.includes(one));
}

export class Unanswered {
    // `textAt` gives the text of a record, `timeAt` its second.
    constructor(count, textAt, timeAt) {
        Object.assign(this, { count, textAt, timeAt });
    }

    record(place) {
        return recordOf(this.textAt(place).trimEnd().split("\n"));
    }

    // What is to be said of a query that nobody answers; of all others nothing.
    silence(place, query) {
        if (!isQuery(query)) return "";
        const end = this.timeAt(place) + PATIENCE;
        const node = `.${query.from.node}.`;
        for (let k = place + 1; k < this.count && this.timeAt(k) <= end; k++) {
            if (k > place + MOST_AHEAD) return "";
            if (this.textAt(k).includes(node) && isAnswer(query, this.record(k))) return "";
        }
        const others = this.framesOn(query.to.network);
        const isOther = others.length > 0 && !others.includes(query.frame);
        const named = (it) => FRAMES[it] ?? it;
        const why = isOther ? ` It is sent as ${named(query.frame)}; routers and servers here use ${others.map(named).join(", ")}.` : "";
        return `Nobody answers within ${PATIENCE} s.${why}`;
    }

    // The kinds of frames in which responses come on a network, or on all where a node doesn't know its own.
    framesOn(network) {
        this.frames ??= this.allFrames();
        const isKnown = parseInt(network, 16) > 0;
        return [...new Set(isKnown ? this.frames.get(network) ?? [] : [...this.frames.values()].flatMap((it) => [...it]))];
    }

    allFrames() {
        const found = new Map();
        for (let k = 0; k < Math.min(this.count, MOST_READ); k++) {
            if (!/\n(rip |sap \w+-)response/.test(this.textAt(k))) continue;
            const { from, frame } = this.record(k);
            if (!found.has(from.network)) found.set(from.network, new Set());
            found.get(from.network).add(frame);
        }
        return found;
    }
}

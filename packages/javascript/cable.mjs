// What a gateway decides about its cables: kinds of frames, links that are one cable, ranges of addresses, what goes out one by one, two
// machines with one node, who is asked again, and the gateway's own node.
import { inside } from "./ipxr.mjs";
import * as raw from "./raw.mjs";
import { nodeOf } from "./text.mjs";
import { addressIn, flagOf, Held, lend, packed, packedList, read, timeOf } from "./values.mjs";

const [NODE, BYTE, RANGES] = [6, 0xff, 1000];
const byte = (value, what) => inside.whole(value, BYTE, what);
const hashOf = (hash) => timeOf(hash, "the hash");

/** In which kinds of frames a cable speaks, where stations may use any. The hash of a node is yours: a keyed one. */
export class Kinds extends Held {
    constructor() {
        super("ipxr_kinds");
    }

    second() {
        raw.ipxr_kinds_second(this.address);
    }

    /** A station says a packet in a kind, to a node or to all. Returns whether that counts. */
    hear(hash, node, kind, isForAll) {
        const bytes = nodeOf(node);
        const number = Number(flagOf(isForAll, "whether it is for all"));
        return raw.ipxr_kinds_hear(this.address, hashOf(hash), ...lend(bytes), byte(kind, "the kind"), number);
    }

    /** The kind that a station uses, or NO_FRAME. */
    of(hash, node) {
        const bytes = nodeOf(node);
        return raw.ipxr_kinds_of(this.address, hashOf(hash), ...lend(bytes));
    }

    /** Whether a kind was heard within the last hour. */
    isUsed(kind) {
        return raw.ipxr_kinds_is_used(this.address, byte(kind, "the kind"));
    }

    /** Whether a packet for a node, or for all, goes out in a kind. */
    speaks(hash, node, kind) {
        const bytes = nodeOf(node);
        return raw.ipxr_kinds_speaks(this.address, hashOf(hash), ...lend(bytes), byte(kind, "the kind"));
    }

    /** For each kind the seconds for which it is still in use, and the stations that are known. */
    state() {
        return read("ipxr_kinds", this.address);
    }
}

/** Whether a link is shut, since it is one cable with another. */
export class Loop extends Held {
    constructor() {
        super("ipxr_loop");
    }

    /** A second passes. Returns whether it opens by that. */
    second() {
        return raw.ipxr_loop_second(this.address);
    }

    /** Seconds for which it is shut, unless a probe comes; 0 where it is open. */
    get left() {
        return read("ipxr_loop", this.address).left;
    }
}

/** A probe comes on link `here` that link `there` sent in second `sent`: one of Probe. Both links have a Loop. */
export function probe(here, there, sent, now, atHere, atThere) {
    const [one, other] = [addressIn(atHere, Loop, "the link here"), addressIn(atThere, Loop, "the link there")];
    if (one === other) throw new TypeError("the two links have one Loop");
    return raw.ipxr_loop_probe(byte(here, "the link"), byte(there, "the other link"), timeOf(sent), timeOf(now), one, other);
}

function hostOf(host) {
    const numbers = typeof host === "string" ? host.split(".").map(Number) : host;
    const four = Uint8Array.from(numbers, (it) => byte(it, "a number of the host"));
    if (four.length !== 4) throw new TypeError("the host isn't an address of IPv4");
    return four;
}

const rangeOf = ({ host, bits }) => ({ host: hostOf(host), bits });

/** Whether an address is in one of these ranges, each a host and how many bits count. */
export function rangesHave(ranges, host) {
    const four = hostOf(host);
    const list = packedList("ipxr_range", ranges.map(rangeOf), "range").bytes;
    const { size } = raw.layouts.ipxr_range;
    for (let k = 0; k < ranges.length; k += RANGES) {
        const [some, at] = lend(list.subarray(k * size, (k + RANGES) * size), four);
        if (raw.ipxr_ranges_have(some, Math.min(RANGES, ranges.length - k), at)) return true;
    }
    return false;
}

/** Whether a range's own address is the first of it. */
export function isFirstOfRange(range) {
    const bytes = packed("ipxr_range", rangeOf(range), "the range");
    return raw.ipxr_range_is_first(...lend(bytes));
}

/** How fast things go out that wait for each other. Times are nanoseconds. */
export class Pace extends Held {
    constructor() {
        super("ipxr_pace");
    }

    /** So many wait now, which go so many nanoseconds apart. */
    moreWait(waiting, between, now) {
        raw.ipxr_pace_more_wait(this.address, timeOf(waiting, "how many wait"), timeOf(between), timeOf(now));
    }

    /** Whether the first of so many that wait goes now. */
    letsGo(waiting, now) {
        return raw.ipxr_pace_lets_go(this.address, timeOf(waiting, "how many wait"), timeOf(now));
    }
}

/** The nodes of a network that are watched, since two machines may have one. */
export class Twins extends Held {
    constructor() {
        super("ipxr_twins");
    }

    /** A node is heard on a link in a second: its link before, if it must be told that it moves to and fro; else null. */
    hear(node, link, second) {
        const bytes = nodeOf(node);
        const [at, before] = lend(bytes, 1);
        return raw.ipxr_twins_hear(this.address, at, byte(link, "the link"), timeOf(second), before) ? raw.memory()[before] : null;
    }
}

/** When the next of many is asked again. Times are nanoseconds. */
export class Asks extends Held {
    constructor() {
        super("ipxr_asks");
    }

    areDue(now) {
        return raw.ipxr_asks_are_due(this.address, timeOf(now));
    }

    /** Milliseconds until then, at most so many. */
    patience(most, now) {
        return Number(raw.ipxr_asks_patience(this.address, timeOf(most), timeOf(now)));
    }
}

/** Somebody who was asked. */
export class Asked extends Held {
    constructor() {
        super("ipxr_asked");
    }

    /** He is asked now, and again later, as the number says: one that nobody else can tell. */
    ask(all, now, number) {
        raw.ipxr_asked_ask(this.address, addressIn(all, Asks, "all who are asked"), timeOf(now), timeOf(number));
    }

    answer() {
        raw.ipxr_asked_answer(this.address);
    }

    isDue(all, now) {
        return raw.ipxr_asked_is_due(this.address, addressIn(all, Asks, "all who are asked"), timeOf(now));
    }
}

const NOBODY = new Uint8Array(NODE);

/** The gateway's own node on a network. */
export function chooseNode({ isTunnel, isOfSeveral = false, said, card = NOBODY, hash }) {
    const flags = [isTunnel, isOfSeveral].map((it) => Number(flagOf(it, "what the network is")));
    const [word, address] = [nodeOf(said ?? NOBODY, "what is said"), nodeOf(card, "the card's address")];
    const [at, of, node] = lend(word, address, NODE);
    raw.ipxr_node_choose(...flags, Number(said !== undefined), at, of, hashOf(hash), node);
    return raw.memory().slice(node, node + NODE);
}

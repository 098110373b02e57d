// The fields of a packet, each with the bytes in which it stands. What a packet says, and whether it is one, `ipxr decode` tells; this
// shows which bytes it speaks of.
import { EVERYONE, padded } from "./bytes.mjs";
import { SOCKETS } from "./records.mjs";

const [DESTINATION, SOURCE, DATA] = [6, 18, 30];
const [RIP_ENTRY, SAP_ENTRY, NAME, NETWORK] = [8, 64, 48, 4];
const [MOST_RIP, MOST_SAP, MOST_CROSSED] = [50, 7, 8];
const NETBIOS = 20;
const [UNREACHABLE, ASKED] = [16, 0xffff];
const QUERIES = new Set([1, 3]);
const RIP_WORDS = { 1: "request", 2: "response" };
const SAP_WORDS = { 1: "general query", 2: "general response", 3: "nearest query", 4: "nearest response" };
const TYPES = { 0: "unknown", 1: "RIP", 4: "SAP or data", 5: "SPX", 17: "NCP", 20: "NetBIOS propagation" };
const [IS_TYPE, LLC, SNAP, NO_CHECKSUM] = [0x600, 0xe0, 0xaa, 0xffff];
const [MACS, LLC_LENGTH, SNAP_LENGTH] = [14, 3, 8];

// Cuts fields out of bytes, from the first to the last, as far as there are bytes.
class Cutter {
    constructor(hex, at, end) {
        Object.assign(this, { hex, at, end, fields: [] });
    }

    left() {
        return this.end - this.at;
    }

    digits(at, count) {
        return this.hex.slice(2 * at, 2 * (at + count));
    }

    number(at, count) {
        return parseInt(this.digits(at, count) || "0", 16);
    }

    take(name, count, say = (digits) => digits, depth = 0) {
        if (this.left() <= 0) return "";
        const taken = Math.min(count, this.left());
        const digits = this.digits(this.at, taken);
        const value = taken < count ? `${digits} (cut: ${taken} of ${count} bytes)` : say(digits);
        this.fields.push({ name, from: this.at, to: this.at + taken, value, depth });
        this.at += taken;
        return digits;
    }
}

const decimal = (digits) => String(parseInt(digits, 16));
const worded = (words) => (digits) => `${parseInt(digits, 16)}${words[parseInt(digits, 16)] ? ` ${words[parseInt(digits, 16)]}` : ""}`;
const socket = (digits) => `${digits}${SOCKETS[digits] ? ` ${SOCKETS[digits]}` : ""}`;

function hops(digits) {
    const count = parseInt(digits, 16);
    return count >= UNREACHABLE && count !== ASKED ? `${count} unreachable` : String(count);
}

const network = (digits) => ({ FFFFFFFF: "FFFFFFFF all", FFFFFFFE: "FFFFFFFE default route" }[digits] ?? digits);
const node = (digits) => (digits === EVERYONE ? `${digits} all` : digits);

// The name of a service as `ipxr` writes it.
function serviceName(digits) {
    const bytes = digits.match(/../g).map((it) => parseInt(it, 16));
    const end = bytes.indexOf(0);
    if (end <= 0) return "no name";
    const isPlain = (it) => it > 0x20 && it < 0x7f && it !== 0x5c;
    const shown = (it) => (isPlain(it) ? String.fromCharCode(it) : `\\${padded(it.toString(16), 2)}`);
    return bytes.slice(0, end).map(shown).join("");
}

function takeAddress(cut, name, depth = 0) {
    cut.take(`${name}network`, 4, network, depth);
    cut.take(`${name}node`, 6, node, depth);
    cut.take(`${name}socket`, 2, socket, depth);
}

function takeRip(cut) {
    cut.take("RIP operation", 2, worded(RIP_WORDS));
    for (let k = 0; k < MOST_RIP && cut.left() >= RIP_ENTRY; k++) {
        cut.take("network", 4, network, 1);
        cut.take("hops", 2, hops, 1);
        cut.take("ticks", 2, decimal, 1);
    }
}

function takeSap(cut) {
    const operation = cut.number(cut.at, 2);
    cut.take("SAP operation", 2, worded(SAP_WORDS));
    if (QUERIES.has(operation)) {
        cut.take("service type", 2, (it) => (it === "FFFF" ? "FFFF all" : it), 1);
        return;
    }
    for (let k = 0; k < MOST_SAP && cut.left() >= SAP_ENTRY; k++) {
        cut.take("service type", 2, undefined, 1);
        cut.take("name", NAME, serviceName, 1);
        takeAddress(cut, "", 1);
        cut.take("hops", 2, hops, 1);
    }
}

function takeCrossed(cut, control) {
    for (let k = 0; k < MOST_CROSSED && cut.left() > 0; k++) cut.take(k < control ? `crossed ${k + 1}` : `free ${k + 1}`, NETWORK,
        undefined, 1);
}

// Which of the further layouts the data has, as `ipxr decode` chooses it.
function takeData(cut, { type, to, from, control }) {
    if (type === NETBIOS) takeCrossed(cut, control);
    else if (to === "0453") takeRip(cut);
    else if (to === "0452") takeSap(cut);
    else if (from === "0453") takeRip(cut);
    else if (from === "0452") takeSap(cut);
}

// The fields of a packet that begins at a place among digits.
export function packetFields(hex, at = 0) {
    const size = hex.length / 2;
    const cut = new Cutter(hex, at, size);
    cut.take("checksum", 2, (it) => (it === "FFFF" ? "FFFF none" : it));
    const length = parseInt(cut.take("length", 2, decimal) || "0", 16);
    const end = Math.min(Math.max(at + length, at + DATA), size);
    const control = parseInt(cut.take("transport control", 1, decimal) || "0", 16);
    const type = parseInt(cut.take("packet type", 1, worded(TYPES)) || "0", 16);
    takeAddress(cut, "destination ");
    takeAddress(cut, "source ");
    const sockets = { to: cut.digits(at + DESTINATION + 10, 2), from: cut.digits(at + SOURCE + 10, 2) };
    cut.end = end;
    if (cut.at >= at + DATA) takeData(cut, { type, control, ...sockets });
    cut.take("data", cut.left(), (it) => `${it.length / 2} bytes`);
    cut.end = size;
    cut.take("padding", cut.left(), (it) => `${it.length / 2} bytes`);
    return cut.fields;
}

// The fields of a frame: those of Ethernet, and then those of the packet, if it carries one.
export function frameFields(hex) {
    const cut = new Cutter(hex, 0, hex.length / 2);
    cut.take("to card", 6, node);
    cut.take("from card", 6);
    const type = cut.number(12, 2);
    cut.take(type >= IS_TYPE ? "Ethernet type" : "frame length", 2, type >= IS_TYPE ? undefined : decimal);
    let at = MACS;
    if (type >= IS_TYPE && type !== 0x8137) at = -1;
    else if (type < IS_TYPE && cut.number(MACS, 2) !== NO_CHECKSUM) {
        const point = cut.number(MACS, 1);
        const isKnown = point === LLC || point === SNAP;
        if (isKnown) cut.take("802.2 header", point === LLC ? LLC_LENGTH : SNAP_LENGTH);
        at = isKnown ? cut.at : -1;
    }
    if (at < 0 || cut.left() < 2) {
        cut.take("data", cut.left(), (it) => `${it.length / 2} bytes`);
        return cut.fields;
    }
    return [...cut.fields, ...packetFields(hex, at)];
}

// ---- Faults ----

// For each fault of `ipxr decode`: which bytes of the packet are at fault, and why.
const FAULTS = {
    "packet Short": { from: 0, to: DATA, why: "a header has 30 bytes" },
    "packet LengthSmall": { from: 2, to: 4, why: "the length counts the header too: 30 at least" },
    "packet LengthBeyond": { from: 2, to: 4, why: "the length goes beyond the last byte" },
    "crossed Short": { from: DATA, to: DATA + 32, why: "there is room for eight networks: 32 bytes" },
    "crossed Full": { from: 4, to: 5, why: "eight networks or more were crossed: the list is full" },
    "rip Short": { from: DATA, to: DATA + 2, why: "an operation has two bytes" },
    "rip Operation": { from: DATA, to: DATA + 2, why: "1 is a request, 2 a response, and nothing else is known" },
    "rip NoEntry": { from: DATA + 2, to: DATA + 10, why: "an entry has eight bytes, and there is no whole one" },
    "rip TooMany": { from: DATA + 402, to: DATA + 410, why: "there may be fifty entries: this is one more" },
    "sap Short": { from: DATA, to: DATA + 4, why: "an operation has two bytes, and a query two more for the type" },
    "sap Operation": { from: DATA, to: DATA + 2, why: "1 and 3 are queries, 2 and 4 responses, and nothing else is known" },
    "sap NoEntry": { from: DATA + 2, to: DATA + 66, why: "an entry has 64 bytes, and there is no whole one" },
    "sap TooMany": { from: DATA + 450, to: DATA + 514, why: "there may be seven entries: this is one more" },
};

// The fault that a record's lines tell, with its bytes counted from the beginning of the packet; or nothing.
export function faultOf(lines) {
    for (const line of lines) {
        const found = /^(?:record \d+ \S+|(rip|sap|crossed)) bad (\w+)$/.exec(line);
        if (found) return { word: found[2], ...FAULTS[`${found[1] ?? "packet"} ${found[2]}`] };
    }
    return null;
}

// What a file is that `ipxr decode` refuses, in plain words: by its first bytes, or by what its header says. docs/CAPTURES.md has the
// faults.
import { beginsAsPcap, isText, known, said } from "./file_kinds.mjs";
import { MOST_KEPT } from "./pcap.mjs";

// The kinds of links of captures, by their numbers.
const LINKS = {
    0: "a loopback interface", 6: "Token Ring", 8: "SLIP", 9: "PPP", 10: "FDDI", 50: "PPP", 100: "ATM", 101: "IP without Ethernet",
    105: "Wi-Fi", 108: "a loopback interface", 113: "Linux' interface \"any\"", 127: "Wi-Fi with radio headers",
    276: "Linux' interface \"any\"",
};
const [MAGIC, VERSION, LINK, HEADER] = [4, 4, 20, 24];
const [MAJOR, MINOR] = [2, 4];

// The number in some bytes of a header, in the order in which its first bytes are written.
function number(bytes, at, count) {
    const isLittle = bytes[0] === 0xd4 || bytes[0] === 0x4d;
    const view = new DataView(bytes.buffer, bytes.byteOffset);
    return count === 2 ? view.getUint16(at, isLittle) : view.getUint32(at, isLittle);
}

// What begins so: a kind that is known, text, or its bytes.
function kindOf(bytes) {
    const found = known(bytes);
    if (found) return found;
    if (isText(bytes)) return ["text", "scripts belong to the panes Internet and Router"];
    const digits = Array.from(bytes.subarray(0, MAGIC), (it) => it.toString(16).toUpperCase().padStart(2, "0")).join(" ");
    return [`no capture that is known here; it begins with ${digits}`, ""];
}

function cutHeader(bytes) {
    if (!bytes.length) return "the file is empty";
    return beginsAsPcap(bytes) ? `a capture's header has ${HEADER} bytes, and the file ends after ${bytes.length}` : said(kindOf(bytes));
}

function wrongLink(bytes) {
    const link = number(bytes, LINK, 4);
    const name = LINKS[link] ?? (LINKS[link & 0xffff] ? `${LINKS[link & 0xffff]}, with flags above` : "another kind of network");
    return `this capture is of link type ${link}, ${name}; only Ethernet, link type 1, is read`;
}

const FAULTS = {
    CutHeader: cutHeader,
    Magic: (bytes) => said(kindOf(bytes)),
    Version: (bytes) => `this is pcap ${number(bytes, VERSION, 2)}.${number(bytes, VERSION + 2, 2)}; only ${MAJOR}.${MINOR} is read`,
    Link: wrongLink,
    CutRecord: () => "the file ends inside this record; those before it are shown",
    RecordLong: () => `this record is said to keep more than ${MOST_KEPT} bytes; those before it are shown`,
};

// The reason of a fault as `ipxr decode` tells it ("record 0: Magic"), or nothing where it isn't known.
export function wrongFile(bytes, fault) {
    const [, word] = /^record \d+: (\w+)$/.exec(fault) ?? [];
    return Object.hasOwn(FAULTS, word ?? "") ? FAULTS[word](bytes) : "";
}

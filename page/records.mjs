// What `ipxr decode` says of a record, in the words of the page: who, to whom, and what.
import { EVERYONE, short } from "./bytes.mjs";

const [IS_PACKET, BEHIND_KIND] = [11, 3];
const UNREACHABLE = 16;
const ASKED = 65535;
const SHOWN = 3;
export const SOCKETS = { "0451": "NCP", "0452": "SAP", "0453": "RIP", "0455": "NetBIOS", "0456": "diagnostics",
    "0457": "serialization" };
// The kinds of frames, in words of the trade beside those of `ipxr`.
export const FRAMES = { Raw: "802.3 raw", Llc: "802.2", EthernetII: "Ethernet II", Snap: "SNAP" };
// (what is RIP or SAP, its socket says; else a packet of type 1 or 4 is what some program says)
const TYPES = { 0: "data", 4: "data", 5: "SPX", 17: "NCP", 20: "NetBIOS" };

function entry(line) {
    const words = line.split(" ");
    if (words[0] === "net") {
        const hops = +words[3];
        const far = hops === ASKED ? "" : hops >= UNREACHABLE ? " gone" : ` (${hops})`;
        return ({ FFFFFFFF: "all", FFFFFFFE: "default" }[words[1]] ?? short(words[1])) + far;
    }
    if (words[1] === "bad") return "a bad entry";
    return +words[words.length - 1] >= UNREACHABLE ? `${words[2]} gone` : words[2];
}

function entries(lines) {
    const all = lines.filter((it) => /^(net|service) /.test(it));
    return all.slice(0, SHOWN).map(entry).join(", ") + (all.length > SHOWN ? ` and ${all.length - SHOWN} more` : "");
}

// What a packet says, in few words: its kind, by which it is coloured, and the text.
export function told(head, details) {
    if (!details.length) return { kind: "data", text: `${TYPES[+head[8]] ?? `type ${head[8]}`}, ${head[10]} bytes` };
    const words = details[0].split(" ");
    const name = words[0] === "crossed" ? "NetBIOS" : words[0].toUpperCase();
    if (words[1] === "bad") return { kind: words[0], text: `${name}, bad: ${words[2]}` };
    if (words[0] === "crossed") return { kind: "crossed", text: `${name}, crossed ${words.slice(1).map(short).join(" ") || "nothing"}` };
    const what = words[1].replace("general-", "").replace("-", " ");
    if (words.length > 2) return { kind: "sap", text: `${name} ${what} ${words[2] === "FFFF" ? "all" : `type ${short(words[2])}`}` };
    return { kind: words[0], text: `${name} ${what} ${entries(details.slice(1))}` };
}

export function addressOf(text) {
    const [network, node, socket] = text.split(".");
    return { network, node, socket };
}

export function shown({ network, node, socket }) {
    const where = node === EVERYONE ? "all" : short(node);
    return `${short(network)}.${where}${socket ? ` ${SOCKETS[socket] ?? short(socket)}` : ""}`;
}

// A record by its lines.
export function recordOf(lines) {
    const head = lines[0].split(" ");
    if (head.length !== IS_PACKET) {
        const text = head.slice(BEHIND_KIND).join(" ");
        return { number: +head[1], frame: head[2], isPacket: false, kind: "none", text: text || "no IPX", lines };
    }
    return {
        number: +head[1], frame: head[2], isPacket: true, from: addressOf(head[3]), to: addressOf(head[4]), control: +head[6],
        type: +head[8],
        length: +head[10], ...told(head, lines.slice(1)), lines,
    };
}

// Text of `ipxr decode` as records, and the fault of the file, if there is one.
export function recordsOf(text) {
    const found = [];
    let fault = "";
    for (const line of text.split("\n")) {
        if (/^record \d+: /.test(line)) fault = line;
        else if (line.startsWith("record ")) found.push([line]);
        else if (line && found.length) found[found.length - 1].push(line);
    }
    return { records: found.map(recordOf), fault };
}

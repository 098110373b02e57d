// What the text of a script says: its lines, its routers with their ports, hosts, and the commands that act. This only reads the words;
// whether a line is right, and what it does, says the program.
import { EVERYONE, short } from "./bytes.mjs";

const [DESTINATION, SOURCE, PACKET] = [12, 36, 60];
// A name of a router: a word of letters and digits of any language, in which a few hyphens, apostrophes or full stops may stand, or
// whatever stands between quotation marks.
const LETTERS = "[\\p{L}\\p{M}\\p{N}_]+";
const NAMED = new RegExp(`(?:"([^"\\n]+)"|(?<![\\p{L}\\p{M}\\p{N}_])(${LETTERS}(?:[-'’.]${LETTERS}){0,3})) \\(router (\\d+)\\)`, "gu");
// A longer one would make a box of the map too wide.
const LONGEST_NAME = 24;
const HOST = /^#\s*host ([0-9A-Fa-f]{1,8})\.([0-9A-Fa-f]{1,12})\b( \(forged\))?/;

const wordsOf = (line) => (line.startsWith("#") ? [] : line.trim().split(/[ \t]+/).filter((it) => it));

// Which router, port and bytes a command of an internet is about; of one router, its number is 0.
export function aim(words, isInternet) {
    const skipped = isInternet ? 2 : 1;
    if (words[0] === "in") return { router: isInternet ? +words[1] : 0, port: +words[skipped], hex: words[skipped + 1] ?? "" };
    if (words[0] === "trace") return { router: +words[1], port: +words[2], hex: words[4] ?? "" };
    const router = isInternet ? +words[1] : 0;
    return { router, port: words.length > skipped ? +words[skipped] : -1, hex: "" };
}

function routersOf(lines, isInternet) {
    const routers = isInternet ? [] : [{ ports: [], line: 0, last: 0 }];
    lines.forEach((it, k) => {
        const [command, network, node, cost] = it.words;
        if (isInternet && command === "router") routers.push({ ports: [], line: k, last: k });
        if (command !== "port" || !node || !routers.length) return;
        const router = routers[routers.length - 1];
        router.ports.push({ network: short(network), node: short(node), cost: +cost || 1, line: k });
        router.last = k;
    });
    return routers;
}

function cut(name) {
    const letters = [...name];
    return letters.length > LONGEST_NAME ? `${letters.slice(0, LONGEST_NAME - 1).join("")}…` : name;
}

// Names routers by comments such as `Zürich (router 0)` or `"New York" (router 1)`.
function nameAll(routers, lines, isInternet) {
    const comments = lines.filter((it) => it.text.startsWith("#")).map((it) => it.text).join("\n");
    const named = new Map([...comments.matchAll(NAMED)].map(([, quoted, word, number]) => [+number, cut((quoted ?? word).trim())]));
    routers.forEach((it, k) => (it.name = named.get(k) || (isInternet ? `R${k}` : "router")));
}

// Whose address stands in the digits of a packet.
const addressAt = (hex, at) => ({ network: short(hex.slice(at, at + 8)), node: short(hex.slice(at + 8, at + 20)) });

// The hosts: those of comments `# host NETWORK.NODE`, and who packets come from or are for, on networks of the routers. Behind such a
// comment `(forged)` may stand.
function hostsOf(lines, routers, isInternet) {
    const ports = new Set(routers.flatMap((it) => it.ports.map((port) => `${port.network}.${port.node}`)));
    const networks = new Set(routers.flatMap((it) => it.ports.map((port) => port.network)));
    const found = new Map();
    const add = ({ network, node }, isForged = false) => {
        const key = `${network}.${node}`;
        if (!networks.has(network) || ports.has(key) || node === EVERYONE || node === "0") return;
        found.set(key, { network, node, isForged: isForged || Boolean(found.get(key)?.isForged) });
    };
    for (const { text, words } of lines) {
        const said = HOST.exec(text);
        if (said) add({ network: short(said[1]), node: short(said[2]) }, Boolean(said[3]));
        const { router, port, hex } = aim(words, isInternet);
        if (hex.length < PACKET || !["in", "trace"].includes(words[0])) continue;
        const source = addressAt(hex, SOURCE);
        add(source.network === "0" ? { ...source, network: routers[router]?.ports[port]?.network } : source);
        add(addressAt(hex, DESTINATION));
    }
    return [...found.values()];
}

export function parsed(text, isInternet = true) {
    const lines = text.split("\n").map((it) => ({ text: it.replace(/\r$/, ""), words: wordsOf(it.replace(/\r$/, "")) }));
    const routers = routersOf(lines, isInternet);
    nameAll(routers, lines, isInternet);
    const acts = lines.flatMap((it, line) => (it.words.length
        && !["router", "port"].includes(it.words[0]) ? [{ line, words: it.words }] : []));
    return {
        text, lines, routers, acts, isInternet, hosts: hostsOf(lines, routers, isInternet),
        networks: [...new Set(routers.flatMap((it) => it.ports.map((port) => port.network)))],
    };
}

// Whether a text is a script of an internet.
export const isOfInternet = (text) => /^[ \t]*router\b/m.test(text);

// The words of a packet to its bytes, and back. The library's proved writers write the bytes, and the program's proved reader,
// `ipxr decode`, says what bytes mean. Here the words are read, and what no writer writes is put over the bytes: a wrong length, a
// checksum, padding.
import { existsSync } from "node:fs";
import { fileURLToPath } from "node:url";
import { bytesOf, EVERYONE, hexOf, isHex, padded, short } from "../page/bytes.mjs";
import { IpxrError, Rip, Router, words as faultWords, writePacket, writeQuery, writeRip, writeSap } from "../examples/embed/web/ipxr.mjs";
import { captureOf } from "../page/pcap.mjs";
import { recordsOf } from "../page/records.mjs";
import { dataOf, dataWords } from "./packet_data.mjs";
import { Fault } from "./files.mjs";
import { run } from "./program.mjs";

const TOP = fileURLToPath(new URL("..", import.meta.url));
// Where the library is built, and where archives of a release have it.
const LIBRARIES = ["build/web/libipxr.wasm", "build/wasm/ipx_c.wasm", "examples/embed/web/libipxr.wasm"];
const HEADER = 30;
const [RIP, SAP, NETBIOS, OTHER] = ["0453", "0452", "0455", "4003"];
const TYPE_OF_SOCKET = { [RIP]: 1, [SAP]: 4 };
const PROPAGATED = 20;
const [CROSSED, NETWORK] = [8, 4];
const NO_DISTANCE = 65535;
const [ALL_ROUTES, ALL_SERVICES] = ["FFFFFFFF", "FFFF"];
const UNUSED = "FFFF";
// Where fields of the header begin, in digits, and how many they have.
const [CHECKSUM, LENGTH, CONTROL, TYPE] = [[0, 4], [4, 4], [8, 2], [10, 2]];
const NO_BYTES = "-";

// Loads the library, before anything else is asked.
export async function load() {
    const found = LIBRARIES.map((it) => `${TOP}${it}`).find((it) => existsSync(it));
    const isArchive = !existsSync(`${TOP}Makefile`);
    const how = isArchive ? "this archive was packed without it" : "'make web' proves and builds it in some minutes, with a C compiler";
    if (!found) throw new Fault(`the library as WebAssembly (libipxr.wasm) is missing: ${how}`);
    await Router.load(found);
}

// ---- A word ----

function hexadecimal(name, word, bytes) {
    const isIt = /^[0-9A-Fa-f]+$/.test(word) && word.length <= 2 * bytes;
    if (!isIt) throw new Fault(`${name}: expected at most ${2 * bytes} hexadecimal digits`);
    return padded(word, 2 * bytes);
}

function decimal(name, word, bytes) {
    const most = 256 ** bytes - 1;
    if (!/^\d+$/.test(word) || +word > most) throw new Fault(`${name}: expected a number, 0 to ${most}`);
    return +word;
}

// An address: NETWORK.NODE or NETWORK.NODE.SOCKET, in which the node may be `all`.
function address(name, word, socket) {
    const [network, node, own, ...more] = word.split(".");
    if (node === undefined || more.length || !(own ?? socket)) {
        throw new Fault(`${name}: expected ${socket ? "NETWORK.NODE, such as 10.AA" : "NETWORK.NODE.SOCKET, such as 10.AA.451"}`);
    }
    const whose = node === "all" ? EVERYONE : hexadecimal(name, node, 6);
    return { network: hexadecimal(name, network, 4), node: whose, socket: hexadecimal(name, own ?? socket, 2) };
}

// The name of a service, as `ipxr` writes it: a backslash and two digits are any byte.
function serviceName(name, word) {
    const found = word.replace(/\\([0-9A-Fa-f]{2})/g, (_, it) => String.fromCharCode(parseInt(it, 16)));
    if (/[^\x01-\xff]/.test(found)) throw new Fault(`${name}: expected bytes from 1 to 255`);
    return found;
}

const networks = (name, word) => (word ? word.split(",") : []).map((it) => hexadecimal(name, it, NETWORK));
const numberOf = (digits) => parseInt(digits, 16);
const place = ({ network, node, socket }) => ({ network: numberOf(network), node: Array.from(bytesOf(node)), socket: numberOf(socket) });

// ---- Kinds ----

// How each word of an entry is read, and what stands for one that may be missing.
const ROUTE = {
    network: { read: (name, word) => numberOf(hexadecimal(name, word, NETWORK)) }, hops: { read: (name, word) => decimal(name, word, 2) },
    ticks: { read: (name, word) => decimal(name, word, 2) },
};
const ASKED = {
    network: ROUTE.network, hops: { ...ROUTE.hops, missing: NO_DISTANCE }, ticks: { ...ROUTE.ticks, missing: NO_DISTANCE },
};
const SERVICE = {
    type: { read: (name, word) => numberOf(hexadecimal(name, word, 2)) }, name: { read: serviceName },
    at: { read: (name, word) => place(address(name, word)) }, hops: ROUTE.hops,
};
const DATA = { data: { read: dataOf, missing: "" } };

// A kind: the socket that stands for one that isn't said, the words of each of its entries, or its own, and how it is written.
const rip = (operation, entry, missing) => ({
    socket: RIP, entry, missing, write: (ends, entries) => writeRip(...ends, operation, entries),
});
const query = (isNearest) => ({
    socket: SAP, own: { type: { ...SERVICE.type, missing: numberOf(ALL_SERVICES) } },
    write: (ends, it) => writeQuery(...ends, isNearest, it.type),
});
const response = (isNearest) => ({
    socket: SAP, entry: SERVICE, write: (ends, entries) => writeSap(...ends, isNearest, entries.map(({ at, ...it }) => ({ ...it, ...at }))),
});

const KINDS = {
    "rip request": rip(Rip.REQUEST, ASKED, [`network=${ALL_ROUTES}`]),
    "rip response": rip(Rip.RESPONSE, ROUTE),
    "sap general-query": query(false),
    "sap nearest-query": query(true),
    "sap general-response": response(false),
    "sap nearest-response": response(true),
    netbios: {
        socket: NETBIOS, own: { crossed: { read: networks, missing: [] }, ...DATA },
        write(ends, { crossed, data }) {
            if (crossed.length > CROSSED) throw new Fault(`crossed: expected at most ${CROSSED} networks`);
            return writePacket(...ends, PROPAGATED, crossed.length, bytesOf(crossed.join("").padEnd(2 * CROSSED * NETWORK, "0") + data));
        },
    },
    data: {
        socket: OTHER, followsSource: true, own: { type: { read: (name, word) => decimal(name, word, 1) }, ...DATA },
        write: (ends, { type, data }, to) => writePacket(...ends, type ?? TYPE_OF_SOCKET[to.socket] ?? 0, 0, bytesOf(data)),
    },
};
export const KIND_NAMES = [...Object.keys(KINDS), "bytes"];

// What may stand behind any kind, and is put over what was written: each reads its word, and changes the digits.
const over = (digits, [at, count], value) => digits.slice(0, at) + value + digits.slice(at + count);
const hex16 = (it) => padded(it.toString(16), 4);
const OVER = {
    control: { read: (name, word) => decimal(name, word, 1), put: (digits, it) => over(digits, CONTROL, padded(it.toString(16), 2)) },
    checksum: { read: (name, word) => hexadecimal(name, word, 2), put: (digits, it) => over(digits, CHECKSUM, it) },
    length: { read: (name, word) => decimal(name, word, 2), put: (digits, it) => over(digits, LENGTH, hex16(it)) },
    padding: { read: dataOf, put: (digits, it) => digits + it },
};

// ---- Words to digits ----

// The names and values of words like NAME=VALUE.
function pairsOf(words) {
    return words.map((word) => {
        const at = word.indexOf("=");
        if (at < 1) throw new Fault(`'${word}': expected NAME=VALUE`);
        return [word.slice(0, at), word.slice(at + 1)];
    });
}

// The values of words, each by how it is read.
function valuesOf(forms, pairs) {
    const found = Object.fromEntries(Object.entries(forms).map(([name, { missing }]) => [name, missing]));
    for (const [name, word] of pairs) found[name] = forms[name].read(name, word);
    return found;
}

// The entries of pairs: each begins with the first of their words, and has all that can't be missing.
function entriesOf(forms, pairs) {
    const [first] = Object.keys(forms);
    const groups = [];
    for (const pair of pairs) {
        if (pair[0] === first) groups.push([]);
        if (!groups.length) throw new Fault(`${pair[0]}: expected ${first} before it`);
        groups[groups.length - 1].push(pair);
    }
    return groups.map((it) => entryOf(forms, it));
}

function entryOf(forms, pairs) {
    const twice = pairs.find(([name], k) => pairs.some((it, other) => other < k && it[0] === name));
    if (twice) throw new Fault(`${twice[0]}: expected once behind each ${pairs[0][0]}`);
    const found = valuesOf(forms, pairs);
    const missing = Object.keys(forms).find((name) => found[name] === undefined);
    if (missing) throw new Fault(`${missing}: expected behind ${pairs[0].join("=")}`);
    return found;
}

function kindOf(words) {
    const name = [2, 1].map((count) => words.slice(0, count).join(" ")).find((it) => Object.hasOwn(KINDS, it));
    if (!name) throw new Fault(`'${words.slice(0, 2).join(" ")}': expected ${KIND_NAMES.join(", ")}`);
    return { name, kind: KINDS[name], rest: words.slice(name.split(" ").length) };
}

// From whom, to whom, and all else of the words behind a kind.
function endsOf(kind, [source, ...words]) {
    if (source === undefined || source.includes("=")) throw new Fault("expected behind the kind from whom the packet is, such as 10.AA");
    const from = address("from", source, kind.socket);
    const pairs = pairsOf(words);
    const socket = kind.followsSource ? from.socket : kind.socket;
    const last = pairs.filter(([name]) => name === "to").pop();
    const to = last ? address("to", last[1], socket) : { network: from.network, node: EVERYONE, socket };
    return { from, to, pairs: pairs.filter(([name]) => name !== "to") };
}

function knownOnly(pairs, forms) {
    const other = pairs.find(([name]) => !Object.hasOwn(forms, name) && !Object.hasOwn(OVER, name));
    if (other) throw new Fault(`${other[0]}: expected one of ${["to", ...Object.keys(forms), ...Object.keys(OVER)].join(", ")}`);
}

// The digits of the packet that words tell.
export function digitsOf(words) {
    if (words[0] === "bytes") return bytesWritten(words.slice(1));
    const { kind, rest } = kindOf(words);
    const { from, to, pairs } = endsOf(kind, rest);
    const forms = kind.entry ?? kind.own;
    knownOnly(pairs, forms);
    const own = pairs.filter(([name]) => Object.hasOwn(forms, name));
    const values = kind.entry ? entriesOf(forms, own.length ? own : pairsOf(kind.missing ?? [])) : valuesOf(forms, own);
    const digits = written(kind, [place(from), place(to)], values, to);
    const above = pairs.filter(([name]) => Object.hasOwn(OVER, name));
    return above.reduce((sofar, [name, word]) => OVER[name].put(sofar, OVER[name].read(name, word)), digits);
}

function written(kind, ends, values, to) {
    try {
        return hexOf(kind.write(ends, values, to));
    } catch (why) {
        if (!(why instanceof IpxrError)) throw why;
        throw new Fault(faultWords(why.number));
    }
}

function bytesWritten(words) {
    if (words.length !== 1) throw new Fault("expected behind 'bytes' one word: digits, or - for none");
    return words[0] === NO_BYTES ? "" : dataOf("bytes", words[0]);
}

// ---- Digits to words ----

const fieldOf = (digits, [at, count]) => digits.slice(at, at + count);
const addressWords = ({ network, node, socket }, expected) =>
    `${short(network)}.${node === EVERYONE ? "all" : short(node)}${socket === expected ? "" : `.${short(socket)}`}`;

// The packet of digits: those that its length counts, what lies behind, and the length where that is wrong.
function bodyOf(digits) {
    const [length, size] = [numberOf(fieldOf(digits, LENGTH)), digits.length / 2];
    const isRight = length >= HEADER && length <= size;
    const end = isRight ? 2 * length : digits.length;
    return { body: digits.slice(0, end), padding: digits.slice(end), wrong: isRight ? null : length };
}

// What `ipxr decode` reads of packets, whose length counts all of their bytes.
function recordsRead(bodies) {
    const mended = bodies.map((it) => ({ hex: over(it, LENGTH, hex16(Math.min(it.length / 2, NO_DISTANCE))) }));
    return recordsOf(run("decode", captureOf(mended)).text).records;
}

const entryWords = (names, values) => names.map((name, k) => `${name}=${values[k]}`);
const routeWords = ([, network, , hops, , ticks]) => entryWords(["network", "hops", "ticks"], [short(network), hops, ticks]);
const serviceWords = ([, type, name, network, node, socket, hops]) =>
    entryWords(["type", "name", "at", "hops"], [short(type), name, addressWords({ network, node, socket }), hops]);

// The words of an asked network: all of them are what isn't said.
function askedWords(detail, isOnly) {
    const [network, hops, ticks] = routeWords(detail);
    const isFar = detail[3] === String(NO_DISTANCE) && detail[5] === String(NO_DISTANCE);
    if (!isFar) return [network, hops, ticks];
    return isOnly && detail[1] === ALL_ROUTES ? [] : [network];
}

// The lines below a record's first, as words. A list of networks crossed that is full can be written, too.
function detailsOf(record, body) {
    const details = record.lines.slice(1).map((it) => it.split(" "));
    const isFull = details[0]?.join(" ") === "crossed bad Full" && record.control === CROSSED;
    return isFull ? [["crossed", ...body.slice(2 * HEADER, 2 * (HEADER + CROSSED * NETWORK)).match(/.{8}/g)]] : details;
}

// The kind of a record, and the words behind its ends; nothing where it says no more than data.
function specific(record, body) {
    const details = detailsOf(record, body);
    const [head = [], ...entries] = details;
    const kind = head[0] === "crossed" ? "netbios" : `${head[0]} ${head[1]}`;
    if (!Object.hasOwn(KINDS, kind) || head[1] === "bad" || entries.some((it) => it[1] === "bad")) return null;
    const behind = body.slice(2 * (HEADER + CROSSED * NETWORK));
    if (kind === "netbios") return { kind, own: [...listWords("crossed", head.slice(1)), ...dataWords(behind)] };
    if (kind.endsWith("query")) return { kind, own: head[2] === ALL_SERVICES ? [] : [`type=${short(head[2])}`] };
    if (kind === "rip request") return { kind, own: entries.flatMap((it) => askedWords(it, entries.length === 1)) };
    return { kind, own: entries.flatMap(kind.startsWith("rip") ? routeWords : serviceWords) };
}

const listWords = (name, list) => (list.length ? [`${name}=${list.map(short).join(",")}`] : []);

// A packet as data of its type.
function general(record, body) {
    const type = numberOf(fieldOf(body, TYPE));
    const own = type === (TYPE_OF_SOCKET[record.to.socket] ?? 0) ? [] : [`type=${type}`];
    const isTold = record.lines.length > 1 && record.lines[1].split(" ")[0] !== "crossed";
    return { kind: "data", own: [...own, ...dataWords(body.slice(2 * HEADER), isTold ? 2 : 0)] };
}

// The words of a kind and of what stands over it.
function wordsOf({ kind, own }, record, { body, padding, wrong }) {
    const { socket, followsSource } = KINDS[kind];
    const { from, to } = record;
    const theirs = followsSource ? from.socket : socket;
    const isToAll = to.network === from.network && to.node === EVERYONE && to.socket === theirs;
    const [control, checksum] = [numberOf(fieldOf(body, CONTROL)), fieldOf(body, CHECKSUM)];
    return [
        ...kind.split(" "), addressWords(from, socket), ...(isToAll ? [] : [`to=${addressWords(to, theirs)}`]), ...own,
        ...(control && kind !== "netbios" ? [`control=${control}`] : []), ...(checksum === UNUSED ? [] : [`checksum=${checksum}`]),
        ...(wrong === null ? [] : [`length=${wrong}`]), ...dataWords(padding, 0, "padding"),
    ];
}

function tells(words, digits) {
    try {
        return digitsOf(words) === digits;
    } catch (why) {
        if (why instanceof Fault) return false;
        throw why;
    }
}

// The words of each of many packets. Words are right only if they give the same digits again; some bytes have no words but their own.
export function wordsOfAll(packets) {
    const all = packets.map((it) => it.toUpperCase());
    const whole = all.filter((it) => it.length >= 2 * HEADER);
    const records = recordsRead(whole.map((it) => bodyOf(it).body));
    const read = new Map(whole.map((it, k) => [it, records[k]]));
    return all.map((digits) => wordsFor(digits, read.get(digits)));
}

function wordsFor(digits, record) {
    const parts = bodyOf(digits);
    const found = record?.isPacket ? [specific(record, parts.body), general(record, parts.body)].filter((it) => it) : [];
    const told = found.map((it) => wordsOf(it, record, parts)).find((it) => tells(it, digits));
    return told ?? ["bytes", digits ? dataWords(digits)[0].slice("data=".length) : NO_BYTES];
}

export function checkedDigits(word) {
    if (word !== NO_BYTES && (!word || !isHex(word))) throw new Fault(`'${word}': expected an even number of hexadecimal digits, or -`);
    return word === NO_BYTES ? "" : word.toUpperCase();
}

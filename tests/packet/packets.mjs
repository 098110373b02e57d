// Words of packets to digits and back, for tools/packet: packets of each kind, all of examples/ and of the transcripts, packets that are
// changed at random, and words that are wrong. What is written is compared with the packets of tests/web, which that makes by itself, byte
// by byte.
import { readdirSync, readFileSync } from "node:fs";
import { fileURLToPath } from "node:url";
import { packetsOf, scriptOf } from "../../tools/packet_scripts.mjs";
import { digitsOf, KIND_NAMES, load, wordsOfAll } from "../../tools/packet_words.mjs";
import { dataOf, dataWords } from "../../tools/packet_data.mjs";
import { hex, routeRequest, routes, serviceQuery, services } from "../web/packets.mjs";

const TOP = fileURLToPath(new URL("../..", import.meta.url));
const HEADER = 30;
const RANDOM = 400;

function tell(name, why = "") {
    process.stdout.write(why ? `FAILED  packet: ${name}: ${why}\n` : `ok      packet: ${name}\n`);
    if (why) process.exitCode = 1;
}

const digitsFor = (line) => digitsOf(line.split(" "));
const fault = (line) => {
    try {
        return digitsFor(line) && "";
    } catch (why) {
        return why.message;
    }
};

// ---- Each kind ----

// Words that come back as they stand.
const WORDS = [
    "rip request 10.AA", "rip request 10.AA.4003", "rip request 10.AA to=20.1", "rip request 10.AA network=20",
    "rip request 10.AA network=20 network=FFFFFFFE",
    "rip request 10.AA network=20 hops=1 ticks=2", "rip request 10.AA network=FFFFFFFF network=20", "rip request 10.AA control=3",
    "rip response 20.BB network=30 hops=1 ticks=2", "rip response 20.BB to=20.1.4003 network=FFFFFFFE hops=16 ticks=65535",
    `rip response 20.BB${" network=30 hops=15 ticks=1".repeat(50)}`, "rip response 0.BB network=30 hops=0 ticks=0 checksum=1234",
    "sap general-query 10.AA.4003 type=4", "sap general-query 10.AA", "sap nearest-query 10.AA.4003 type=278", "sap nearest-query 10.AA",
    "sap general-response A.AA type=4 name=FILES at=A.AA.451 hops=1",
    `sap general-response A.AA${" type=4 name=F at=A.1.451 hops=1".repeat(7)}`,
    "sap nearest-response A.AA to=A.CC.4003 type=7 name=\\01\\5C\\20\\FF at=FFFFFFFF.all.FFFF hops=16",
    `sap nearest-response A.AA type=FFFF name=${"N".repeat(47)} at=0.0.0 hops=65535`,
    "netbios 10.AA", "netbios 10.AA crossed=20,10", "netbios 10.AA.551 to=10.all.553 crossed=1,2,3,4,5,6,7 data=00FF",
    "netbios 10.AA crossed=0,0,0,0,0,0,0,0",
    "data 10.AA", "data 10.AA to=30.CC", "data 10.AA to=30.CC.451 type=17 data=2222",
    "data 10.AA to=30.CC type=255 data=00x547 control=255",
    "data 10.AA.453", "data 10.AA.453 data=0002,0000003000010002x51", "data 10.AA.452 data=0002,[000441,00x50,3000000000000104510001]x8",
    "data 10.AA.453 type=0", "data 0.0.0 to=0.0 type=1 length=29", "data 10.AA length=31", "data 10.AA to=30.CC padding=00x12",
    "bytes -", "bytes 00", "bytes 00x29",
];

function tryKinds() {
    const digits = WORDS.map(digitsFor);
    const back = wordsOfAll(digits).map((it) => it.join(" "));
    const unlike = WORDS.filter((it, k) => it !== back[k]).map((it) => `${it} comes back as ${back[WORDS.indexOf(it)]}`);
    tell(`${WORDS.length} packets in words, to digits and back`, unlike.join("; "));
}

// Words beside the same packet, written by the tests of the library.
const WRITTEN = [
    ["rip request 10.0000000000AA", routeRequest(0x10, "0000000000AA")],
    ["rip response 10.AA network=20 hops=1 ticks=2 network=30 hops=16 ticks=65535",
        routes(0x10, "0000000000AA", [[0x20, 1, 2], [0x30, 16, 65535]])],
    ["sap general-query 00000010.AA.0452 type=FFFF", serviceQuery(0x10, "0000000000AA")],
    ["sap general-response 10.AA type=4 name=FILES at=20.BB.451 hops=2",
        services(0x10, "0000000000AA", [[4, "FILES", "000000200000000000BB0451", 2]])],
];

function tryWritten() {
    const unlike = WRITTEN.filter(([words, bytes]) => digitsFor(words) !== hex(bytes)).map(([words]) => words);
    tell(`${WRITTEN.length} packets, byte by byte as the library's tests write them`, unlike.join("; "));
}

// ---- All packets that there are ----

// Where the scenarios of conformance lie, by their sections.
const SCENARIOS = ["answers", "forwarding", "type-20", "learning", "slow"].map((it) => `tests/conformance/${it}`);

// The digits of packets in a text: of lines that are typed in, and of what is answered.
const DIGITS = /^(?:> )?(?:in|trace|out|copy) .*?((?:[0-9A-Fa-f]{2}){2,})$/gm;

function found() {
    const folders = ["examples", "tests/replay", "tests/internet", ...SCENARIOS];
    const files = folders.flatMap((folder) => readdirSync(`${TOP}${folder}`).map((it) => `${TOP}${folder}/${it}`));
    const texts = files.filter((it) => /\.(script|internet|out|transcript)$/.test(it)).map((it) => readFileSync(it, "latin1"));
    return [...new Set(texts.flatMap((it) => [...it.matchAll(DIGITS)].map(([, digits]) => digits.toUpperCase())))];
}

// Packets whose words give other digits, or none where they have a header.
function unlike(packets) {
    const words = wordsOfAll(packets);
    return packets.filter((it, k) => digitsOf(words[k]) !== it || (words[k][0] === "bytes") !== (it.length < 2 * HEADER));
}

function tryAll() {
    const packets = found();
    const wrong = unlike(packets);
    tell(`${packets.length} packets of examples and transcripts, to words and back`, packets.length < 300 ? "these are too few" : wrong[0]);
}

// Numbers as if by dice, the same in each run.
function* dice(seed) {
    for (let it = seed; ;) {
        it = (Math.imul(it, 1103515245) + 12345) >>> 0;
        yield it >>> 16;
    }
}

// A packet with one byte changed, cut, or longer.
function changed(digits, numbers) {
    const next = () => numbers.next().value;
    const at = 2 * (next() % (digits.length / 2));
    const byte = (next() % 256).toString(16).toUpperCase().padStart(2, "0");
    const act = next() % 3;
    if (act === 0) return digits.slice(0, at);
    return act === 1 ? digits + byte.repeat(1 + (at % 40)) : digits.slice(0, at) + byte + digits.slice(at + 2);
}

function tryRandom() {
    const numbers = dice(1);
    const packets = WORDS.map(digitsFor).filter((it) => it);
    const all = Array.from({ length: RANDOM }, (_, k) => changed(packets[k % packets.length], numbers));
    tell(`${RANDOM} changed packets, to words and back`, unlike(all)[0]);
}

// Words for more bytes than a packet has, or than memory has; and brackets that never end.
const LIST = Array(9000).fill("00x65535").join();
const MUCH = ["00x65536", "[00x65535]x2", "[00x65535]x65535", "[[[00x255]x255]x255]x255", "00x65535,00", LIST, `[${LIST}]x1`,
    "00".repeat(65536), `${"[00,".repeat(99)}00x65535${"]x9".repeat(99)}`];
const [DEEPEST, DEEP] = ["[".repeat(100), "[".repeat(101)];
const SOON = 2000;

function refusalOf(word) {
    try {
        return `${dataOf("data", word).length / 2} bytes`;
    } catch (why) {
        return why.message;
    }
}

// They are refused in words, and before what they tell is made.
function tryMuch() {
    const begun = performance.now();
    const taken = MUCH.filter((it) => refusalOf(it) !== "data: expected at most 65535 bytes");
    const wrong = taken.map((it) => `${it.slice(0, 30)}: ${refusalOf(it)}`);
    tell(`${MUCH.length} words for too many bytes are refused`, wrong.join("; "));
    const deep = [DEEP, "[".repeat(100000)].filter((it) => refusalOf(it) !== "data: expected at most 100 brackets in one another");
    const right = [`${DEEPEST}00${"]".repeat(100)}`, Array(101).fill("[00]").join()].map(refusalOf);
    const refused = right.join() === "1 bytes,101 bytes" ? "" : right.join("; ");
    tell("brackets in one another are refused where they are too many", deep.map(refusalOf).join("; ") || refused);
    const took = performance.now() - begun;
    tell("they are refused at once", took < SOON ? "" : `in ${Math.round(took)} ms`);
}

function tryData() {
    const given = ["", "00", "0002", "00".repeat(65535), "0102".repeat(9), "000000FF".repeat(4) + "01", "AB".repeat(7) + "CD".repeat(7)];
    const wrong = given.filter((it) => dataOf("data", (dataWords(it)[0] ?? "data=").slice("data=".length)) !== it);
    tell("bytes in short words, and back", wrong.map((it) => it.slice(0, 20)).join("; "));
}

// ---- Examples ----

// Each packet of a script has its words, and they are the ones that tools/packet shows.
function lacking(file) {
    const packets = packetsOf(...scriptOf(file)).filter((it) => it.digits);
    const shown = wordsOfAll(packets.map((it) => it.digits)).map((it) => it.join(" "));
    const wrong = packets.filter((it, k) => !it.words || it.words.join(" ") !== shown[k] || digitsOf(it.words) !== it.digits);
    return { count: packets.length, wrong: wrong.map((it) => `${file}:${it.number}`) };
}

function tryExamples() {
    const files = ["examples", ...SCENARIOS].flatMap((folder) => readdirSync(`${TOP}${folder}`).map((it) => `${folder}/${it}`));
    const all = files.filter((it) => /\.(script|internet)$/.test(it)).map((it) => lacking(`${TOP}${it}`));
    const count = all.reduce((sum, it) => sum + it.count, 0);
    const why = all.flatMap((it) => it.wrong).join("; ") || (count < 50 ? "these are too few" : "");
    tell(`${count} packets of ${all.length} examples and scenarios are what their words say`, why);
}

// ---- Wrong words ----

const WRONG = {
    "rip": `'rip': expected ${KIND_NAMES.join(", ")}`,
    "rip request": "expected behind the kind from whom the packet is, such as 10.AA",
    "rip request network=20": "expected behind the kind from whom the packet is, such as 10.AA",
    "rip request 10": "from: expected NETWORK.NODE, such as 10.AA",
    "rip request 10.AA.453.1": "from: expected NETWORK.NODE, such as 10.AA",
    "rip request 10.everyone": "from: expected at most 12 hexadecimal digits",
    "rip request 123456789.AA": "from: expected at most 8 hexadecimal digits",
    "rip request 10.AA to": "'to': expected NAME=VALUE",
    "rip request 10.AA type=1": "type: expected one of to, network, hops, ticks, control, checksum, length, padding",
    "rip response 10.AA": "no entries",
    "rip response 10.AA hops=1": "hops: expected network before it",
    "rip response 10.AA network=20 hops=1": "ticks: expected behind network=20",
    "rip response 10.AA network=20 hops=1 ticks=2 hops=3": "hops: expected once behind each network",
    "rip response 10.AA network=20 hops=65536 ticks=2": "hops: expected a number, 0 to 65535",
    "sap general-response 10.AA type=4 name=F at=20.BB hops=1": "at: expected NETWORK.NODE.SOCKET, such as 10.AA.451",
    "sap general-response 10.AA type=4 name=F\\00 at=20.BB.451 hops=1": "name: expected bytes from 1 to 255",
    "netbios 10.AA crossed=1,2,3,4,5,6,7,8,9": "crossed: expected at most 8 networks",
    "data 10.AA data=0": "data: expected hexadecimal digits by twos, such as 0002 or 00x47, at '0'",
    "data 10.AA data=[00": "data: expected hexadecimal digits by twos, such as 0002 or 00x47, at ''",
    "data 10.AA data=00x99999": "data: expected at most 65535 bytes",
    "data 10.AA control=256": "control: expected a number, 0 to 255",
    "bytes": "expected behind 'bytes' one word: digits, or - for none",
};

function tryWrong() {
    const unlikely = Object.entries(WRONG).filter(([words, why]) => fault(words) !== why).map(([words]) => `${words}: ${fault(words)}`);
    const long = [`rip response 10.AA${" network=20 hops=1 ticks=1".repeat(51)}`,
        `sap general-response 10.AA${" type=4 name=F at=20.BB.451 hops=1".repeat(8)}`,
        `sap general-response 10.AA type=4 name=${"N".repeat(48)} at=20.BB.451 hops=1`,
        "sap nearest-response 10.AA type=4 name= at=20.BB.451 hops=1",
        "data 10.AA data=00x65506"];
    const taken = long.filter((it) => !fault(it));
    tell(`${Object.keys(WRONG).length + long.length} wrong words are refused`, [...unlikely, ...taken].join("; "));
}

await load();
tryKinds();
tryWritten();
tryAll();
tryRandom();
tryData();
tryMuch();
tryExamples();
tryWrong();

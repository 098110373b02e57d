// What the page makes of captures: times of pcapng, queries that nobody answers, conversations, filters, and files that are none.
import assert from "node:assert/strict";
import { check } from "./checking.mjs";
import { joined } from "../../page/bytes.mjs";
import { conversations, MOST } from "../../page/conversations.mjs";
import { Filter } from "../../page/filter.mjs";
import { header, Places } from "../../page/pcap.mjs";
import { classic, isPcapng } from "../../page/pcapng.mjs";
import { recordOf } from "../../page/records.mjs";
import { Unanswered } from "../../page/unanswered.mjs";
import { wrongFile } from "../../page/wrong_file.mjs";

// ---- pcapng ----

const [SECTION, INTERFACE, ENHANCED] = [0x0a0d0d0a, 1, 6];
const [RESOLUTION, OFFSET] = [9, 14];

function numbers(...them) {
    const view = new DataView(new ArrayBuffer(4 * them.length));
    them.forEach((it, k) => view.setUint32(4 * k, it, true));
    return new Uint8Array(view.buffer);
}

const padded = (bytes) => joined([bytes, new Uint8Array(-bytes.length & 3)]);
const block = (kind, body) => joined([numbers(kind, 12 + body.length), body, numbers(12 + body.length)]);
const option = (code, bytes) => joined([numbers(code | (bytes.length << 16)), padded(bytes)]);

// The seconds of a packet with so many ticks in a capture of one interface, which has an option.
function secondsOf(options, high, low) {
    const whole = joined([block(SECTION, numbers(0x1a2b3c4d, 1, 0xffffffff, 0xffffffff)),
        block(INTERFACE, joined([numbers(1, 0), ...options, numbers(0)])),
        block(ENHANCED, joined([numbers(0, high, low, 4, 4), numbers(7)]))]);
    assert.equal(isPcapng(whole), true);
    const { bytes, skipped } = classic(whole);
    assert.deepEqual(skipped, []);
    const places = new Places(bytes);
    assert.equal(places.starts.length, 1);
    return places.time(0);
}

const resolution = (it) => option(RESOLUTION, Uint8Array.of(it));

await check("pcapng: without an option, times are microseconds", () => {
    assert.equal(secondsOf([], 0, 2500000), 2.5);
    assert.equal(secondsOf([], 1, 0), 4294.967296);
});

await check("pcapng: a decimal resolution", () => {
    assert.equal(secondsOf([resolution(3)], 0, 2500), 2.5);
    assert.equal(secondsOf([resolution(9)], 0, 2500000000), 2.5);
    assert.equal(secondsOf([resolution(0)], 0, 7), 7);
});

await check("pcapng: a binary resolution counts parts of a power of 2", () => {
    assert.equal(secondsOf([resolution(0x80 | 10)], 0, 2560), 2.5);
    assert.equal(secondsOf([resolution(0x80 | 20)], 0, 7 << 20), 7);
    assert.equal(secondsOf([resolution(0x80)], 0, 7), 7);
});

await check("pcapng: an interface's offset is added to its times", () => {
    assert.equal(secondsOf([option(OFFSET, numbers(1000, 0))], 0, 2500000), 1002.5);
    assert.equal(secondsOf([option(OFFSET, numbers(0xffffffff, 0xffffffff))], 0, 2500000), 1.5);
    assert.equal(secondsOf([resolution(0x80 | 10), option(OFFSET, numbers(60, 0))], 0, 2560), 62.5);
});

// ---- Queries and answers ----

const CLIENT = "00000010.00000000AAAA.4003";
const ROUTER = "00000010.000000000001.0453";
const line = (kind, from, to, more) => `${kind} ${from} ${to} tc 0 type 1 length 40\n${more}\n`;
const query = (kind) => line(kind, CLIENT, "00000010.FFFFFFFFFFFF.0453", "rip request\nnet 00000020 hops 65535 ticks 65535");
const answer = (kind) => line(kind, ROUTER, CLIENT, "rip response\nnet 00000020 hops 1 ticks 2");

// What is said of the first record of a capture of these lines, one in each second.
function silenceOf(...lines) {
    const texts = lines.map((it, k) => `record ${k + 1} ${it}`);
    const found = new Unanswered(texts.length, (place) => texts[place], (place) => place);
    return found.silence(0, recordOf(texts[0].trimEnd().split("\n")));
}

await check("a query: an answer in the same kind of frame counts as one", () => {
    for (const kind of ["Raw", "Llc", "EthernetII", "Snap"]) assert.equal(silenceOf(query(kind), answer(kind)), "");
});

await check("a query: an answer in another kind of frame counts as none, and both kinds are named", () => {
    assert.equal(silenceOf(query("Raw"), answer("Llc")),
        "Nobody answers within 10 s. It is sent as 802.3 raw; routers and servers here use 802.2.");
    assert.equal(silenceOf(query("Raw"), answer("Llc"), answer("Raw")), "");
});

await check("a query: an answer for another network, to another node or too late counts as none", () => {
    const other = answer("Raw").replace("net 00000020", "net 00000030");
    for (const it of [other, answer("Raw").replace("AAAA", "BBBB")]) assert.match(silenceOf(query("Raw"), it), /^Nobody answers/);
    const idle = Array(10).fill(line("Raw", ROUTER, ROUTER, "rip request"));
    assert.match(silenceOf(query("Raw"), ...idle, answer("Raw")), /^Nobody answers/);
    assert.equal(silenceOf(query("Raw"), ...idle.slice(1), answer("Raw")), "");
});

// ---- Conversations ----

const packet = (from, to, length) => `record 1 Raw ${from}.4003 ${to}.4003 tc 0 type 4 length ${length}\n`;
const [A, B] = ["00000010.00000000000A", "00000010.00000000000B"];
const talked = (...packets) => conversations(packets.length, (k) => packet(...packets[k]));

await check("conversations: both directions are one, and each is counted by itself", () => {
    const wanted = { a: A, b: B, packets: 4, bytes: 190, forth: 3, back: 1, joined: [] };
    assert.deepEqual(talked([A, B, 40], [B, A, 60], [A, B, 40], [A, B, 50]), { list: [wanted], count: 1 });
    assert.deepEqual(talked([B, A, 60], [A, B, 40], [A, B, 40], [A, B, 50]), { list: [wanted], count: 1 });
});

await check("conversations: a node without its network yet is the one that has it later, in its direction", () => {
    // (without its network it would stand first)
    const unknown = "00000000.00000000000B";
    assert.deepEqual(talked([A, B, 40], [unknown, A, 60], [A, B, 40]).list,
        [{ a: A, b: B, packets: 3, bytes: 140, forth: 2, back: 1, joined: [B] }]);
});

await check("conversations: of more than are listed it is told how many there are", () => {
    const all = Array.from({ length: MOST + 3 }, (_, k) => [A, `00000020.${String(k).padStart(12, "0")}`, 30]);
    const { list, count } = talked(...all, all[7]);
    assert.deepEqual([list.length, count, list[0].packets], [MOST, MOST + 3, 2]);
});

// ---- Filters ----

const HEAD = "record 3 Raw 00000010.00001B0204AA.0452 00000010.FFFFFFFFFFFF.0452 tc 0 type 17 length 34\n";
const leaves = (typed, text, silence = "") => new Filter(typed).fits(text, () => silence);

await check("a filter finds addresses as the list shows them, and as they are", () => {
    for (const address of ["10.1B0204AA", "10.1b0204aa SAP", "1B0204AA", "00000010.00001B0204AA.0452", "10.all", " 10.1B "]) {
        assert.equal(leaves({ address }, HEAD), true, address);
    }
    for (const address of ["11.1B0204AA", "10.1B0204AA RIP", "1B0204AB"]) assert.equal(leaves({ address }, HEAD), false, address);
});

await check("a filter finds words as the list shows them, and as ipxr decode writes them", () => {
    const text = `${HEAD}sap nearest-query 0004\n`;
    for (const word of ["SAP nearest query", "sap nearest-query", "type 4", "802.3 raw", "10.1B0204AA"]) {
        assert.equal(leaves({ word }, text), true, word);
    }
    for (const word of ["NCP", "SAP general", "802.2", "no answer"]) assert.equal(leaves({ word }, text), false, word);
    assert.equal(leaves({ word: "no answer" }, text, "Nobody answers"), true);
    assert.equal(leaves({ word: "ncp" }, HEAD.replaceAll(".0452", ".4003")), true);
    assert.equal(leaves({ word: "no ipx" }, "record 3 Other\n"), true);
});

await check("a filter finds the same of records that differ in their numbers alone", () => {
    const filter = new Filter({ word: "ncp" });
    const other = `${HEAD}sap nearest-query 0004\n`;
    for (const text of [HEAD, other, HEAD, other]) {
        for (const number of ["record 3", "record 44"]) {
            assert.equal(filter.fits(text.replace("record 3", number), () => ""), text === HEAD);
        }
    }
});

await check("a filter finds sockets by their numbers and names", () => {
    for (const socket of ["SAP", "sap", "452", "0452"]) assert.equal(leaves({ socket }, HEAD), true, socket);
    for (const socket of ["RIP", "52", "453"]) assert.equal(leaves({ socket }, HEAD), false, socket);
    assert.equal(leaves({ socket: "SAP", type: "17", address: "10.all", word: "NCP" }, HEAD), true);
    assert.equal(leaves({ socket: "SAP", type: "4" }, HEAD), false);
});

// ---- Files that are no captures ----

const file = (...parts) => Uint8Array.from(parts.flatMap((it) => (typeof it === "string" ? [...new TextEncoder().encode(it)] : [it])));

await check("a file that is no capture is named by its first bytes", () => {
    const wanted = [
        [file(0x1f, 0x8b, 8, 0), "this is a gzip file: unpack it first"], [file("PK\x03\x04", 0), "this is a zip file: unpack it first"],
        [file("TRSNIFF data    ", 0x1a),
            "this is a capture of the Sniffer: save it as pcap with a program that reads it, such as Wireshark"],
        [file("port 00000010"), "this is text: scripts belong to the panes Internet and Router"],
        [file(0xff, 0xfe, "s", 0), "this is UTF-16: save it as UTF-8"],
        [file(0, 1, 2, 3, 4), "this is no capture that is known here; it begins with 00 01 02 03"],
    ];
    for (const [bytes, words] of wanted) assert.equal(wrongFile(bytes, "record 0: Magic"), words);
});

await check("a capture that isn't read is told by its header", () => {
    const changed = (at, ...bytes) => Object.assign(header(), Object.fromEntries(bytes.map((it, k) => [at + k, it])));
    assert.equal(wrongFile(changed(20, 6), "record 0: Link"),
        "this capture is of link type 6, Token Ring; only Ethernet, link type 1, is read");
    assert.equal(wrongFile(changed(20, 99), "record 0: Link"),
        "this capture is of link type 99, another kind of network; only Ethernet, link type 1, is read");
    assert.equal(wrongFile(changed(4, 3), "record 0: Version"), "this is pcap 3.4; only 2.4 is read");
    const big = file(0xa1, 0xb2, 0xc3, 0xd4, 0, 2, 0, 4, ...Array(12).fill(0), 0, 0, 0, 10);
    assert.match(wrongFile(big, "record 0: Link"), /link type 10, FDDI/);
});

await check("a file that is too short is told apart from another one", () => {
    assert.equal(wrongFile(file(), "record 0: CutHeader"), "the file is empty");
    assert.equal(wrongFile(header().subarray(0, 20), "record 0: CutHeader"), "a capture's header has 24 bytes, and the file ends after 20");
    assert.equal(wrongFile(file(0x1f, 0x8b), "record 0: CutHeader"), "this is a gzip file: unpack it first");
    assert.equal(wrongFile(header(), ""), "");
    assert.equal(wrongFile(header(), "record 0: constructor"), "");
});

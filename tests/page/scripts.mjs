// What the page makes of scripts: where packets were sent, names of routers, what forms refuse, versions of a text, links, and what isn't
// followed.
import assert from "node:assert/strict";
import { check } from "./checking.mjs";
import { LONGEST, read, written } from "../../page/address.mjs";
import { answered, questions } from "../../page/hops.mjs";
import { widthOf } from "../../page/drawing.mjs";
import { moves } from "../../page/moves.mjs";
import { nearest } from "../../page/roving.mjs";
import { arriving, hostNode, portNetwork, portNetworks, seeLines, unjoined } from "../../page/refused.mjs";
import { finer, steps } from "../../page/timeline.mjs";
import { outcome } from "../../page/traces.mjs";
import { parsed } from "../../page/script.mjs";
import { Versions } from "../../page/versions.mjs";
import { Wrong } from "../../page/typed.mjs";

const PACKET = "FFFF001E0000000000300000000000CC4003000000100000000000AA4003";
const TWO = `router
port 00000010 000000000101 1 576
port 00000020 000000000102 1 576
router
port 00000020 000000000201 1 576
port 00000040 000000000202 1 576
`;

// ---- Where packets were sent ----

// The step of a trace from whose first router nobody received the packet; with what `routes` said there.
function traced(...routes) {
    const script = parsed(`${TWO}start 0\ntrace 0 0 100 ${PACKET}\n`);
    const said = script.lines.map((it) => (it.words[0] === "trace" ? [`copy 0 - 0 0 Forwarded ${PACKET}`] : []));
    const all = steps(script, said);
    const asked = questions(script, all);
    const answers = Array.from({ length: asked.count }, () => []);
    assert.equal(asked.places.length, 1);
    answers[asked.places[0].line] = routes;
    answered(asked, answers);
    return { step: all[all.length - 1], script };
}

const OWN = "route 00000030 2 3 1 0000000000B0 5";
const DEFAULT = "route FFFFFFFE 1 2 0 0000000000DE 5";
const OTHER = "route 00000031 1 2 0 0000000000DD 5";

await check("a packet goes by the route to its network, and by the default route only where there is none", () => {
    const own = { port: 1, node: "B0" };
    const byDefault = { port: 0, node: "DE" };
    const hops = (...routes) => traced(...routes).step.hops;
    for (const routes of [[OWN, DEFAULT], [DEFAULT, OWN], [OWN], [OTHER, OWN, DEFAULT]]) assert.deepEqual(hops(...routes), { 0: own });
    for (const routes of [[DEFAULT], [OTHER, DEFAULT]]) assert.deepEqual(hops(...routes), { 0: byDefault });
    assert.equal(traced(OTHER).step.hops, undefined);
});

await check("where a packet is lost behind a router, the page says to whom the route led", () => {
    const told = (...routes) => { const { step, script } = traced(...routes); return outcome(step, script).text; };
    assert.equal(told(OWN, DEFAULT), "R0: sent on to B0 on net 20, which is no router");
    assert.equal(told(DEFAULT), "R0: sent on to DE on net 10, which is no router");
});

// ---- Names ----

// The names of routers that no comment names.
const [FIRST, SECOND] = [0, 1].map((it) => `R${it}`);
const namesOf = (...comments) => parsed(`${comments.map((it) => `# ${it}\n`).join("")}${TWO}`).routers.map((it) => it.name);

await check("routers have names of any letters, and in quotation marks of several words", () => {
    assert.deepEqual(namesOf("Zürich (router 0) --- \"New York\" (router 1)"), ["Zürich", "New York"]);
    assert.deepEqual(namesOf("東京 (router 0), Åre (router 1)"), ["東京", "Åre"]);
    assert.deepEqual(namesOf("St.Gallen (router 0)", "Aix-en-Provence (router 1)"), ["St.Gallen", "Aix-en-Provence"]);
    assert.deepEqual(namesOf("--AB----A (router 0) - B0 - B (router 1)"), ["A", "B"]);
    assert.deepEqual(namesOf("by New York (router 0) and \"\" (router 1)"), ["York", SECOND]);
    assert.deepEqual(namesOf("a \" b", "c \" (router 0)", "\"  \" (router 1)"), [FIRST, SECOND]);
});

await check("a long name is cut, and letters that are wide have room", () => {
    assert.deepEqual(namesOf(`"${"x".repeat(30)}" (router 0)`), [`${"x".repeat(23)}…`, SECOND]);
    assert.equal(widthOf("東京", 10), widthOf("abcd", 10));
    assert.equal(widthOf("Zu\u0308rich", 10), widthOf("Zurich", 10));
});

// ---- What forms refuse ----

const isSaid = (why, field, words) => why instanceof Wrong && why.field === field && why.message.includes(words);
const refuses = (act, field, words) => assert.throws(act, (why) => isSaid(why, field, words));

await check("a form refuses networks that no port may have", () => {
    const none = ["0", "00000000", "FFFFFFFE", "ffffffff", "123456789", "G", ""];
    for (const typed of none) refuses(() => portNetwork("network", typed), "network", "");
    refuses(() => portNetwork("network", "fffffffe"), "network", "FFFFFFFE means the default route");
    assert.equal(portNetwork("network", " fffffffd "), "FFFFFFFD");
    assert.equal(portNetwork("network", "1"), "00000001");
    refuses(() => portNetworks("networks", "10 0"), "networks", "0 means an unknown network");
});

await check("a form refuses a router that is twice on a network", () => {
    const script = parsed(TWO);
    refuses(() => portNetworks("networks", "10, 20 010"), "networks", "10 stands there twice");
    assert.deepEqual(portNetworks("networks", "10, 1a"), ["00000010", "0000001A"]);
    refuses(() => unjoined("network", script.routers[0], "00000020"), "network", "port 1 of this router is on network 20");
    assert.equal(unjoined("network", script.routers[0], "00000040"), "00000040");
});

await check("a form refuses a host with a node that a router or a host has", () => {
    const script = parsed(`# host 00000020.0000000000AA\n# "New York" (router 1)\n${TWO}`);
    refuses(() => hostNode("node", script, "20", "201"), "node", "port 0 of New York has this node");
    refuses(() => hostNode("node", script, "20", "aa"), "node", "a host there");
    for (const typed of ["0", "FFFFFFFFFFFF"]) refuses(() => hostNode("node", script, "20", typed), "node", "1 to FFFFFFFFFFFE");
    assert.equal(hostNode("node", script, "10", "201"), "000000000201");
    assert.equal(hostNode("node", script, "20", "bb"), "0000000000BB");
});

await check("a form refuses more bytes than a packet has, and lines that are wrong where they go", () => {
    assert.equal(arriving("hex", ""), "-");
    assert.equal(arriving("hex", "00".repeat(65535)).length, 131070);
    refuses(() => arriving("hex", "00".repeat(65536)), "hex", "at most 65535 bytes");
    const late = `${TWO}start 0\nrouter\nport 00000050 000000000301 1 576\n`;
    refuses(() => seeLines(late, true, 8, 2), "", "before line 7");
    seeLines(late, true, 6, 1);
    seeLines(TWO, true, 5, 2);
});

// ---- Versions ----

function versions() {
    const clock = { now: 0 };
    return { it: new Versions("a", () => clock.now), rest: () => (clock.now += 5000), wait: () => (clock.now += 100) };
}

await check("what was typed is taken back by itself, and had again", () => {
    const { it } = versions();
    it.put("act");
    it.type("act, typed");
    assert.deepEqual([it.back(), it.back(), it.on(), it.on()], ["act", "a", "act", "act, typed"]);
    assert.deepEqual([it.hasPast, it.hasFuture], [true, false]);
    it.back();
    it.put("other");
    assert.deepEqual([it.hasFuture, it.on(), it.back(), it.back(), it.back()], [false, "other", "act", "a", "a"]);
});

await check("what is typed without a rest is one version", () => {
    const { it, rest, wait } = versions();
    for (const text of ["ab", "abc", "abcd"]) (it.type(text), wait());
    rest();
    it.type("abcde");
    assert.deepEqual([it.back(), it.back(), it.hasPast], ["abcd", "a", false]);
    it.type("x");
    assert.deepEqual([it.hasFuture, it.back()], [false, "a"]);
    it.type("a");
    assert.equal(it.hasFuture, true);
});

// ---- Links ----

await check("a link holds a text of 24,000 bytes, and of a longer one nothing", () => {
    const longest = "ü".repeat(LONGEST / 2);
    assert.deepEqual(read(written("internet", longest)), { pane: "internet", text: longest });
    assert.equal(written("internet", `${longest}x`), "#internet");
});

// ---- What isn't followed, or told apart ----

// What the page follows of a script, in which ipxr says of each settle that nothing waits; routers send nothing here.
const followed = (...lines) => {
    const script = parsed(`${TWO}${lines.join("\n")}\n`);
    return moves(script, script.lines.map((it) => (it.words[0] === "settle" ? ["quiet"] : [])), () => ({ text: "", ends: [] }));
};

await check("why deliveries are no longer followed is said", () => {
    const all = followed("start 0", "settle 10", "second 8000", "settle 10");
    assert.deepEqual([[...all.moved.keys()], all.why], [[7, 9], ""]);
    const long = followed("start 0", "settle 10", "second 8001", "settle 10");
    assert.deepEqual([[...long.moved.keys()], long.why], [[7], "the page follows the first 8000 seconds of a run"]);
    const script = parsed(`${TWO}start 0\nsettle 10\n`);
    const other = moves(script, script.lines.map((it) => (it.words[0] === "settle" ? ["left 3"] : [])), () => ({ text: "", ends: [] }));
    assert.deepEqual([other.moved.size, other.why], [0, "from here on the page counts other packets than ipxr"]);
});

await check("a packet that is dropped where it comes says why", () => {
    // (the first router sends one as it starts; the second drops what comes)
    const play = (text) => {
        const lines = text.trimEnd().split("\n");
        const says = (it) => (it === "start" ? `out 1 FFFFFFFFFFFF ${PACKET}\n` : it.startsWith("in ") ? "drop DownPort\n" : "");
        const said = lines.map(says);
        return { text: said.join(""), ends: said.map((_, k) => said.slice(0, k + 1).join("").length) };
    };
    const script = parsed(`${TWO}start 0\nsettle 10\n`);
    const { moved } = moves(script, script.lines.map((it) => (it.words[0] === "settle" ? ["quiet"] : [])), play);
    assert.deepEqual([...moved.values()].map((all) => all.map((it) => [it.from, it.to, it.dropped])), [[[0, 1, "DownPort"]]]);
});

await check("of more than 6,000 deliveries the first are followed", () => {
    const out = `out 1 FFFFFFFFFFFF ${PACKET}\n`.repeat(3001);
    // (each router answers its last line alone)
    const play = (text) => {
        const lines = text.split("\n").length - 1;
        const isFirst = text.startsWith("port 00000010");
        return { text: isFirst ? out : "", ends: Array.from({ length: lines }, (_, k) => (k === lines - 1 && isFirst ? out.length : 0)) };
    };
    const script = parsed(`${TWO}start 0\nsettle 1000000\nstop 0\nsettle 1000000\n`);
    const { moved, why } = moves(script, script.lines.map((it) => (it.words[0] === "settle" ? ["quiet"] : [])), play);
    assert.deepEqual([[...moved.values()].map((it) => it.length), why], [[3001], "the page follows the first 6000 deliveries of a run"]);
});

await check("slow motion says where it leaves seconds together", () => {
    const isWhole = (line) => finer(parsed(`${TWO}start 0\n${line}\n`)).isWhole;
    assert.deepEqual(["second 300", "settle 1000000", "second 301"].map(isWhole), [true, true, false]);
});

// ---- Arrows ----

await check("arrows go to the nearest thing in their direction", () => {
    const places = [[0, 0], [100, 5], [60, 60], [0, 80], [-50, 0]];
    const from = (at, ...direction) => nearest(places, at, direction);
    assert.deepEqual([from(0, 1, 0), from(0, 0, 1), from(0, -1, 0), from(0, 0, -1)], [1, 3, 4, -1]);
    assert.deepEqual([from(1, -1, 0), from(1, 0, 1), from(3, 1, 0)], [0, 2, 2]);
});

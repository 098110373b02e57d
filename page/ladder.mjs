// A ladder: who sent what to whom, and when. Each party has a line downwards, each packet an arrow. It goes by the routers that carry it:
// theirs are the nodes of its frame where they aren't those of the packet.
import { EVERYONE, short } from "./bytes.mjs";
import { Drawing, widthOf } from "./drawing.mjs";
import { FRAMES } from "./records.mjs";

const [ROW, LEFT, TOP] = [30, 58, 52];
// A lane is as wide as these allow, and so that all lanes together are no wider than the third if they can.
const [WIDEST, NARROWEST, WIDTH] = [190, 140, 1100];

// ---- Parties ----

// The party of an address: a node that doesn't know its network yet is the one that does later, if there is one.
function partiesOf(records) {
    const networks = new Map();
    for (const { from, to } of records) {
        for (const { network, node } of [from, to]) {
            if (!parseInt(network, 16)) continue;
            if (!networks.has(node)) networks.set(node, new Set());
            networks.get(node).add(network);
        }
    }
    return ({ network, node }) => {
        if (node === EVERYONE) return parseInt(network, 16) ? `all of ${short(network)}` : "all";
        const known = networks.get(node);
        const own = known?.size === 1 ? [...known][0] : network;
        return own ? `${short(own)}.${short(node)}` : short(node);
    };
}

const isAll = (it) => it.startsWith("all");

// The nodes of the routers that a packet came from and goes to, where its frame names others than the packet does.
function carriers({ from, to, link }) {
    if (!link) return [];
    const sender = link.from === from.node || link.from === EVERYONE ? [] : [link.from];
    const receiver = link.to === to.node || to.node === EVERYONE || link.to === EVERYONE ? [] : [link.to];
    return [...sender, ...receiver];
}

// The parties in the order in which they appear, a router between those for whom it carries; those that stand for all come last.
function inOrder(rows) {
    const found = new Set(rows.flatMap((it) => (it.start ? [it.start, ...it.by, it.end] : [])));
    return [...[...found].filter((it) => !isAll(it)), ...[...found].filter(isAll)];
}

// The rows and parties of the records of a capture. The kind of a frame is told where there are several, and a query that nobody answers.
export function ofRecords(records) {
    const packets = records.filter((it) => it.isPacket);
    const party = partiesOf(packets);
    const differ = new Set(packets.map((it) => it.frame)).size > 1;
    const textOf = (it) => (differ ? `${FRAMES[it.frame] ?? it.frame} · ${it.text}` : it.text);
    const rows = records.map((it) => (it.isPacket
        ? {
            key: `record ${it.place}`, second: it.time, start: party(it.from), by: carriers(it).map((node) => party({ network: "", node })),
            end: party(it.to), kind: it.kind, text: textOf(it), silence: it.silence,
        }
        : { key: `record ${it.place}`, second: it.time, text: it.text }));
    return { rows, parties: inOrder(rows), routers: new Set(rows.flatMap((it) => it.by ?? [])) };
}

// ---- Scripts of a router ----

const [SOURCE, PACKET] = [36, 60];
const heard = (hex) => (hex.length >= PACKET ? `${short(hex.slice(SOURCE, SOURCE + 8))}.${short(hex.slice(SOURCE + 8, SOURCE + 20))}`
    : "?");

// What is said of a wrong line, which does nothing.
const wrongOf = (step) => step.said.find((it) => it.startsWith("line "));

// The packets that the steps of a script send or receive, in order: each with its second, and the node that it is sent to.
export function packetsOf(steps) {
    return steps.filter((it) => !wrongOf(it)).flatMap((step) => {
        const came = step.words[0] === "in" ? [{ hex: (step.words[2] ?? "").replace("-", "").toUpperCase(), second: step.second }] : [];
        const sent = step.said.filter((it) => it.startsWith("out ")).map((it) => it.split(" "));
        return [...came, ...sent.map((it) => ({ hex: it[3], node: it[2], second: step.second }))];
    });
}

// What a packet says, and whom it is for where its arrow doesn't end there.
function whither({ kind, text, to }, end) {
    const target = kind === "data" && to && to.node !== EVERYONE ? `${short(to.network)}.${short(to.node)}` : end;
    return { kind, text: target === end ? text : `${text}, for ${target}` };
}

function rowsOf(step, key, networks, labels) {
    const dropped = step.said.find((it) => it.startsWith("drop "))?.slice(5) ?? "";
    if (wrongOf(step)) return [{ key, second: step.second, text: wrongOf(step), isWrong: true }];
    const rows = [];
    const label = () => labels.next().value ?? { kind: "data", text: "" };
    if (step.words[0] === "in") {
        const hex = (step.words[2] ?? "").replace("-", "").toUpperCase();
        rows.push({ start: heard(hex), end: "router", port: +step.words[1], ...whither(label(), ""), lost: dropped });
    } else if (["start", "stop", "down", "up"].includes(step.words[0])) {
        const port = step.words.length > 1 ? ` port ${step.words[1]}, network ${networks[+step.words[1]] ?? "?"}` : "";
        rows.push({ text: step.words[0] + port, lost: dropped });
    } else if (dropped) rows.push({ text: step.words.join(" "), lost: dropped });
    for (const line of step.said.filter((it) => it.startsWith("out "))) {
        const [, port, node] = line.split(" ");
        const end = node === EVERYONE ? `all of ${networks[+port]}` : `${networks[+port]}.${short(node)}`;
        rows.push({ start: "router", end, port: +port, ...whither(label(), end) });
    }
    return rows.map((it) => ({ ...it, key, second: step.second }));
}

// The rows and parties of the steps of a script; `labels` says of each packet, in order, its kind and what it says.
export function ofSteps(steps, networks, labels) {
    const next = labels[Symbol.iterator]();
    const rows = steps.flatMap((it, k) => rowsOf(it, `step ${k}`, networks, next));
    const sides = new Map();
    for (const it of rows) {
        for (const party of [it.start, it.end]) if (party && party !== "router" && !sides.has(party)) sides.set(party, it.port);
    }
    const left = [...sides.keys()].filter((it) => sides.get(it) === 0).sort((a, b) => isAll(a) - isAll(b));
    const right = [...sides.keys()].filter((it) => sides.get(it) !== 0).sort((a, b) => sides.get(a) - sides.get(b) || isAll(b) - isAll(a));
    return { rows, parties: [...left, "router", ...right], routers: new Set(["router"]) };
}

// ---- Drawing ----

const atSecond = (second) => `${String(Math.round(second * 1000) / 1000)} s`;

// A text that has room, without its end if need be.
function shortened(text, room) {
    let it = text;
    while (widthOf(it, 11) > room && it.length > 8) it = `${it.slice(0, it.endsWith("…") ? -2 : -1).replace(/[ ,.(]+$/, "")}…`;
    return it;
}

// The arrow of a packet, by each router that carries it. Where it turns back it goes on a little lower.
function drawWay(drawing, row, places, y) {
    let [down, before] = [0, 0];
    for (let k = 1; k < places.length; k++) {
        const [from, to] = [places[k - 1], places[k]];
        const aside = to > from ? 4 : -4;
        if (before && aside !== before) down += 6;
        before = aside;
        drawing.line([[from + (k > 1 ? 0 : aside), y + down], [to - aside, y + down]], { colour: row.kind, width: 2, arrow: true });
        if (k > 1) drawing.box(from, y + down / 2, 10, 10 + down, { fill: row.kind, colour: row.kind, corner: 5, thick: 0 });
    }
    return before;
}

function drawRow(drawing, row, y, place, right) {
    if (!row.start) {
        drawing.line([[LEFT, y], [right, y]], { colour: "pale", width: 1, dashes: "2 4" });
        drawing.words((LEFT + right) / 2, y, row.text + (row.lost ? `: dropped, ${row.lost}` : ""), {
            size: 12, halo: true, colour: row.isWrong ? "alarm" : "ink",
        });
        return;
    }
    const places = [row.start, ...(row.by ?? []), row.end].map((it) => place.get(it)).filter((it, k, all) => it !== all[k - 1]);
    if (places.length < 2) {
        drawing.words(places[0], y, row.text, { size: 11, colour: row.kind, halo: true });
        return;
    }
    const [first, last, end] = [Math.min(...places), Math.max(...places), places[places.length - 1]];
    const aside = drawWay(drawing, row, places, y);
    drawing.words((first + last) / 2, y - 10, shortened(row.text, last - first - 8), { size: 11, colour: row.kind, halo: true });
    if (row.lost || row.silence) {
        const anchor = aside > 0 ? "start" : "end";
        drawing.words(end + 2 * aside, y + 1, `✕ ${row.lost || "no answer"}`, { size: 11, colour: "alarm", anchor, halo: true });
    }
}

// What a row is, for who doesn't see it.
function spoken({ start, by = [], end, text, lost, silence }) {
    const way = start ? `${[start, ...by, end].join(" to ")}: ` : "";
    return `${way}${text}${lost ? `, dropped: ${lost}` : silence ? ", no answer" : ""}`;
}

// The drawing of rows between parties; the row with the chosen key is marked.
export function drawLadder({ rows, parties, routers = new Set() }, chosen = "") {
    const drawing = new Drawing("ladder");
    if (!rows.length) return null;
    const lane = Math.max(NARROWEST, Math.min(WIDEST, Math.floor(WIDTH / Math.max(parties.length, 1))));
    const place = new Map(parties.map((it, k) => [it, LEFT + 60 + lane * k]));
    const [right, bottom] = [LEFT + 120 + lane * Math.max(parties.length - 1, 0), TOP + ROW * rows.length];
    for (const [name, x] of place) {
        drawing.line([[x, TOP - 20], [x, bottom]], { colour: "pale", width: 1 });
        const isRouter = routers.has(name);
        drawing.box(x, TOP - 32, widthOf(name, 12) + 18, 24, { fill: isRouter ? "router" : "paper", corner: isRouter ? 3 : 12 });
        drawing.words(x, TOP - 32, name, { size: 12, bold: isRouter });
    }
    drawing.middle = place.get(parties.find((it) => routers.has(it)));
    let last = null;
    rows.forEach((row, k) => {
        const y = TOP + ROW * k + 16;
        if (row.key === chosen) drawing.box((LEFT + right) / 2, y - 4, right - LEFT + 20, ROW - 4,
            { fill: "router", colour: "router", thick: 0 });
        if (row.second !== last) drawing.words(LEFT - 14, y, atSecond(row.second), { size: 11, colour: "quiet", anchor: "end" });
        last = row.second;
        drawing.thing(row.key, spoken(row), () => drawRow(drawing, row, y, place, right));
    });
    return drawing;
}

// The map of an internet: routers in square boxes, networks in round ones, hosts as words; and on it the way of a traced packet.
import { Drawing, widthOf } from "./drawing.mjs";
import { places } from "./layout.mjs";

const APART = 92;
const HIGH = { router: 32, network: 22, host: 20 };
// How much is left free around each.
const SPACE = { router: 26, network: 18, host: 10 };
// How far a way stands aside of the line, and how far its number may; and in how many pieces a line is.
const ASIDE = 6;
const FARTHER = [11, 20, 30, 40];
const PIECES = 32;
// Where the number of a way may stand, as a share of what is seen of one of its lines.
const SHARES = [0.25, 0.5, 0.1, 0.75];
// As many sentences stand below each other.
const MOST_LINES = 8;

const labelOf = { router: (it) => it.name, network: (it) => `net ${it.network}`,
    host: (it) => `${it.node}${it.isForged ? " (forged)" : ""}` };

function sized(kind, it) {
    const label = labelOf[kind](it);
    return { kind, it, label, wide: Math.max(widthOf(label, kind === "router" ? 14 : 12) + 16, kind === "router" ? 44 : 30),
        high: HIGH[kind] };
}

// The points and lines of a script's map, with a place for each point. It changes with routers, ports and hosts alone; a tall one is for a
// narrow window or for one beside others, `apart` is the length of a line.
export function plan(script, isTall = false, apart = APART) {
    const networks = script.networks.map((network) => ({ network }));
    const hosts = script.hosts.filter((it) => script.networks.includes(it.network));
    const points = [
        ...script.routers.map((it, number) => ({ ...sized("router", it), key: `router ${number}`, number })),
        ...networks.map((it) => ({ ...sized("network", it), key: `network ${it.network}` })),
        ...hosts.map((it) => ({ ...sized("host", it), key: `host ${it.network}.${it.node}` })),
    ];
    const at = new Map(points.map((it, k) => [it.key, k]));
    const lines = script.routers.flatMap((router, number) => router.ports.map((port, k) => (
        { from: number, to: at.get(`network ${port.network}`), router: number, port: k })));
    hosts.forEach((it) => lines.push({ from: at.get(`host ${it.network}.${it.node}`), to: at.get(`network ${it.network}`) }));
    const room = points.map((it) => [it.wide / 2 + SPACE[it.kind], it.high / 2 + SPACE[it.kind]]);
    const found = places(points.length, lines.map((it) => [it.from, it.to]), room, apart, isTall);
    points.forEach((it, k) => (it.place = found[k]));
    return { points, lines, at };
}

const between = (a, b, share) => [a[0] + (b[0] - a[0]) * share, a[1] + (b[1] - a[1]) * share];

// Where a line from a box leaves it, as a share of the line.
function leaving(box, to) {
    const [x, y] = [Math.abs(to[0] - box.place[0]) || 1e-9, Math.abs(to[1] - box.place[1]) || 1e-9];
    return Math.min((box.wide / 2) / x, (box.high / 2) / y, 1);
}

// A line moved aside, to the right of who goes along it.
function aside(start, end, far) {
    const [x, y] = [end[0] - start[0], end[1] - start[1]];
    const length = Math.hypot(x, y) || 1;
    return [start, end].map((it) => [it[0] - (y / length) * far, it[1] + (x / length) * far]);
}

// Places from the first of a list over the others to the last, in small steps, aside of the straight lines between them.
function wayOver(list, far) {
    const found = [];
    for (let k = 1; k < list.length; k++) {
        const [start, end] = aside(list[k - 1], list[k], far);
        for (let n = 0; n <= PIECES; n++) found.push(between(start, end, n / PIECES));
    }
    return found;
}

const outside = (points, boxes) => points.filter(([x, y]) => boxes.every((it) => (
    Math.abs(x - it.place[0]) > it.wide / 2 + 4 || Math.abs(y - it.place[1]) > it.high / 2 + 4)));

// Where the number of a way may stand on its line between two boxes, the best place first.
function placesBeside(from, to, isOpposite) {
    return FARTHER.flatMap((far) => {
        const line = outside(wayOver([from.place, to.place], isOpposite ? -far : far), [from, to]);
        return line.length ? SHARES.map((share) => line[Math.floor(line.length * share)]) : [];
    });
}

class InternetMap {
    constructor(script, found, { state, changed = [], chosen = "", trace = [] }) {
        Object.assign(this, { script, plan: found, state, changed, chosen, trace, marks: [], losses: [], drawing: new Drawing("map") });
    }

    point(key) {
        return this.plan.points[this.plan.at.get(key)];
    }

    isUp(router, port) {
        return this.state?.[router]?.up[port] ?? true;
    }

    drawLines() {
        for (const { from, to, router, port } of this.plan.lines) {
            const [here, there] = [this.plan.points[from], this.plan.points[to]];
            if (router === undefined) {
                this.drawing.line([here.place, there.place], { colour: "pale", dashes: "2 4" });
                continue;
            }
            const isUp = this.isUp(router, port);
            const { network } = this.script.routers[router].ports[port];
            const key = `port ${router} ${port}`;
            const label = `port ${port} of ${this.script.routers[router].name} on network ${network}, ${isUp ? "up" : "down"}`;
            this.drawing.thing(key, label, () => this.drawPort(here, there, { isUp, port, isChosen: this.chosen === key }));
        }
    }

    drawPort(here, there, { isUp, port, isChosen }) {
        const colour = isChosen ? "chosen" : isUp ? (this.trace.length ? "pale" : "ink") : "alarm";
        this.drawing.line([here.place, there.place], { colour, width: isChosen ? 3 : 1.5, dashes: isUp ? "" : "5 4" });
        const [first, last] = [leaving(here, there.place), 1 - leaving(there, here.place)];
        const length = Math.hypot(there.place[0] - here.place[0], there.place[1] - here.place[1]);
        const at = Math.min(first + 11 / length, (first + last) / 2);
        this.mark(between(here.place, there.place, at), String(port), { size: 10, colour: isUp ? "quiet" : "alarm" });
        const middle = between(here.place, there.place, (Math.max(first, at) + last) / 2);
        if (!isUp) this.mark(middle, "✕", { size: 15, colour: "alarm", bold: true });
    }

    // A sign on a line, which no number of a way may cover.
    mark(place, text, how) {
        this.marks.push({ place, wide: how.size, high: how.size });
        this.drawing.words(...place, text, { ...how, halo: true });
    }

    drawPoints() {
        for (const it of this.plan.points) this.drawing.thing(it.key, this.spoken(it), () => this.drawPoint(it));
    }

    // What a point is, for who doesn't see it.
    spoken(it) {
        if (it.kind === "network") return `network ${it.it.network}`;
        if (it.kind === "host") return `${it.it.isForged ? "forged host" : "host"} ${it.it.node} on network ${it.it.network}`;
        const runs = this.state?.[it.number]?.runs ? "running" : "stopped";
        return `router ${it.label}, ${runs}${this.changed[it.number] ? ", its tables changed" : ""}`;
    }

    drawPoint({ kind, key, label, wide, high, number, place: [x, y] }) {
        const isChosen = this.chosen === key;
        const line = { colour: isChosen ? "chosen" : "ink", thick: isChosen ? 3 : 1.5 };
        if (kind === "host") {
            this.drawing.box(x, y, wide, high, { ...line, colour: isChosen ? "chosen" : "pale", corner: 3, thick: isChosen ? 3 : 1 });
            this.drawing.words(x, y, label, { size: 12, colour: "quiet" });
            return;
        }
        if (kind === "network") {
            this.drawing.box(x, y, wide, high, { ...line, fill: "network", corner: high / 2 });
            this.drawing.words(x, y, label, { size: 12 });
            return;
        }
        const runs = this.state?.[number]?.runs ?? true;
        this.drawing.box(x, y, wide, high, { ...line, fill: runs ? "router" : "off", corner: 4, dashes: runs ? "" : "4 3" });
        this.drawing.words(x, y, label, { size: 14, bold: true, colour: runs ? "ink" : "quiet" });
        if (this.changed[number]) this.drawing.words(x + wide / 2, y - high / 2, "●", { size: 13, colour: "changed", halo: true });
    }

    // The ways of packets, each beside the line on which it goes, with the numbers of the receptions of a trace.
    drawWays() {
        return this.trace.map(({ from, host, network, to, text, colour }) => {
            const [over, end] = [this.point(`network ${network}`), this.point(`router ${to}`)];
            const start = from < 0 ? this.point(host) ?? over : this.point(`router ${from}`);
            const way = outside(wayOver([...new Set([start, over, end])].map((it) => it.place), from < 0 ? -ASIDE : ASIDE), [start, end]);
            if (way.length < 2) return null;
            this.drawing.line(way, { colour, width: 2.5, arrow: true });
            const places = [...placesBeside(over, end, from < 0), ...placesBeside(start, over, from < 0), way[0]];
            return { places, text, colour };
        });
    }

    // Each number where it covers neither a box nor a number that is there, if there is such a place on its way.
    drawNumbers(numbers) {
        const taken = [...this.marks, ...this.plan.points];
        for (const { places, text, colour } of numbers.filter((it) => it?.text)) {
            const size = { wide: widthOf(text, 10) + 10, high: 15 };
            const isFree = (place) => taken.every((it) => (
                Math.abs(it.place[0] - place[0]) > (it.wide + size.wide) / 2
                || Math.abs(it.place[1] - place[1]) > (it.high + size.high) / 2));
            const place = places.find(isFree) ?? places[0];
            taken.push({ place, ...size });
            this.drawing.box(...place, size.wide, size.high, { fill: colour, colour, corner: 7.5, thick: 0 });
            this.drawing.words(...place, text, { size: 10, colour: "paper", bold: true });
        }
    }

    // From the last router to the host that a packet is for; or as far as it got on its route, where a cross ends it.
    drawEnds(ends) {
        for (const { router, network, host: key, isThere } of ends) {
            const [start, over, host] = [this.point(`router ${router}`), this.point(`network ${network}`), this.point(key)];
            if (!start || !over || (isThere && !host)) continue;
            const end = host ?? over;
            const way = outside(wayOver([...new Set([start, over, end])].map((it) => it.place), ASIDE), [start, end]);
            if (way.length < 2) continue;
            this.drawing.line(way, { colour: "way", width: 2.5, arrow: isThere });
            if (!isThere) this.losses.push(way[way.length - 1]);
        }
    }

    // A cross where a packet is lost: where nobody received it, or at the corner of a router that dropped it.
    drawLosses(lost) {
        for (const number of lost) {
            const { place: [x, y], wide, high } = this.point(`router ${number}`);
            this.losses.push([x - wide / 2, y + high / 2]);
        }
        for (const place of this.losses) this.mark(place, "✕", { size: 19, colour: "alarm", bold: true });
    }

    // Sentences below the map, in columns.
    drawSentences(sentences) {
        const [left, top] = [this.drawing.left, this.drawing.bottom + 26];
        const middle = Math.ceil(sentences.length / Math.ceil(sentences.length / MOST_LINES));
        const wide = Math.max(...sentences.map((it) => widthOf(it.text, 13))) + 30;
        sentences.forEach((it, k) => {
            const [x, y] = [left + wide * Math.floor(k / middle), top + 21 * (k % middle)];
            this.drawing.words(x, y, it.text, { anchor: "start", colour: it.isLost ? "alarm" : "ink" });
        });
    }

    whole({ ends = [], lost = [], words: sentences = [] }) {
        const numbers = this.drawWays();
        this.drawEnds(ends);
        this.drawLines();
        this.drawPoints();
        this.drawLosses(lost);
        this.drawNumbers(numbers);
        if (sentences.length) this.drawSentences(sentences);
        return this.drawing;
    }
}

// The drawing of a script's map: `shown` has the state of routers and ports, whose tables changed, what is chosen, the ways of a trace and
// where they end, and sentences that stand below.
export const drawMap = (script, found, shown = {}) => new InternetMap(script, found, shown).whole(shown);

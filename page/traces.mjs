// The way of a traced packet: its receptions, and the ways between routers, of which those that are gone more than once are one.
import { EVERYONE, short } from "./bytes.mjs";
import { reason } from "./reasons.mjs";

export function receptions(lines) {
    return lines.filter((it) => it.startsWith("copy ")).map((line) => {
        const [, number, parent, router, port, outcome, hex] = line.split(" ");
        return { number: +number, parent: parent === "-" ? -1 : +parent, router: +router, port: +port, outcome, hex };
    });
}

const [DESTINATION, SOURCE, PACKET] = [12, 36, 60];

// The host whose address stands in the digits of a packet, as the map has it.
function hostAt(hex, at, network) {
    const named = short(hex.slice(at, at + 8));
    return `host ${named === "0" ? network : named}.${short(hex.slice(at + 8, at + 20))}`;
}

// The ways of a trace: from which router (-1: from outside, and from which host then) over which network to which router, and the numbers
// of the receptions.
export function ways(copies, routers) {
    const found = new Map();
    for (const it of copies) {
        const from = it.parent < 0 ? -1 : copies[it.parent]?.router ?? -1;
        const network = routers[it.router]?.ports[it.port]?.network;
        if (network === undefined) continue;
        const key = `${from} ${network} ${it.router}`;
        if (!found.has(key)) found.set(key, { from, host: hostAt(it.hex, SOURCE, network), network, to: it.router, numbers: [] });
        found.get(key).numbers.push(it.number);
    }
    return [...found.values()].map((it) => ({ ...it, colour: "way", text: listed(it.numbers) }));
}

// The ways of packets that come in from outside, of steps that are such.
export function waysIn(steps, routers) {
    const came = steps.filter((it) => it.words[0] === "in" && it.words[3]?.length >= PACKET);
    return came.map(({ words: [, to, port, hex], kind }) => {
        const network = routers[+to]?.ports[+port]?.network;
        return { from: -1, host: hostAt(hex, SOURCE, network), network, to: +to, text: "", colour: kind ?? "way" };
    }).filter((it) => it.network !== undefined);
}

// The routers that dropped a packet which came in from outside.
export const droppedBy = (steps) => steps.filter((it) => it.words[0] === "in" && it.said.some((line) => line.startsWith("drop ")))
    .map((it) => +it.words[1]);

// The ways of packets that are handed out: those of one way are one arrow, in the colour of what they say, with their count.
export function waysOf(moved, kinds) {
    const found = new Map();
    moved.forEach((it, k) => {
        const key = `${it.from} ${it.network} ${it.to}`;
        if (!found.has(key)) found.set(key, { ...it, count: 0, colour: kinds[k] ?? "way" });
        found.get(key).count++;
    });
    return [...found.values()].map((it) => ({ ...it, text: it.count > 1 ? `×${it.count}` : "" }));
}

// Numbers in few words: the first two and the last.
export const listed = (numbers) => (numbers.length <= 3 ? numbers.join(" ")
    : `${numbers[0]} ${numbers[1]} … ${numbers[numbers.length - 1]}`);

// ---- In words ----

const nameOf = (it, script) => script.routers[it.router]?.name ?? `R${it.router}`;
const networkOf = (it, script) => script.routers[it.router]?.ports[it.port]?.network ?? "?";
export const isLost = (it) => !["Forwarded", "Propagated", "Local"].includes(it.outcome);

// The network and the node that a packet is for.
const target = ({ hex }) => ({ network: short(hex.slice(DESTINATION, DESTINATION + 8)),
    node: short(hex.slice(DESTINATION + 8, DESTINATION + 20)) });

const reasonOf = (it) => reason(it.outcome, target(it).network);

function sentence(it, script) {
    const why = isLost(it) && reasonOf(it);
    return `${it.number}. ${nameOf(it, script)}, from net ${networkOf(it, script)}: ${it.outcome}${why ? ` (${why})` : ""}`;
}

// Whether a reception is as the one so many before it: the same router and port, and the same came of it.
const repeats = (copies, k, period) => k >= period && ["router", "port", "outcome"].every((it) => copies[k][it] === copies[k - period][it]);

// As many receptions make a round at most that is told once; and fewer that repeat others are told one by one.
const [LONGEST_ROUND, FEWEST] = [6, 3];

// How far receptions from a place on go round as those before it, and how many make a round.
function round(copies, from) {
    let best = { period: 0, count: 0 };
    for (let period = 2; period <= LONGEST_ROUND; period++) {
        let count = 0;
        while (from + count < copies.length && repeats(copies, from + count, period)) count++;
        if (count > best.count && count >= Math.max(period, FEWEST)) best = { period, count };
    }
    return best;
}

// What became of each reception of a traced packet, and of the packet; what goes round and round is told once.
export function sentences(step, script) {
    const copies = receptions(step.said);
    const found = [];
    for (let k = 0; k < copies.length; k++) {
        const { period, count } = round(copies, k);
        if (count) {
            const names = copies.slice(k, k + period).map((it) => nameOf(it, script));
            found.push({ text: `${k} to ${k + count - 1}. ${names.join(", ")}, and so on`, isLost: false });
            k += count - 1;
        } else found.push({ text: sentence(copies[k], script), isLost: isLost(copies[k]) });
    }
    const last = lastOnes(copies);
    return last.length === 1 ? [...found, endOf(last[0], copies, step, script)] : found;
}

const lastOnes = (copies) => copies.filter((it) => !copies.some((other) => other.parent === it.number));

// The receptions whose packets a router sent on, and no router received.
export const sentOn = (copies) => lastOnes(copies).filter((it) => it.outcome === "Forwarded");

// Where a packet left for that no router received: to the host that it is for, on a network of the router; or where a route led that a
// neighbour offers who isn't there.
function leftFor(it, step, script) {
    const to = target(it);
    const isOn = script.routers[it.router]?.ports.some((port, k) => port.network === to.network && step.state[it.router].up[k]);
    if (isOn) return { ...to, isThere: true };
    const hop = step.hops?.[it.router];
    return { network: script.routers[it.router]?.ports[hop?.port]?.network, node: hop?.node, isThere: false };
}

// The receptions before one, and itself.
function before(it, copies) {
    const way = [];
    for (let one = it; one; one = copies[one.parent]) way.unshift(one);
    return way;
}

const nodeNamed = (node) => (node === EVERYONE ? "all" : node);
const nobody = ({ network, node }) => (
    network === undefined ? "sent on, and nobody is there" : `sent on to ${node} on net ${network}, which is no router`);

// What became of a packet at last, as a sentence.
function endOf(it, copies, step, script) {
    const name = nameOf(it, script);
    if (isLost(it)) return { text: `lost at ${name}: ${reasonOf(it) || it.outcome}`, isLost: true };
    if (it.outcome !== "Forwarded") return { text: `${it.outcome === "Local" ? "arrived at" : "propagated by"} router ${name}`,
        isLost: false };
    const to = leftFor(it, step, script);
    if (!to.isThere) return { text: `lost behind ${name}: ${nobody(to)}`, isLost: true };
    const count = before(it, copies).length;
    return { text: `arrived at ${nodeNamed(to.node)} on net ${to.network} after ${count} router${count > 1 ? "s" : ""}`, isLost: false };
}

// The names of the routers of a way; of a long one the first and the last.
function wayOf(names) {
    if (names.length <= 5) return names.join(" → ");
    return `${names.slice(0, 3).join(" → ")} … ${names[names.length - 1]}`;
}

// What became of a packet: by which routers it went, and where it ended.
export function outcome(step, script) {
    const copies = receptions(step.said);
    const last = lastOnes(copies);
    if (!last.length) return null;
    if (last.length > 1) return { text: `${copies.length} receptions`, isLost: false };
    const way = wayOf(before(last[0], copies).map((it) => nameOf(it, script)));
    if (isLost(last[0])) return { text: `${way}: lost, ${reasonOf(last[0]) || last[0].outcome}`, isLost: true };
    if (last[0].outcome !== "Forwarded") return { text: way, isLost: false };
    const to = leftFor(last[0], step, script);
    return to.isThere ? { text: `${way} → net ${to.network}`, isLost: false } : { text: `${way}: ${nobody(to)}`, isLost: true };
}

// Where a packet left that no router received: to its host, or to somebody who isn't there.
export function ends(step, script) {
    return sentOn(receptions(step.said)).map((it) => {
        const { network, node, isThere } = leftFor(it, step, script);
        return { router: it.router, network, host: `host ${network}.${node}`, isThere };
    });
}

// The routers at which a packet was dropped.
export const lostAt = (step) => [...new Set(receptions(step.said).filter(isLost).map((it) => it.router))];

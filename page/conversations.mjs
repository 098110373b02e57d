// Who spoke with whom, how often and how much.
import { EVERYONE } from "./bytes.mjs";

// As many are listed, those with most packets.
export const MOST = 200;

const partyOf = (address) => address.slice(0, address.lastIndexOf("."));

// The party that a node is for whom its network is known: a node says 0 as long as it doesn't know it, and has one network then.
function knownParties(found) {
    const networks = new Map();
    for (const { a, b } of found) {
        for (const [network, node] of [a, b].map((it) => it.split("."))) {
            if (!parseInt(network, 16)) continue;
            if (!networks.has(node)) networks.set(node, new Set());
            networks.get(node).add(network);
        }
    }
    return (party) => {
        const [network, node] = party.split(".");
        const known = networks.get(node);
        return !parseInt(network, 16) && node !== EVERYONE && known?.size === 1 ? `${[...known][0]}.${node}` : party;
    };
}

// Conversations of nodes that are known, those put together that are the same; `joined` are the parties that were also told without a
// network.
function together(all) {
    const known = knownParties(all);
    const found = new Map();
    for (const it of all) {
        const ends = [it.a, it.b].map(known);
        const joined = ends.filter((end, k) => end !== [it.a, it.b][k]);
        const isTurned = ends[0] > ends[1];
        const [a, b] = isTurned ? [ends[1], ends[0]] : ends;
        const one = found.get(`${a} ${b}`) ?? { a, b, packets: 0, bytes: 0, forth: 0, back: 0, joined: [] };
        found.set(`${a} ${b}`, one);
        one.packets += it.packets;
        one.bytes += it.bytes;
        one.forth += isTurned ? it.back : it.forth;
        one.back += isTurned ? it.forth : it.back;
        one.joined.push(...joined);
    }
    return [...found.values()];
}

// The conversations of some records, those with most packets first, and how many there are in all. `textOf` gives the text of a record by
// its number.
export function conversations(count, textOf) {
    const found = new Map();
    for (let k = 0; k < count; k++) {
        const text = textOf(k);
        const head = text.slice(0, text.indexOf("\n")).split(" ");
        if (head.length !== 11) continue;
        const [from, to] = [partyOf(head[3]), partyOf(head[4])];
        const [a, b] = from < to ? [from, to] : [to, from];
        const key = `${a} ${b}`;
        let it = found.get(key);
        if (!it) found.set(key, (it = { a, b, packets: 0, bytes: 0, forth: 0, back: 0 }));
        it.packets++;
        it.bytes += +head[10];
        it[from === a ? "forth" : "back"]++;
    }
    const all = together([...found.values()]).sort((one, other) => other.packets - one.packets);
    return { list: all.slice(0, MOST), count: all.length };
}

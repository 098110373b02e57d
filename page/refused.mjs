// What forms refuse because the program would refuse it, or because the map couldn't show it.
import { bytesTyped, digits, Wrong } from "./typed.mjs";
import { EVERYONE, padded, short } from "./bytes.mjs";
import { wrongLine } from "./wrong_line.mjs";

// What these say, which are no networks of a port.
const MEANINGS = { "00000000": "means an unknown network", FFFFFFFE: "means the default route", FFFFFFFF: "means all networks" };
const MOST_BYTES = 65535;
const NOBODY = "0".repeat(12);

// The network of a port.
export function portNetwork(field, typed) {
    const it = digits(field, typed, 4);
    if (MEANINGS[it]) throw new Wrong(field, `${short(it)} ${MEANINGS[it]}; a network is 1 to FFFFFFFD`);
    return it;
}

// The networks of a new router, with spaces or commas between.
export function portNetworks(field, typed) {
    const found = typed.split(/[\s,]+/).filter((it) => it).map((it) => portNetwork(field, it));
    const twice = found.find((it, k) => found.indexOf(it) < k);
    if (twice) throw new Wrong(field, `${short(twice)} stands there twice; a router has one port on each network`);
    return found;
}

// A network on which a router isn't yet.
export function unjoined(field, router, network) {
    const at = router.ports.findIndex((it) => padded(it.network, 8) === network);
    if (at >= 0) throw new Wrong(field, `port ${at} of this router is on network ${short(network)} already`);
    return network;
}

// The node of a new host on a network, which nobody has there.
export function hostNode(field, script, network, typed) {
    const it = digits(field, typed, 6);
    if (it === NOBODY || it === EVERYONE) throw new Wrong(field, "a host's node is 1 to FFFFFFFFFFFE");
    const isHere = (other) => other.network === network && padded(other.node, 12) === it;
    const router = script.routers.find(({ ports }) => ports.some(isHere));
    if (router) throw new Wrong(field, `port ${router.ports.findIndex(isHere)} of ${router.name} has this node`);
    if (script.hosts.some(isHere)) throw new Wrong(field, "a host there has this node already");
    return it;
}

// The bytes of a packet that arrives, as a script has them.
export function arriving(field, typed) {
    const it = bytesTyped(field, typed);
    if (it.length > 2 * MOST_BYTES) throw new Wrong(field, `at most ${MOST_BYTES} bytes`);
    return it || "-";
}

// Refuses lines of an act that would be wrong where they go: `count` lines that end with the line `last`, counted from 0.
export function seeLines(text, isInternet, last, count) {
    const found = wrongLine(new TextEncoder().encode(text), isInternet);
    const isOurs = found && found.line <= last + 1 && found.line > last + 1 - count;
    if (isOurs) throw new Wrong("", `the program would refuse ${found.text}`);
}

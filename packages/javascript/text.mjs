// Networks, nodes, sockets, addresses and places as text: "10.0200C0A80001.451" is socket 451 of node 0200C0A80001 on network 10, all of it
// hexadecimal, and "192.168.0.1:2130" is a place of UDP.
import { inside } from "./ipxr.mjs";

const [NODE, FOUR, BYTE, SHORT, LONG] = [6, 4, 0xff, 0xffff, 0xffffffff];
const HEX = /^[0-9a-f]+$/i;
const NODE_TEXT = /^[0-9a-f]{12}$|^[0-9a-f]{2}(?::[0-9a-f]{2}){5}$|^[0-9a-f]{2}(?:-[0-9a-f]{2}){5}$/i;
const PLACE_TEXT = /^(\d{1,3})\.(\d{1,3})\.(\d{1,3})\.(\d{1,3}):(\d{1,5})$/;

function hex(number, digits) {
    return number.toString(16).toUpperCase().padStart(digits, "0");
}

// A number, or its hexadecimal digits.
function numberOf(value, digits, most, what) {
    if (typeof value !== "string") return inside.whole(value, most, what);
    if (!HEX.test(value) || value.length > digits) throw new TypeError(`${what} isn't at most ${digits} hexadecimal digits`);
    return parseInt(value, 16);
}

/** The number of a network, which may be given as its hexadecimal digits. */
export function networkOf(value, what = "the network") {
    return numberOf(value, 8, LONG, what);
}

/** The number of a socket, alike. */
export function socketOf(value, what = "the socket") {
    return numberOf(value, 4, SHORT, what);
}

function sixOf(value, what) {
    const isList = Array.isArray(value) || (ArrayBuffer.isView(value) && value[Symbol.toStringTag] === "Uint8Array");
    if (!isList || value.length !== NODE) throw new TypeError(`${what} isn't six bytes`);
    return Uint8Array.from(value, (it) => inside.whole(it, BYTE, `a byte of ${what}`));
}

/** The six bytes of a node, which may be given as twelve hexadecimal digits, with a colon or a dash between each two or without. */
export function nodeOf(value, what = "the node") {
    if (typeof value !== "string") return sixOf(value, what);
    if (!NODE_TEXT.test(value)) throw new TypeError(`${what} isn't twelve hexadecimal digits`);
    return Uint8Array.from(value.replace(/[:-]/g, "").match(/../g), (it) => parseInt(it, 16));
}

/** The six bytes of a place, which may be given as an address of IPv4 with its port. */
export function placeOf(value, what = "the place") {
    if (typeof value !== "string") return sixOf(value, what);
    const numbers = (PLACE_TEXT.exec(value) ?? []).slice(1).map(Number);
    const [four, port] = [numbers.slice(0, FOUR), numbers[FOUR]];
    if (numbers.length === 0 || four.some((it) => it > BYTE) || port > SHORT)
        throw new TypeError(`${what} isn't an address of IPv4 with its port`);
    return Uint8Array.of(...four, port >> 8, port & BYTE);
}

/** An address: an object with its network, node and socket, or their texts with points between. */
export function addressOf(value, what = "the address") {
    const parts = typeof value === "string" ? value.split(".") : [];
    if (typeof value === "string" && parts.length !== 3) throw new TypeError(`${what} isn't NETWORK.NODE.SOCKET`);
    const { network, node, socket } = parts.length ? { network: parts[0], node: parts[1], socket: parts[2] } : inside.objectOf(value, what);
    return {
        network: networkOf(network, `the network of ${what}`),
        node: nodeOf(node, `the node of ${what}`),
        socket: socketOf(socket, `the socket of ${what}`),
    };
}

/** Eight hexadecimal digits. */
export const networkText = (network) => hex(networkOf(network), 8);

/** Four hexadecimal digits. */
export const socketText = (socket) => hex(socketOf(socket), 4);

/** Twelve hexadecimal digits. */
export const nodeText = (node) => Array.from(nodeOf(node), (it) => hex(it, 2)).join("");

/** As in "00000010.0200C0A80001.0451". A service, or whatever else has a network, a node and a socket, will do. */
export function addressText(address) {
    const { network, node, socket } = addressOf(address);
    return `${networkText(network)}.${nodeText(node)}.${socketText(socket)}`;
}

/** As in "192.168.0.1:2130". */
export function placeText(place) {
    const bytes = placeOf(place);
    return `${bytes.subarray(0, FOUR).join(".")}:${(bytes[FOUR] << 8) | bytes[FOUR + 1]}`;
}

// Packets for the tests, byte by byte as docs/PACKETS.md has them: highest byte first.
export const [HEADER, RIP, SAP, RIP_SOCKET, SAP_SOCKET] = [30, 1, 4, 0x0453, 0x0452];
export const EVERYONE = "FFFFFFFFFFFF";
const [REQUEST, RESPONSE, NAME] = [1, 2, 48];
// Of networks in a request: all. Of services in a query: of any type.
const [ALL_NETWORKS, ALL_TYPES] = [0xffffffff, 0xffff];

export function hex(bytes) {
    return Array.from(bytes, (it) => it.toString(16).toUpperCase().padStart(2, "0")).join("");
}

export function fromHex(text) {
    return Uint8Array.from(text.match(/../g) ?? [], (it) => parseInt(it, 16));
}

// A number in so many bytes.
export function number(value, bytes) {
    return value.toString(16).toUpperCase().padStart(2 * bytes, "0");
}

export function numberAt(bytes, at, count) {
    return parseInt(hex(bytes.subarray(at, at + count)), 16);
}

// An address: a network, a node in digits, a socket.
export function address(network, node, socket) {
    return number(network, 4) + node + number(socket, 2);
}

// A packet of a type with data in digits, from an address to an address.
export function packet(type, to, from, data = "") {
    return fromHex(`FFFF${number(HEADER + data.length / 2, 2)}00${number(type, 1)}${to}${from}${data}`);
}

// To all nodes of a network, from a node there, for a socket.
function toAll(type, network, node, socket, data) {
    return packet(type, address(network, EVERYONE, socket), address(network, node, socket), data);
}

// Routes, each a network with its hops and ticks, that a node of a network advertises.
export function routes(network, node, entries) {
    const data = entries.map(([far, hops, ticks]) => number(far, 4) + number(hops, 2) + number(ticks, 2));
    return toAll(RIP, network, node, RIP_SOCKET, number(RESPONSE, 2) + data.join(""));
}

export function routeRequest(network, node) {
    return toAll(RIP, network, node, RIP_SOCKET, number(REQUEST, 2) + number(ALL_NETWORKS, 4) + "FFFFFFFF");
}

// Services, each a type with its name, its address and its hops, that a node of a network advertises.
export function services(network, node, entries) {
    const data = entries.map(([type, name, at, hops]) => number(type, 2) + hex(Buffer.from(name.padEnd(NAME, "\0"), "latin1")) + at
        + number(hops, 2));
    return toAll(SAP, network, node, SAP_SOCKET, number(RESPONSE, 2) + data.join(""));
}

export function serviceQuery(network, node) {
    return toAll(SAP, network, node, SAP_SOCKET, number(REQUEST, 2) + number(ALL_TYPES, 2));
}

// The router and packets, as in ipxr.mjs, with addresses that may be texts; and packets that are read.
import * as core from "./ipxr.mjs";
import { addressOf, networkOf, nodeOf } from "./text.mjs";
import { ABSENT, textOf } from "./values.mjs";

const { inside } = core;
const [HEADER, ENTRY_OF_RIP, ENTRY_OF_SAP, NAME] = [30, 8, 64, 48];

const isObject = (it) => typeof it === "object" && it !== null;

// Items with what may be text in each; what is no item is refused by the router's own module.
function each(items, read) {
    if (!Array.isArray(items)) return items;
    return Array.from(items, (it, k) => (isObject(it) ? { ...it, ...read(it, k) } : it));
}

function portOf(port, k) {
    const { cost, longest } = ABSENT.ipxr_port;
    const [network, node] = [networkOf(port.network, `the network of port ${k}`), nodeOf(port.node, `the node of port ${k}`)];
    return { network, node, cost: port.cost ?? cost, longest: port.longest ?? longest };
}

const routeOf = (route, k) => ({ network: networkOf(route.network, `the network of route ${k}`) });
const serviceOf = (service, k) => addressOf(service.address ?? service, `the address of service ${k}`);

/** A router: that of ipxr.mjs, whose ports may have texts. */
export class Router extends core.Router {
    constructor(ports) {
        super(each(ports, portOf));
    }
}

/** Loads the library, once for all; without a source, libipxr.wasm from beside the module. */
export const load = (source) => core.Router.load(source);

export const writeRip = (from, to, operation, routes) => core.writeRip(addressOf(from), addressOf(to), operation, each(routes, routeOf));
export const writeQuery = (from, to, nearest, type) => core.writeQuery(addressOf(from), addressOf(to), nearest, type);
export const writeSap = (from, to, nearest, services) => core.writeSap(addressOf(from), addressOf(to), nearest, each(services, serviceOf));
export const writePacket = (from, to, type, control, data) => core.writePacket(addressOf(from), addressOf(to), type, control, data);
export const writeFrame = (kind, to, from, packet) => core.writeFrame(kind, nodeOf(to), nodeOf(from), packet);

// ---- Reading. The library reads packets only where it routes them: this is the package's own. ----

function viewOf(bytes, what) {
    const { buffer, byteOffset, length } = inside.bytesOf(bytes, what);
    return new DataView(buffer, byteOffset, length);
}

const addressAt = (view, bytes, at) =>
    ({ network: view.getUint32(at), node: bytes.slice(at + 4, at + 10), socket: view.getUint16(at + 10) });

/** What the header of a packet says, and its data; null where the bytes are no packet, by the header's length. Padding is cut off. */
export function readPacket(bytes) {
    const view = viewOf(bytes, "the packet");
    const length = bytes.length < HEADER ? 0 : view.getUint16(2);
    if (length < HEADER || length > bytes.length) return null;
    const [checksum, control, type] = [view.getUint16(0), bytes[4], bytes[5]];
    return { checksum, control, type, to: addressAt(view, bytes, 6), from: addressAt(view, bytes, 18), data: bytes.slice(HEADER, length) };
}

// The operation, and each entry that is whole.
function entriesOf(data, size, read) {
    const view = viewOf(data, "the data");
    if (data.length < 2) return null;
    const count = Math.floor((data.length - 2) / size);
    return [view.getUint16(0), Array.from({ length: count }, (_, k) => read(view, 2 + k * size))];
}

/** The operation and the routes of a packet of routing information, by its data; null where it has no operation. */
export function readRip(data) {
    const found = entriesOf(data, ENTRY_OF_RIP, (view, at) =>
        ({ network: view.getUint32(at), hops: view.getUint16(at + 4), ticks: view.getUint16(at + 6) }));
    return found && { operation: found[0], routes: found[1] };
}

/** The operation and the services of a packet of service advertising, by its data. A query has no services, and its type in `asked`. */
export function readSap(data) {
    const found = entriesOf(data, ENTRY_OF_SAP, (view, at) => {
        const name = textOf(data.subarray(at + 2, at + 2 + NAME));
        return { type: view.getUint16(at), name, ...addressAt(view, data, at + 50), hops: view.getUint16(at + 62) };
    });
    if (!found) return null;
    const [operation, services] = found;
    const isQuery = operation % 2 === 1 && data.length >= 4;
    return isQuery ? { operation, asked: viewOf(data).getUint16(2), services: [] } : { operation, services };
}

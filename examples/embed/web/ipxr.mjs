// An IPX router as a value, for pages and for Node, over libipxr.wasm, which is the library for C as WebAssembly.
//
//     import { Router, words } from "./ipxr.mjs";
//     await Router.load();
//     const router = new Router([
//         { network: 0x10, node: [0, 0, 0, 0, 0, 1], cost: 1, longest: 576 },
//         { network: 0x20, node: [0, 0, 0, 0, 0, 2], cost: 1, longest: 1500 },
//     ]);
//     const { outcome, sent } = router.start();
//     for (const { port, node, bytes } of sent) transmit(port, node, bytes);
//     router.free();
//
// The calls are those of ipxr.h, and so are the numbers below; ipxr.d.mts has the types. What isn't of its type is refused here by a
// TypeError. All else is judged by the library, whose faults are thrown as IpxrError.

/** What became of an event. */
export const Outcome = Object.freeze({
    STARTED: 0,
    ALREADY_RUNNING: 1,
    STOPPED: 2,
    TICKED: 3,
    LEARNED: 4,
    ANSWERED: 5,
    FORWARDED: 6,
    PROPAGATED: 7,
    WENT_DOWN: 8,
    CAME_UP: 9,
    ALREADY_DOWN: 10,
    ALREADY_UP: 11,
});

/** Why an event was dropped. */
export const Drop = Object.freeze({
    NOT_RUNNING: 100,
    MALFORMED_SHORT: 201,
    MALFORMED_LENGTH_SMALL: 202,
    MALFORMED_LENGTH_BEYOND: 203,
    OWN_ECHO: 300,
    BAD_SOURCE: 400,
    CROSSED_SHORT: 500,
    CROSSED_FULL: 600,
    CROSSED_SEEN: 700,
    ELSEWHERE: 800,
    OTHER_SOCKET: 900,
    NOT_NEIGHBOUR: 1000,
    BAD_RIP_SHORT: 1101,
    BAD_RIP_OPERATION: 1102,
    BAD_RIP_NO_ENTRY: 1103,
    BAD_RIP_TOO_MANY: 1104,
    BAD_SAP_SHORT: 1201,
    BAD_SAP_OPERATION: 1202,
    BAD_SAP_NO_ENTRY: 1203,
    BAD_SAP_TOO_MANY: 1204,
    NEAREST_REPLY: 1300,
    TOO_MANY_ROUTERS: 1400,
    FAR_SIDE: 1500,
    NO_ROUTE: 1600,
    TOO_LONG: 1700,
    DOWN_PORT: 1800,
});

/** What is thrown: the call did nothing. (NO_PACKET, NO_RECORD and SHORT_BUFFER don't come, since nothing here asks for them.) */
export const Fault = Object.freeze({
    NO_ROUTER: -1,
    NO_PORT: -2,
    NO_PACKET: -3,
    NO_RECORD: -4,
    SHORT_BUFFER: -5,
    OUT_OF_MEMORY: -6,
    BAD_LONGEST: -11,
    BAD_COST: -12,
    BAD_NETWORK: -13,
    BAD_NODE: -14,
    NO_PORTS: -15,
    MANY_PORTS: -16,
    SAME_NETWORK: -17,
    BAD_OPERATION: -21,
    NO_ENTRIES: -22,
    MANY_ENTRIES: -23,
    BAD_NAME: -24,
    LONG_PACKET: -25,
});

/** How a frame of Ethernet carries a packet. */
export const Frame = Object.freeze({ ETHERNET2: 1, RAW: 2, LLC: 3, SNAP: 4 });

/** What a packet of routing information does. */
export const Rip = Object.freeze({ REQUEST: 1, RESPONSE: 2 });

/** The sockets of routing information and of service advertising. */
export const RIP_SOCKET = 0x0453;
export const SAP_SOCKET = 0x0452;

/** How many routes, and how many services, one packet has at most. */
export const PACKET_ROUTES = 50;
export const PACKET_SERVICES = 7;

/** The shortest and the longest frame that is written, in bytes. */
export const SHORTEST_FRAME = 60;
export const LONGEST_FRAME = 1514;

/** The broadcast node. */
export const BROADCAST = Object.freeze([0xff, 0xff, 0xff, 0xff, 0xff, 0xff]);

/** A share of the tables that limits nothing. */
export const NO_LIMIT = 65535;

// The version of the interface that is needed here, 1.2: its major number times 65536, plus its minor number. A later minor one only adds.
const NEEDED = 65538;
const NEXT_MAJOR = 131072;

const NODE = 6;
const MOST_WORD = 32;
// No packet is longer. What comes behind so many bytes is padding, at which the router doesn't look.
const MOST_BYTES = 65535;

// The layout of the header's structs: each field's place, and the size of those that are handed over here.
const HANDLE_SIZE = 16;
const PORT = { network: 0, node: 4, cost: 10, longest: 12, routes: 14, services: 16, size: 20 };
const SENT = { length: 0, port: 8, node: 9 };
const ROUTE = { network: 0, hops: 4, ticks: 6, node: 8, port: 14, age: 15 };
const SERVICE = { name: 0, network: 48, node: 52, socket: 58, type: 60, hops: 62, neighbour: 64, port: 70, age: 71, size: 72 };
const ADDRESS = { network: 0, node: 4, socket: 10, size: 12 };
const ROUTE_ENTRY = { network: 0, hops: 4, ticks: 6, size: 8 };
// (its fields are the first of a service's)
const SERVICE_ENTRY = { ...SERVICE, size: 64 };
const NAME = SERVICE.network - SERVICE.name;

// Where it is said what block was allocated: whether there is one, and its address. The stack ends here, and no call reaches down so far.
const ALLOCATED = { at: 16, address: 24 };
const ALIGNMENT = 8n;

/** A fault: its number, and the header's words as message. */
export class IpxrError extends Error {
    constructor(number) {
        // (there are no words where there was no memory to load the library)
        super(library ? words(number) : `fault ${number}`);
        this.number = number;
    }
}
IpxrError.prototype.name = "IpxrError";

// The library in its memory, with room for what its calls take and give.
class Library {
    #bytes = new Uint8Array();
    #view;

    constructor(exports) {
        this.calls = exports;
        this.input = this.allocated(MOST_BYTES);
        this.output = this.allocated(MOST_BYTES);
        // (the longest of them)
        this.record = this.allocated(SERVICE.size);
        this.nodes = this.allocated(2 * NODE);
        this.to = BigInt(this.nodes);
        this.from = BigInt(this.nodes + NODE);
        this.ends = this.allocated(2 * ADDRESS.size);
        this.source = BigInt(this.ends);
        this.destination = BigInt(this.ends + ADDRESS.size);
        this.given = BigInt(this.input);
        this.taken = BigInt(this.output);
        this.told = BigInt(this.record);
        this.room = BigInt(MOST_BYTES);
    }

    // The memory. (One that grew has another buffer, and the old one has no bytes any more.)
    get bytes() {
        if (this.#bytes.length === 0) this.#look();
        return this.#bytes;
    }

    get view() {
        if (this.#bytes.length === 0) this.#look();
        return this.#view;
    }

    #look() {
        this.#bytes = new Uint8Array(this.calls.memory.buffer);
        this.#view = new DataView(this.calls.memory.buffer);
    }

    // The address of a block.
    allocated(size) {
        this.calls.rattle_alloc(BigInt(ALLOCATED.at), BigInt(size), ALIGNMENT);
        if (this.view.getUint32(ALLOCATED.at, true) === 0) throw new IpxrError(Fault.OUT_OF_MEMORY);
        return this.view.getUint32(ALLOCATED.address, true);
    }

    deallocate(address) {
        this.calls.rattle_dealloc(BigInt(address));
    }

    // Puts bytes where they are given to a call, and returns how many they are.
    give(bytes) {
        const given = bytes.length > MOST_BYTES ? bytes.subarray(0, MOST_BYTES) : bytes;
        this.bytes.set(given, this.input);
        return BigInt(given.length);
    }

    // A copy of what is there.
    copied(address, length) {
        return this.bytes.slice(address, address + length);
    }
}

let library;
let loading;

function loaded() {
    if (!library) throw new Error("the library isn't loaded: await Router.load() comes first, or load() of the package");
    return library;
}

// (a window in a page has a class of its own for the same)
function isBytes(value) {
    return ArrayBuffer.isView(value) && value[Symbol.toStringTag] === "Uint8Array";
}

// The bytes of a file by its path, or of what an address gives; a path is Node's alone.
async function fetched(source) {
    const isPath = typeof source === "string" && !/^[a-z][a-z0-9+.-]+:/i.test(source);
    if (globalThis.process?.versions?.node && (isPath || `${source}`.startsWith("file:"))) {
        // (bundlers for pages refuse this module where they see its name)
        const { readFile } = await import(/* webpackIgnore: true */ /* @vite-ignore */ ["node:fs", "promises"].join("/"));
        return readFile(isPath ? source : new URL(source));
    }
    return received(await fetch(source));
}

async function received(response) {
    if (!response.ok) throw new Error(`${response.url}: ${response.status} ${response.statusText}`);
    return response.arrayBuffer();
}

async function moduleOf(given) {
    const source = await given;
    if (source instanceof WebAssembly.Module) return source;
    if (source instanceof ArrayBuffer || isBytes(source)) return WebAssembly.compile(source);
    if (typeof source === "string" || source instanceof URL) return WebAssembly.compile(await fetched(source));
    if (typeof source?.arrayBuffer === "function") return WebAssembly.compile(await received(source));
    throw new TypeError("the library is loaded from bytes, an address, a path, a Response or a module");
}

async function instantiated(source) {
    const { exports } = await WebAssembly.instantiate(await moduleOf(source), {});
    const version = exports.ipxr_version?.() ?? 0;
    if (version < NEEDED || version >= NEXT_MAJOR) throw new Error(`the library is of version ${version}, and ${NEEDED} is needed`);
    return new Library(exports);
}

function whole(value, most, what) {
    if (!Number.isInteger(value) || value < 0 || value > most) throw new TypeError(`${what} isn't a whole number from 0 to ${most}`);
    return value;
}

// 1 or 0.
function flagOf(nearest) {
    if (typeof nearest !== "boolean") throw new TypeError("whether it is for the nearest isn't true or false");
    return Number(nearest);
}

function bytesOf(value, what) {
    if (!isBytes(value)) throw new TypeError(`${what} isn't a Uint8Array`);
    return value;
}

function nodeOf(value, what) {
    const isList = Array.isArray(value) || isBytes(value);
    if (!isList || value.length !== NODE) throw new TypeError(`${what} isn't six bytes`);
    return Array.from(value, (it) => whole(it, 0xff, `a byte of ${what}`));
}

// Items as they lie in memory, each of a size, one behind the other. (They are read before anything is called, since a getter may call.)
function packed(items, what, size, put) {
    if (!Array.isArray(items)) throw new TypeError(`the ${what}s aren't an array`);
    const bytes = new Uint8Array(size * items.length);
    for (const [k, item] of items.entries()) put(new Place(bytes, size * k, `of ${what} ${k}`), objectOf(item, `${what} ${k}`));
    return bytes;
}

function objectOf(value, what) {
    if (typeof value !== "object" || value === null) throw new TypeError(`${what} isn't an object`);
    return value;
}

// Where a struct's fields are put; each is named in a fault by what it is of.
class Place {
    constructor(bytes, at, of) {
        Object.assign(this, { bytes, at, of, view: new DataView(bytes.buffer) });
    }

    put16(at, value, what) {
        this.view.setUint16(this.at + at, whole(value, 0xffff, `the ${what} ${this.of}`), true);
    }
    put32(at, value, what) {
        this.view.setUint32(this.at + at, whole(value, 0xffffffff, `the ${what} ${this.of}`), true);
    }

    putNode(at, value) {
        this.bytes.set(nodeOf(value, `the node ${this.of}`), this.at + at);
    }

    // A text with a character for each byte. (One that is too long fills the field, so that no 0 is behind it: the library refuses it.)
    putName(at, value) {
        if (typeof value !== "string" || /[^\x01-\xff]/.test(value)) throw new TypeError(`the name ${this.of} isn't a text of bytes but 0`);
        this.bytes.set(Array.from(value.slice(0, NAME), (it) => it.charCodeAt(0)), this.at + at);
    }
}

function putPort(place, port) {
    place.put32(PORT.network, port.network, "network");
    place.putNode(PORT.node, port.node);
    place.put16(PORT.cost, port.cost, "cost");
    place.put16(PORT.longest, port.longest, "longest packet");
    place.put16(PORT.routes, port.routes ?? NO_LIMIT, "routes");
    place.put16(PORT.services, port.services ?? NO_LIMIT, "services");
}

// Of an address, and of a service, which is offered at one.
function putAddress(place, layout, { network, node, socket }) {
    place.put32(layout.network, network, "network");
    place.putNode(layout.node, node);
    place.put16(layout.socket, socket, "socket");
}

function putRoute(place, route) {
    place.put32(ROUTE_ENTRY.network, route.network, "network");
    place.put16(ROUTE_ENTRY.hops, route.hops, "hops");
    place.put16(ROUTE_ENTRY.ticks, route.ticks, "ticks");
}

function putService(place, service) {
    place.putName(SERVICE_ENTRY.name, service.name);
    putAddress(place, SERVICE_ENTRY, service);
    place.put16(SERVICE_ENTRY.type, service.type, "type");
    place.put16(SERVICE_ENTRY.hops, service.hops, "hops");
}

// An answer that is no fault.
function judged(answer) {
    if (answer < 0) throw new IpxrError(answer);
    return answer;
}

/** What the other modules of the package for JavaScript take from this one; it is no word for programs. */
export const inside = Object.freeze({ loaded, whole, bytesOf, objectOf, judged });

// A block with these bytes.
function blockOf(bytes) {
    const at = library.allocated(bytes.length);
    library.bytes.set(bytes, at);
    return at;
}

// The address of a handle with a router of these ports.
function made(ports) {
    const given = blockOf(ports);
    try {
        const handle = blockOf(new Uint8Array(HANDLE_SIZE));
        const answer = library.calls.ipxr_make(BigInt(handle), BigInt(given), BigInt(ports.length / PORT.size));
        if (answer < 0) library.deallocate(handle);
        judged(answer);
        return handle;
    } finally {
        library.deallocate(given);
    }
}

function release(handle) {
    library.calls.ipxr_free(BigInt(handle));
    library.deallocate(handle);
}

// Routers that nobody knows any more.
const forgotten = new FinalizationRegistry(release);

/** A router. Each event returns what became of it, and the packets that are to be sent. */
export class Router {
    // The address of its handle, or nothing once it is freed.
    #handle;

    /** Loads the library, once for all routers; where that failed, it can be asked again. */
    static async load(source = new URL("libipxr.wasm", import.meta.url)) {
        loading ??= instantiated(source).then(
            (it) => void (library = it),
            (why) => {
                loading = undefined;
                throw why;
            },
        );
        return loading;
    }

    constructor(ports) {
        loaded();
        const handle = made(packed(ports, "port", PORT.size, putPort));
        this.#handle = BigInt(handle);
        forgotten.register(this, handle, this);
    }

    /** Gives its memory back. A second time nothing is done; all other calls throw NO_ROUTER from now on. */
    free() {
        if (this.#handle === undefined) return;
        forgotten.unregister(this);
        release(Number(this.#handle));
        this.#handle = undefined;
    }

    start() {
        return this.#happened(library.calls.ipxr_start(this.#there()));
    }

    stop() {
        return this.#happened(library.calls.ipxr_stop(this.#there()));
    }

    second() {
        return this.#happened(library.calls.ipxr_second(this.#there()));
    }

    packet(port, bytes) {
        const handle = this.#there();
        whole(port, 0xff, "the port");
        const length = library.give(bytesOf(bytes, "the packet"));
        return this.#happened(library.calls.ipxr_packet(handle, port, library.given, length));
    }

    portDown(port) {
        return this.#happened(library.calls.ipxr_port_down(this.#there(), whole(port, 0xff, "the port")));
    }

    portUp(port) {
        return this.#happened(library.calls.ipxr_port_up(this.#there(), whole(port, 0xff, "the port")));
    }

    isRunning() {
        return judged(library.calls.ipxr_is_running(this.#there())) === 1;
    }

    isUp(port) {
        return judged(library.calls.ipxr_is_up(this.#there(), whole(port, 0xff, "the port"))) === 1;
    }

    routes() {
        return this.#records(library.calls.ipxr_routes, library.calls.ipxr_route, routeAt);
    }

    services() {
        return this.#records(library.calls.ipxr_services, library.calls.ipxr_service, serviceAt);
    }

    #there() {
        if (this.#handle === undefined) throw new IpxrError(Fault.NO_ROUTER);
        return this.#handle;
    }

    // What became of an event, with the packets that it sent, which are then taken out.
    #happened(outcome) {
        judged(outcome);
        const { calls } = library;
        const count = Number(calls.ipxr_sent(this.#handle));
        const sent = [];
        for (let k = 0; k < count; k++) sent.push(this.#packet(k));
        if (count > 0) calls.ipxr_clear(this.#handle);
        return { outcome, sent };
    }

    #packet(index) {
        const { view, record } = library;
        judged(library.calls.ipxr_get(this.#handle, BigInt(index), library.told, library.taken, library.room));
        const node = library.copied(record + SENT.node, NODE);
        const bytes = library.copied(library.output, view.getUint32(record + SENT.length, true));
        return { port: view.getUint8(record + SENT.port), node, bytes };
    }

    #records(count, call, read) {
        const handle = this.#there();
        const { view, record, told } = library;
        return Array.from({ length: Number(count(handle)) }, (_, k) => {
            judged(call(handle, BigInt(k), told));
            return read(view, record);
        });
    }
}
if (Symbol.dispose) Router.prototype[Symbol.dispose] = Router.prototype.free;

function routeAt(view, at) {
    return {
        network: view.getUint32(at + ROUTE.network, true),
        hops: view.getUint16(at + ROUTE.hops, true),
        ticks: view.getUint16(at + ROUTE.ticks, true),
        node: library.copied(at + ROUTE.node, NODE),
        port: view.getUint8(at + ROUTE.port),
        age: view.getUint8(at + ROUTE.age),
    };
}

function serviceAt(view, at) {
    return {
        name: textAt(at + SERVICE.name, SERVICE.network - SERVICE.name),
        network: view.getUint32(at + SERVICE.network, true),
        node: library.copied(at + SERVICE.node, NODE),
        socket: view.getUint16(at + SERVICE.socket, true),
        type: view.getUint16(at + SERVICE.type, true),
        hops: view.getUint16(at + SERVICE.hops, true),
        neighbour: library.copied(at + SERVICE.neighbour, NODE),
        port: view.getUint8(at + SERVICE.port),
        age: view.getUint8(at + SERVICE.age),
    };
}

// The bytes before a 0, each as the character of its number.
function textAt(at, most) {
    const bytes = library.bytes.subarray(at, at + most);
    const end = bytes.indexOf(0);
    return String.fromCharCode(...(end < 0 ? bytes : bytes.subarray(0, end)));
}

/** The words of an outcome, a drop or a fault; of any other number none. */
export function words(answer) {
    const { calls, taken, output } = loaded();
    if (!Number.isInteger(answer) || answer !== (answer | 0)) throw new TypeError("the answer isn't a whole number of 32 bits");
    const length = Number(calls.ipxr_word(answer, taken, BigInt(MOST_WORD)));
    return length === 0 ? "" : textAt(output, length);
}

/** Whether an outcome is a drop: nothing was done, and nothing is sent. */
export function isDrop(outcome) {
    return outcome >= Drop.NOT_RUNNING;
}

/** The version of the library's interface: its major number times 65536, plus its minor number. */
export function version() {
    return loaded().calls.ipxr_version();
}

/** How a frame carries a packet, and the packet with what comes behind it, within the same buffer; null where it carries none. */
export function readFrame(frame) {
    const { calls, given, told } = loaded();
    const kind = calls.ipxr_frame_read(given, library.give(bytesOf(frame, "the frame")), told);
    return kind === 0 ? null : { kind, packet: frame.subarray(library.view.getUint32(library.record, true)) };
}

/** The frame in which a packet is sent to a node from a node; null where a frame of that kind can't carry it. */
export function writeFrame(kind, to, from, packet) {
    const { calls, given, taken, nodes } = loaded();
    whole(kind, 0xff, "the kind");
    const ends = [...nodeOf(to, "the destination"), ...nodeOf(from, "the source")];
    const length = library.give(bytesOf(packet, "the packet"));
    library.bytes.set(ends, nodes);
    const written = Number(calls.ipxr_frame_write(kind, library.to, library.from, given, length, taken, library.room));
    return written === 0 ? null : library.copied(library.output, written);
}

// The packet that a call writes, from an address to an address, where it is given bytes.
function written(from, to, given, call) {
    const ends = new Uint8Array(2 * ADDRESS.size);
    putAddress(new Place(ends, 0, "of the source"), ADDRESS, objectOf(from, "the source"));
    putAddress(new Place(ends, ADDRESS.size, "of the destination"), ADDRESS, objectOf(to, "the destination"));
    const length = library.give(given);
    library.bytes.set(ends, library.ends);
    return library.copied(library.output, judged(call(library, length)));
}

/** A request or a response of routing information, of 1 to PACKET_ROUTES routes. */
export function writeRip(from, to, operation, routes) {
    const { calls } = loaded();
    whole(operation, 0xffff, "the operation");
    const entries = packed(routes, "route", ROUTE_ENTRY.size, putRoute);
    return written(from, to, entries, ({ source, destination, given, taken, room }, length) =>
        calls.ipxr_write_rip(source, destination, operation, given, length / BigInt(ROUTE_ENTRY.size), taken, room));
}

/** A query for the services of a type, FFFFh for every type: for all of them, or for the nearest one. */
export function writeQuery(from, to, nearest, type) {
    const { calls } = loaded();
    const isNearest = flagOf(nearest);
    whole(type, 0xffff, "the type");
    return written(from, to, new Uint8Array(), ({ source, destination, taken, room }) =>
        calls.ipxr_write_query(source, destination, isNearest, type, taken, room));
}

/** A response of 1 to PACKET_SERVICES services, general or to a query for the nearest one. */
export function writeSap(from, to, nearest, services) {
    const { calls } = loaded();
    const isNearest = flagOf(nearest);
    const entries = packed(services, "service", SERVICE_ENTRY.size, putService);
    return written(from, to, entries, ({ source, destination, given, taken, room }, length) =>
        calls.ipxr_write_sap(source, destination, isNearest, given, length / BigInt(SERVICE_ENTRY.size), taken, room));
}

/** A packet of any type and data. Of type 20 the data begin with 32 bytes for the networks crossed, of which `control` are told. */
export function writePacket(from, to, type, control, data) {
    const { calls } = loaded();
    whole(type, 0xff, "the type");
    whole(control, 0xff, "the transport control");
    return written(from, to, bytesOf(data, "the data"), ({ source, destination, given, taken, room }, length) =>
        calls.ipxr_write_packet(source, destination, type, control, given, length, taken, room));
}

/* The types of ipxr.mjs, for TypeScript. */

/** What became of an event. */
export const Outcome: {
    readonly STARTED: 0;
    readonly ALREADY_RUNNING: 1;
    readonly STOPPED: 2;
    readonly TICKED: 3;
    readonly LEARNED: 4;
    readonly ANSWERED: 5;
    readonly FORWARDED: 6;
    readonly PROPAGATED: 7;
    readonly WENT_DOWN: 8;
    readonly CAME_UP: 9;
    readonly ALREADY_DOWN: 10;
    readonly ALREADY_UP: 11;
};
export type Outcome = (typeof Outcome)[keyof typeof Outcome];

/** Why an event was dropped. */
export const Drop: {
    readonly NOT_RUNNING: 100;
    readonly MALFORMED_SHORT: 201;
    readonly MALFORMED_LENGTH_SMALL: 202;
    readonly MALFORMED_LENGTH_BEYOND: 203;
    readonly OWN_ECHO: 300;
    readonly BAD_SOURCE: 400;
    readonly CROSSED_SHORT: 500;
    readonly CROSSED_FULL: 600;
    readonly CROSSED_SEEN: 700;
    readonly ELSEWHERE: 800;
    readonly OTHER_SOCKET: 900;
    readonly NOT_NEIGHBOUR: 1000;
    readonly BAD_RIP_SHORT: 1101;
    readonly BAD_RIP_OPERATION: 1102;
    readonly BAD_RIP_NO_ENTRY: 1103;
    readonly BAD_RIP_TOO_MANY: 1104;
    readonly BAD_SAP_SHORT: 1201;
    readonly BAD_SAP_OPERATION: 1202;
    readonly BAD_SAP_NO_ENTRY: 1203;
    readonly BAD_SAP_TOO_MANY: 1204;
    readonly NEAREST_REPLY: 1300;
    readonly TOO_MANY_ROUTERS: 1400;
    readonly FAR_SIDE: 1500;
    readonly NO_ROUTE: 1600;
    readonly TOO_LONG: 1700;
    readonly DOWN_PORT: 1800;
};
export type Drop = (typeof Drop)[keyof typeof Drop];

/** What is thrown: the call did nothing. */
export const Fault: {
    readonly NO_ROUTER: -1;
    readonly NO_PORT: -2;
    readonly NO_PACKET: -3;
    readonly NO_RECORD: -4;
    readonly SHORT_BUFFER: -5;
    readonly OUT_OF_MEMORY: -6;
    readonly BAD_LONGEST: -11;
    readonly BAD_COST: -12;
    readonly BAD_NETWORK: -13;
    readonly BAD_NODE: -14;
    readonly NO_PORTS: -15;
    readonly MANY_PORTS: -16;
    readonly SAME_NETWORK: -17;
    readonly BAD_OPERATION: -21;
    readonly NO_ENTRIES: -22;
    readonly MANY_ENTRIES: -23;
    readonly BAD_NAME: -24;
    readonly LONG_PACKET: -25;
};
export type Fault = (typeof Fault)[keyof typeof Fault];

/** How a frame of Ethernet carries a packet. */
export const Frame: {
    readonly ETHERNET2: 1;
    readonly RAW: 2;
    readonly LLC: 3;
    readonly SNAP: 4;
};
export type Frame = (typeof Frame)[keyof typeof Frame];

/** What a packet of routing information does. */
export const Rip: {
    readonly REQUEST: 1;
    readonly RESPONSE: 2;
};
export type Rip = (typeof Rip)[keyof typeof Rip];

export const RIP_SOCKET: 0x0453;
export const SAP_SOCKET: 0x0452;
/** How many routes, and how many services, one packet has at most. */
export const PACKET_ROUTES: 50;
export const PACKET_SERVICES: 7;

export const SHORTEST_FRAME: 60;
export const LONGEST_FRAME: 1514;
export const BROADCAST: readonly number[];
export const NO_LIMIT: 65535;

/** Six bytes. */
export type NodeBytes = Uint8Array | readonly number[];

/** A port of a router. */
export interface Port {
    /** The number of its network: not 0, not FFFFFFFEh, not FFFFFFFFh. */
    readonly network: number;
    /** Its node there: not the broadcast. */
    readonly node: NodeBytes;
    /** Ticks (eighteenths of a second) that a packet takes to cross the network: at least 1. */
    readonly cost: number;
    /** Bytes of the longest packet that may leave there, its 30 header bytes included: at least 576. */
    readonly longest: number;
    /** How many routes may have come by it; any number where nothing is said. 0 learns none. */
    readonly routes?: number;
    /** How many services may have come by it, alike. */
    readonly services?: number;
}

/** A packet that is to be sent. */
export interface Packet {
    /** The number of the port on which it leaves, from 0. */
    port: number;
    /** The node of the next hop on that port's network, or the broadcast. */
    node: Uint8Array;
    bytes: Uint8Array;
}

/** What an event did. */
export interface Happened {
    /** What became of the event, or why it was dropped; `words` has the words. */
    outcome: Outcome | Drop;
    /** What is to be sent, in this order. */
    sent: Packet[];
}

/** A route that was learned. */
export interface Route {
    /** Where it leads. */
    network: number;
    /** Routers on the way, as the neighbour advertised it: under 16. */
    hops: number;
    /** Ticks for the way, alike. */
    ticks: number;
    /** The neighbour that advertised it. */
    node: Uint8Array;
    /** The port by which it came. */
    port: number;
    /** Seconds since it was advertised last: under 180. */
    age: number;
}

/** A service that was learned. */
export interface Service {
    /** Its name: each byte is the character of that number. */
    name: string;
    /** Where it is offered: network, node and socket. */
    network: number;
    node: Uint8Array;
    socket: number;
    /** Its type, such as 4 for a file server. */
    type: number;
    /** Routers on the way, as the neighbour advertised it: under 16. */
    hops: number;
    /** The neighbour that advertised it. */
    neighbour: Uint8Array;
    /** The port by which it came. */
    port: number;
    /** Seconds since it was advertised last: under 180. */
    age: number;
}

/** An address of a packet that is written: a socket on a node of a network. */
export interface Address {
    /** 0 is the network at hand. */
    readonly network: number;
    /** The broadcast too. */
    readonly node: NodeBytes;
    readonly socket: number;
}

/** A route of a packet that is written. */
export interface RouteEntry {
    /** Where it leads; in a request FFFFFFFFh asks for all. */
    readonly network: number;
    /** Routers on the way: 16 where it is unreachable; in a request FFFFh. */
    readonly hops: number;
    /** Ticks for the way; in a request FFFFh. */
    readonly ticks: number;
}

/** A service of a packet that is written: one that was learned will do. */
export interface ServiceEntry extends Address {
    /** Its name, 1 to 47 bytes: the character of each byte's number. */
    readonly name: string;
    /** Its type, such as 4 for a file server. */
    readonly type: number;
    /** Routers on the way: 16 where it is unreachable. */
    readonly hops: number;
}

/** A fault: its number, and the header's words as message. */
export class IpxrError extends Error {
    constructor(number: Fault);
    readonly number: Fault;
}

/** Where the library comes from: bytes, an address, in Node a path, a Response, a compiled module, or a promise of one of these. */
export type Source = Uint8Array | ArrayBuffer | string | URL | Response | WebAssembly.Module;

/** A router. Events and questions throw IpxrError for a fault, and TypeError for what isn't of its type. */
export class Router {
    /** Loads the library, once for all routers; without a source, libipxr.wasm from beside the module. */
    static load(source?: Source | PromiseLike<Source>): Promise<void>;
    /** Makes a router of these ports, which are numbered from 0. It is stopped, and its tables are empty. */
    constructor(ports: readonly Port[]);
    /** Gives its memory back. A second time nothing is done. */
    free(): void;
    /** Starts it: STARTED or ALREADY_RUNNING. All ports are up. */
    start(): Happened;
    /** Stops it: STOPPED or NOT_RUNNING. What it learned is forgotten, and advertised as unreachable. */
    stop(): Happened;
    /** A second has passed: TICKED or NOT_RUNNING. */
    second(): Happened;
    /** A packet came in on a port: the IPX packet from its checksum on, any bytes at all. They are only read. */
    packet(port: number, bytes: Uint8Array): Happened;
    /** A port lost its link: WENT_DOWN, ALREADY_DOWN or NOT_RUNNING. */
    portDown(port: number): Happened;
    /** A port has its link again: CAME_UP, ALREADY_UP or NOT_RUNNING. */
    portUp(port: number): Happened;
    isRunning(): boolean;
    /** Whether the router runs and the port is up. */
    isUp(port: number): boolean;
    /** What it knows, by network. */
    routes(): Route[];
    /** What it knows, by type and name. */
    services(): Service[];
}

/** The words of an outcome, a drop or a fault; of any other number "". */
export function words(answer: number): string;

/** Whether an outcome is a drop: nothing was done, and nothing is sent. */
export function isDrop(outcome: Outcome | Drop): outcome is Drop;

/** The version of the library's interface: its major number times 65536, plus its minor number. */
export function version(): number;

/** How a frame carries a packet, and the packet with what comes behind it, within the same buffer; null where it carries none. */
export function readFrame(frame: Uint8Array): { kind: Frame; packet: Uint8Array } | null;

/** The frame in which a packet is sent to a node from a node; null where a frame of that kind can't carry it. */
export function writeFrame(kind: Frame, to: NodeBytes, from: NodeBytes, packet: Uint8Array): Uint8Array | null;

/** A request or a response of routing information, of 1 to PACKET_ROUTES routes. */
export function writeRip(from: Address, to: Address, operation: Rip, routes: readonly RouteEntry[]): Uint8Array;

/** A query for the services of a type, FFFFh for every type: for all of them, or for the nearest one. */
export function writeQuery(from: Address, to: Address, nearest: boolean, type: number): Uint8Array;

/** A response of 1 to PACKET_SERVICES services, general or to a query for the nearest one. */
export function writeSap(from: Address, to: Address, nearest: boolean, services: readonly ServiceEntry[]): Uint8Array;

/**
 * A packet of any type and data. `control` is how many routers it came through. Of type 20, NetBIOS, the data begin with 32 bytes for the
 * networks crossed, of which the first `control` tell one each.
 */
export function writePacket(from: Address, to: Address, type: number, control: number, data: Uint8Array): Uint8Array;

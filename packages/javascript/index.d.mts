/* The types of the package. The calls are those of the library's headers, which say more of each. Times are nanoseconds. */
import type { Drop, Fate, Fault, Frame, LimitsLink, LineRank, LinkKind, Lost, Names, Next, PacketKind, Probe, Rip, RuleOf, Said, TunnelFate,
    Verdict, Way } from "./numbers.mjs";
import type { Happened, Packet, Route, Service, Source } from "./ipxr.mjs";

export { BROADCAST, isDrop, readFrame, version, words } from "./ipxr.mjs";
export type { Happened, Packet, Route, Service, Source } from "./ipxr.mjs";
export * from "./numbers.mjs";

/** A fault: the call did nothing. Its number, and the header's words as message. */
export class IpxrError extends Error {
    constructor(number: Fault);
    readonly number: Fault;
}

// ---- Texts ----

/** Six bytes, or twelve hexadecimal digits, with a colon or a dash between each two or without. */
export type NodeLike = Uint8Array | readonly number[] | string;
/** Six bytes, or an address of IPv4 with its port: "192.168.0.1:2130". */
export type PlaceLike = Uint8Array | readonly number[] | string;
/** A number, or its hexadecimal digits. */
export type NumberLike = number | string;
/** Nanoseconds, or another number of 64 bits. */
export type Time = bigint | number;

export interface Address {
    network: number;
    node: Uint8Array;
    socket: number;
}
/** An address, or its text: "10.0200C0A80001.451". */
export type AddressLike = string | { readonly network: NumberLike; readonly node: NodeLike; readonly socket: NumberLike };

export function networkOf(value: NumberLike, what?: string): number;
export function socketOf(value: NumberLike, what?: string): number;
export function nodeOf(value: NodeLike, what?: string): Uint8Array;
export function placeOf(value: PlaceLike, what?: string): Uint8Array;
export function addressOf(value: AddressLike, what?: string): Address;
export function networkText(network: NumberLike): string;
export function socketText(socket: NumberLike): string;
export function nodeText(node: NodeLike): string;
export function placeText(place: PlaceLike): string;
export function addressText(address: AddressLike): string;

// ---- The router, packets and frames ----

/** Loads the library, once for all; without a source, libipxr.wasm from beside the module. */
export function load(source?: Source | PromiseLike<Source>): Promise<void>;

/** A port of a router. */
export interface Port {
    readonly network: NumberLike;
    readonly node: NodeLike;
    /** Ticks that a packet takes to cross the network: at least 1, which it is where nothing is said. */
    readonly cost?: number;
    /** Bytes of the longest packet that may leave there: at least 576, which it is where nothing is said. */
    readonly longest?: number;
    /** How many routes and services may have come by it; any number where nothing is said. */
    readonly routes?: number;
    readonly services?: number;
}
/** A route of a packet. In a request FFFFFFFFh asks for all, and hops and ticks are FFFFh. */
export interface RouteEntry {
    readonly network: NumberLike;
    readonly hops: number;
    readonly ticks: number;
}
/** A service of a packet: its name of 1 to 47 characters, where it is offered, its type, and routers on the way: 1 of a server's own. */
export type ServiceEntry = { readonly name: string; readonly type: number; readonly hops: number } & (
    | { readonly address: AddressLike }
    | { readonly network: NumberLike; readonly node: NodeLike; readonly socket: NumberLike }
);

/** A router: events come in, packets to be sent come out. */
export class Router {
    static load(source?: Source | PromiseLike<Source>): Promise<void>;
    constructor(ports: readonly Port[]);
    free(): void;
    start(): Happened;
    stop(): Happened;
    second(): Happened;
    packet(port: number, bytes: Uint8Array): Happened;
    portDown(port: number): Happened;
    portUp(port: number): Happened;
    isRunning(): boolean;
    isUp(port: number): boolean;
    routes(): Route[];
    services(): Service[];
}

export function writeRip(from: AddressLike, to: AddressLike, operation: Rip, routes: readonly RouteEntry[]): Uint8Array;
export function writeQuery(from: AddressLike, to: AddressLike, nearest: boolean, type: number): Uint8Array;
export function writeSap(from: AddressLike, to: AddressLike, nearest: boolean, services: readonly ServiceEntry[]): Uint8Array;
export function writePacket(from: AddressLike, to: AddressLike, type: number, control: number, data: Uint8Array): Uint8Array;
export function writeFrame(kind: Frame, to: NodeLike, from: NodeLike, packet: Uint8Array): Uint8Array | null;

/** What the header of a packet says, and its data. This is the package's own, as are readRip and readSap. */
export function readPacket(bytes: Uint8Array):
    { checksum: number; control: number; type: number; to: Address; from: Address; data: Uint8Array } | null;
export function readRip(data: Uint8Array): { operation: number; routes: { network: number; hops: number; ticks: number }[] } | null;
export function readSap(data: Uint8Array):
    { operation: number; asked?: number; services: ({ name: string; type: number; hops: number } & Address)[] } | null;

// ---- Tunnels ----

/** Where a datagram came from, and its cookies; Keys makes it. */
export interface Sender {
    readonly place: PlaceLike;
    readonly current: NodeLike;
    readonly previous: NodeLike;
    readonly isTrusted?: boolean;
}
export interface KeyedSender extends Sender {
    readonly node: NodeLike;
    readonly former: NodeLike;
    readonly mayRegister?: boolean;
}

/** The keys of a server of a tunnel: cookies and nodes that nobody can guess. */
export class Keys {
    /** Give sixteen secret bytes that you keep, and clients find their nodes again after a restart. */
    constructor(key?: Uint8Array);
    cookie(place: PlaceLike, minute: number): Uint8Array;
    node(place: PlaceLike): Uint8Array;
    /** What Tunnel.hear takes, in a second of any clock that goes on: Date.now() / 1000 will do. */
    sender(place: PlaceLike, seconds: number, how?: { isTrusted?: boolean }): Sender;
    keyedSender(place: PlaceLike, seconds: number, how?: { isTrusted?: boolean; mayRegister?: boolean; former?: NodeLike }): KeyedSender;
}
/** SipHash-2-4 of words of 64 bits, by a key of two. */
export function hashOf(words: readonly bigint[], key: readonly [bigint, bigint]): bigint;

/** A datagram of the tunnel's own, an answer or a ping. */
export interface Own {
    place: Uint8Array;
    bytes: Uint8Array;
}
export interface Client {
    place: Uint8Array;
    secondsLeft: number;
}
export interface Member extends Client {
    node: Uint8Array;
}
/** What came of a datagram: send `owns` first, then the packet to each receiver, and give it to the router if that hears it. */
export interface Heard {
    said: Said;
    owns: Own[];
    receivers: Uint8Array[];
    packet: Uint8Array;
    isHeard: boolean;
}

/** What lies in the library's memory: `free` gives it back, or the engine does, when it collects it. `address` is for raw calls. */
declare class Held {
    readonly address: number;
    free(): void;
}

/** A tunnel whose clients' nodes are their places. */
export class Tunnel extends Held {
    /** Where nothing is said it takes 64 clients, 16 of an address. */
    constructor(setting: { network: NumberLike; node: NodeLike; capacity?: number; share?: number });
    hear(sender: Sender, bytes: Uint8Array): Heard;
    second(): { owns: Own[]; leavers: Uint8Array[] };
    send(node: NodeLike): Uint8Array[];
    clients(): Client[];
}
/** A tunnel whose clients have the nodes that you make for their places. */
export class KeyedTunnel extends Held {
    /** Where nothing is said it takes 64 clients, 16 of an address, and remembers 1,024 registrations, 64 of an address. */
    constructor(setting:
        { network: NumberLike; node: NodeLike; capacity?: number; share?: number; remembered?: number; rememberedShare?: number });
    hear(sender: KeyedSender, bytes: Uint8Array): Heard;
    second(): { owns: Own[]; pings: number; leavers: Member[] };
    send(node: NodeLike): Uint8Array[];
    clients(): Member[];
    waiters(): Member[];
}
/** The copy of a broadcast for another network, if it is copied there for one of these sockets. */
export function extend(network: NumberLike, sockets: readonly NumberLike[], to: NumberLike, packet: Uint8Array): Uint8Array | null;

// ---- One network over several links ----

export interface Link {
    kind: LinkKind;
    share: number;
}
export interface Station {
    node: Uint8Array;
    link: number;
    isSure: boolean;
    secondsLeft: number;
}
export class Segment extends Held {
    /** Where nothing is said it knows 1,024 stations. */
    constructor(setting: { network: NumberLike; node: NodeLike; links: number; capacity?: number });
    change(link: number, to: Link): void;
    hear(link: number, source: NodeLike, destination: NodeLike): { isHeard: boolean; receivers: number[] };
    come(link: number, node: NodeLike): void;
    leave(link: number, node: NodeLike): void;
    second(): void;
    send(node: NodeLike): number[];
    stations(): Station[];
    link(link: number): Link;
    nextNode(destination: AddressLike): Uint8Array;
}

// ---- Fair shares and limits ----

export interface FairSetting {
    one: Time;
    own: Time;
    reserve: Time;
    room: Time;
}
/** Somebody who reads, with a queue for each speaker. */
export class Fair extends Held {
    constructor(setting?: FairSetting);
    look(now: Time): void;
    pass(nanoseconds: Time): void;
    says(speaker: number, weight: Time): boolean;
    bothHear(other: Fair, speaker: number, weight: Time, otherWeight: Time): boolean;
    state(): { setting: FairSetting; left: bigint; served: bigint; latest: bigint; spare: bigint; waits: bigint; total: bigint;
        ends: bigint[] };
}
/** A limit for one speaker. */
export class Meter extends Held {
    constructor();
    pass(nanoseconds: Time): void;
    lets(burst: Time, weight: Time): boolean;
    bothLet(burst: Time, weight: Time, other: Meter, otherBurst: Time, otherWeight: Time): boolean;
    readonly used: bigint;
}
export class Reader extends Held {
    private readonly waits: unknown;
    constructor(limits: Limits);
    look(now: Time): void;
}
export class ClientUse extends Held {
    private readonly usedByClient: unknown;
    constructor();
    look(now: Time): void;
}
export class AddressUse extends Held {
    private readonly usedByAddress: unknown;
    constructor();
    look(now: Time): void;
}
export interface Limit {
    each: Time;
    burst: Time;
}
export interface Reading {
    packet: Time;
    piece: Time;
    packets: FairSetting;
    pieces: FairSetting;
}
export interface LimitNumbers {
    received: Reading;
    handed: Limit;
    handedAnswers: Time;
    pings: Limit;
    allPings: Limit;
    questions: Limit;
    advertisements: Limit;
    answers: Limit;
    pages: Limit;
}
/** The limits of a network. */
export class Limits extends Held {
    constructor(setting: { link: LimitsLink; rate: number; share: number; routes?: number; services?: number });
    numbers(): LimitNumbers;
    set(numbers: LimitNumbers): void;
    says(kind: PacketKind, client: ClientUse, all: Meter): Verdict;
    framesSay(kind: PacketKind, all: Meter): Verdict;
    answers(clients: number, client: ClientUse, address: AddressUse): Verdict;
    routerAnswers(clients: number, client: ClientUse, address: AddressUse): Verdict;
    hands(clients: number, kind: PacketKind, client: ClientUse, address: AddressUse, handed: Meter, advertised: Meter): Verdict;
    framesHand(link: number, kind: PacketKind, asked: Meter, advertised: Meter, links: Fair): Verdict;
    receives(client: Reader, queue: number, bytes: number): Verdict;
    hearsRouter(client: Reader, queue: number, bytes: number): void;
    carries(link: Reader, queue: number, bytes: number, frames: number): Verdict;
}
export function kindOf(packet: Uint8Array): PacketKind;
export function toldByLinks(): Fair;
export class HouseholdLimits extends Held {
    constructor(rate: number);
    receiver(): Fair;
    receives(limits: Limits, client: Reader, address: Fair, queue: number, bytes: number): Verdict;
    receivesOfOwn(limits: Limits, client: Reader, among: Meter, queue: number, bytes: number): Verdict;
    receivesOfRouter(limits: Limits, client: Reader, address: Fair, queue: number, bytes: number): Verdict;
}
export class StrangersLimits extends Held {
    constructor(rate?: number);
    send(count: number, address: Meter, all: Meter): Verdict;
}
export class Queues extends Held {
    constructor();
    take(first: number, last: number): number;
    unshare(queue: number, first: number, last: number): number;
    giveBack(queue: number): void;
    users(): number[];
}
/** A moment that calls write, 0 at first. */
export class Moment extends Held {
    constructor();
    readonly nanoseconds: bigint;
}
export class LineAddress extends Held {
    constructor();
    state(): { clients: number; number: number; quiet: number; received: bigint; within: bigint[]; spoken: bigint[] };
}
/** A narrow line to clients. */
export class Line extends Held {
    constructor(kilobits: number);
    setKilobits(kilobits: number): void;
    state(): { kilobits: number; addresses: number; speakers: number; used: bigint; own: bigint; toStrangers: bigint;
        numbers: { users: number[]; last: number } };
    join(address: LineAddress): void;
    leave(address: LineAddress): void;
    speak(address: LineAddress): number;
    second(address: LineAddress): void;
    silence(address: LineAddress): void;
    room(now: Time, number: number, bytes: number, said: Moment, to: LineAddress): LineRank;
    send(now: Time, number: number, bytes: number, rank: LineRank, said: Moment, to: LineAddress): void;
    letsBeyond(now: Time): boolean;
    letsAnswer(now: Time, address: Moment): boolean;
    sendAnswer(now: Time, bytes: number, address: Moment): void;
    sendPing(now: Time, bytes: number): void;
    letsStranger(now: Time, address: Moment): boolean;
    sendToStranger(now: Time, bytes: number, address: Moment): void;
    strangers(): StrangersLimits;
    betweenPings(bytes: number): bigint;
}

// ---- The edge ----

/** A rule of a filter. What it names says which other values count. */
export interface Rule {
    readonly permits: 0 | 1;
    readonly what: RuleOf;
    readonly way?: Way;
    readonly names?: Names;
    readonly type?: number;
    readonly socket?: NumberLike;
    readonly from?: NumberLike;
    readonly to?: NumberLike;
    readonly name?: string;
}
export class Edge {
    constructor(port: Port);
    enter(bytes: Uint8Array): Uint8Array | null;
    isHeld(bytes: Uint8Array): boolean;
    number(bytes: Uint8Array): Uint8Array;
    filter(way: Way, rules: readonly Rule[], bytes: Uint8Array): Uint8Array | null;
    claim(bytes: Uint8Array): number | null;
    isNeedless(hops: number, bytes: Uint8Array): boolean;
    writeRoutes(node: NodeLike, routes: readonly RouteEntry[]): Uint8Array;
    writeServices(node: NodeLike, services: readonly ServiceEntry[]): Uint8Array;
}

// ---- Cables ----

export class Kinds extends Held {
    constructor();
    second(): void;
    hear(hash: Time, node: NodeLike, kind: number, isForAll: boolean): boolean;
    of(hash: Time, node: NodeLike): number;
    isUsed(kind: number): boolean;
    speaks(hash: Time, node: NodeLike, kind: number): boolean;
    state(): { left: number[]; buckets: { stations: { node: Uint8Array; kind: number; left: number }[] }[] };
}
export class Loop extends Held {
    constructor();
    second(): boolean;
    readonly left: number;
}
export function probe(here: number, there: number, sent: Time, now: Time, atHere: Loop, atThere: Loop): Probe;
/** The four numbers of an address of IPv4, or its text. */
export type HostLike = Uint8Array | readonly number[] | string;
export interface Range {
    readonly host: HostLike;
    readonly bits: number;
}
export function rangesHave(ranges: readonly Range[], host: HostLike): boolean;
export function isFirstOfRange(range: Range): boolean;
export class Pace extends Held {
    constructor();
    moreWait(waiting: Time, between: Time, now: Time): void;
    letsGo(waiting: Time, now: Time): boolean;
}
export class Twins extends Held {
    constructor();
    hear(node: NodeLike, link: number, second: Time): number | null;
}
export class Asks extends Held {
    constructor();
    areDue(now: Time): boolean;
    patience(most: Time, now: Time): number;
}
export class Asked extends Held {
    constructor();
    ask(all: Asks, now: Time, number: Time): void;
    answer(): void;
    isDue(all: Asks, now: Time): boolean;
}
export function chooseNode(of: { isTunnel: boolean; isOfSeveral?: boolean; said?: NodeLike; card?: NodeLike; hash: Time }): Uint8Array;

// ---- Fates ----

/** The way of a packet: ask what is next, and answer, until it is Next.END. */
export class Course extends Held {
    private constructor();
    static ofFrame(): Course;
    static ofDatagram(): Course;
    answer(it: number | boolean): void;
    readonly next: Next;
    readonly fate: Fate;
    readonly number: number;
}
export class Counts extends Held {
    constructor();
    count(course: Course): void;
    lose(why: Lost): void;
    values(): { in: bigint; lost: bigint[]; dropped: bigint[] };
    droppedFor(drop: Drop): bigint;
}

// ---- A gateway's configuration ----

export interface Host {
    four: Uint8Array | readonly number[];
    six: number[];
    port: number;
    isSix: boolean;
}
export interface SettingLink {
    carrier: number;
    frames: number;
    hasWord: boolean;
    local: Host;
    remote: Host;
    host: string;
    name: string;
}
export interface Settings {
    read: number;
    kind: number;
    bits: number;
    network: { number: number; hasHead: boolean; hasShares: boolean; cost: number; longest: number; routes: number; services: number;
        hasNode: boolean; node: Uint8Array };
    link: SettingLink;
    numbers: number[];
    rule: RuleSaid;
    route: StaticRoute;
    service: StaticService;
}
export interface RuleSaid {
    permits: number;
    what: number;
    way: number;
    names: number;
    type: number;
    socket: number;
    from: number;
    to: number;
    name: string;
}
export interface StaticRoute {
    line: number;
    route: { network: number; hops: number; ticks: number };
    via: Uint8Array;
}
export interface StaticService {
    line: number;
    service: { name: string; type: number; hops: number } & Address;
    via: Uint8Array;
}
export interface RangeSaid {
    first: Uint8Array;
    bits: number;
}
/** What is wrong with a line. */
export interface LineWrong {
    unlinked: number;
    word: number;
    line: number;
    numbers: number[];
    isBelowTunnel: boolean;
}
/** A link, with all that lines say of it and of its network. */
export interface Configured {
    line: number;
    networkLine: number;
    port: number;
    number: number;
    cost: number;
    longest: number;
    routes: number;
    services: number;
    isOfSeveral: boolean;
    hasNode: boolean;
    node: Uint8Array;
    carrier: { number: number; frames: number; local: Host; remote: Host; host: string; name: string };
    clients: number;
    ofAddress: number;
    rate: number;
    share: number;
    household: number;
    strangers: number;
    kilobits: number;
    sockets: number[];
    allowed: RangeSaid[];
    trusted: RangeSaid[];
    origins: { text: string }[];
    nodesByAddress: boolean;
    adopts: boolean;
    rules: RuleSaid[];
    staticRoutes: StaticRoute[];
    staticServices: StaticService[];
    peers: { line: number; at: Host; host: string }[];
}
export function settingsLine(text: string, how?: { hasCards?: boolean | number; isBelowTunnel?: boolean; mostClients?: number }):
    { expected: number; said: Settings };
export function settingsWord(text: string, number: number): { start: number; word: string } | null;
export function settingsSocket(word: string): number;
export function settingsHexadecimal(word: string, digits: number): number | null;
export function settingsNode(word: string): Uint8Array | null;
export function settingsRange(word: string): RangeSaid | null;
export function settingsAddressWords(host: Partial<Host>): string;
export function settingsLinkWords(link:
    Partial<Omit<SettingLink, "local" | "remote">> & { local?: Partial<Host>; remote?: Partial<Host> }): string;
export class Configuration extends Held {
    constructor();
    line(text: string, how?: { hasCards?: boolean | number }): { expected: number; said: Settings; wrong: LineWrong };
    unlinked(): number;
    internal(): { line: number; number: number; node: Uint8Array } | null;
    links(): Configured[];
}

/** A link of a configuration that is planned. */
export interface PlanLink {
    readonly network: NumberLike;
    readonly carrier: number;
    readonly frames?: number;
    readonly udpPort?: number;
    readonly number?: number;
    readonly port?: number;
    readonly clients?: number;
    readonly sockets?: number;
    readonly node?: NodeLike;
    readonly hasNode?: boolean;
    readonly isOfSeveral?: boolean;
    readonly isFirst?: boolean;
}
/** What stays of the old links with the new ones. `was` and `becomes` are NO_ONE where there is none. */
export function plan(old: readonly PlanLink[], links: readonly PlanLink[]): {
    staysRouter: boolean;
    origins: { was: number; cable: number; tunnel: TunnelFate; isKept: boolean; isAsBefore: boolean; hasOtherClients: boolean;
        hasOtherSockets: boolean }[];
    fates: { becomes: number; isClosed: boolean; endsTunnel: boolean }[];
};

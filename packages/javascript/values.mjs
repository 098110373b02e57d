// Structs of the library as objects, and objects as structs. A field has the name that it has in C, in this language's form: `seconds_left`
// is `secondsLeft`. Numbers of 64 bits that count nanoseconds are of the type bigint.
import { IpxrError, inside } from "./ipxr.mjs";
import * as raw from "./raw.mjs";
import { networkOf, nodeOf, placeOf, socketOf } from "./text.mjs";

const [NODE, MOST_TIME] = [6, 2n ** 64n - 1n];
// Arrays of bytes that are texts, by how many bytes they have.
const TEXTS = [16, 48, 89, 254];
// Structs of which only some fields count, so that the others may be left away.
const PARTLY = new Set(["ipxr_rule", "ipxr_plan_link", "ipxr_setting_host", "ipxr_setting_link"]);
// What stands for a field that is left away.
const OF_TUNNEL = { capacity: 64, share: 16 };
export const ABSENT = {
    ipxr_port: { cost: 1, longest: 576, routes: raw.IPXR_NO_LIMIT, services: raw.IPXR_NO_LIMIT },
    ipxr_tunnel_setting: OF_TUNNEL,
    ipxr_keyed_setting: { ...OF_TUNNEL, remembered: 1024, remembered_share: 64 },
    ipxr_segment_setting: { capacity: 1024 },
};
// What is read as hexadecimal digits where it is a text.
const NETWORKS = new Set(["network", "from", "to"]);

const whole = (most) => (value, what) => inside.whole(value, most, what);
const NUMBERS = {
    uint8_t: { size: 1, of: whole(0xff), get: (view, at) => view.getUint8(at), put: (view, at, it) => view.setUint8(at, it) },
    uint16_t: { size: 2, of: whole(0xffff), get: (view, at) => view.getUint16(at, true),
        put: (view, at, it) => view.setUint16(at, it, true) },
    uint32_t: { size: 4, of: whole(0xffffffff), get: (view, at) => view.getUint32(at, true),
        put: (view, at, it) => view.setUint32(at, it, true) },
    uint64_t: { size: 8, of: timeOf, get: (view, at) => view.getBigUint64(at, true),
        put: (view, at, it) => view.setBigUint64(at, it, true) },
    size_t: { size: 8, of: whole(Number.MAX_SAFE_INTEGER), get: (view, at) => Number(view.getBigUint64(at, true)),
        put: (view, at, it) => view.setBigUint64(at, BigInt(it), true) },
    ipxr_flag: { size: 1, of: flagOf, get: (view, at) => view.getUint8(at) === 1, put: (view, at, it) => view.setUint8(at, Number(it)) },
};

/** Nanoseconds: a bigint, or a whole number. */
export function timeOf(value, what = "the time") {
    const isWhole = typeof value === "bigint" || Number.isSafeInteger(value);
    if (!isWhole || value < 0 || value > MOST_TIME) throw new TypeError(`${what} isn't a whole number of 64 bits`);
    return BigInt(value);
}

export function flagOf(value, what) {
    if (typeof value !== "boolean") throw new TypeError(`${what} isn't true or false`);
    return value;
}

/** Text for bytes: a character for each. */
export function bytesOfText(value, most, what) {
    if (typeof value !== "string" || /[^\x01-\xff]/.test(value)) throw new TypeError(`${what} isn't a text of bytes but 0`);
    return Uint8Array.from(value.slice(0, most), (it) => it.charCodeAt(0));
}

/** The bytes before a 0, each as the character of its number. */
export function textOf(bytes) {
    const end = bytes.indexOf(0);
    return String.fromCharCode(...(end < 0 ? bytes : bytes.subarray(0, end)));
}

const camel = (name) => name.replace(/_(\w)/g, (_, letter) => letter.toUpperCase());

// ---- Reading ----

function getBytes(view, at, count) {
    const bytes = new Uint8Array(view.buffer, view.byteOffset + at, count);
    return TEXTS.includes(count) ? textOf(bytes) : bytes.slice();
}

function getOne(view, at, kind) {
    return NUMBERS[kind] ? NUMBERS[kind].get(view, at) : get(view, at, kind);
}

function sizeOf(kind) {
    return NUMBERS[kind]?.size ?? raw.layouts[kind].size;
}

function getSome(view, at, kind, count) {
    return Array.from({ length: count }, (_, k) => getOne(view, at + k * sizeOf(kind), kind));
}

function getField(view, at, [kind, place, count]) {
    if (count === 0) return getOne(view, at + place, kind);
    return kind === "uint8_t" ? getBytes(view, at + place, count) : getSome(view, at + place, kind, count);
}

function get(view, at, name) {
    const { fields } = raw.layouts[name];
    const { list, count } = fields;
    if (list && count) return getSome(view, at + list[1], list[0], Math.min(getField(view, at, count), list[2]));
    return Object.fromEntries(Object.entries(fields).map(([key, field]) => [camel(key), getField(view, at, field)]));
}

/** The struct at an address, as an object. (A list with its count is an array of so many.) */
export function read(name, address) {
    return get(inside.loaded().view, address, name);
}

// ---- Writing ----

function putOne(view, at, key, kind, value, what) {
    if (!NUMBERS[kind]) return put(view, at, kind, inside.objectOf(value, what), what);
    const isNetwork = kind === "uint32_t" && NETWORKS.has(key);
    const of = isNetwork ? networkOf : kind === "uint16_t" && key === "socket" ? socketOf : NUMBERS[kind].of;
    return NUMBERS[kind].put(view, at, of(value, what));
}

function bytesFor(key, count, value, what) {
    if (TEXTS.includes(count)) return bytesOfText(value, count, what);
    if (count === NODE) return (key === "place" ? placeOf : nodeOf)(value, what);
    const bytes = Uint8Array.from(value, (it) => inside.whole(it, 0xff, `a byte of ${what}`));
    if (bytes.length !== count) throw new TypeError(`${what} isn't ${count} bytes`);
    return bytes;
}

function putField(view, at, key, [kind, place, count], value, what) {
    if (count === 0) return putOne(view, at + place, key, kind, value, what);
    if (kind === "uint8_t") return new Uint8Array(view.buffer).set(bytesFor(key, count, value, what), at + place);
    if (!Array.isArray(value) || value.length !== count) throw new TypeError(`${what} isn't an array of ${count}`);
    return value.forEach((it, k) => putOne(view, at + place + k * sizeOf(kind), key, kind, it, what));
}

function put(view, at, name, value, what) {
    for (const [key, field] of Object.entries(raw.layouts[name].fields)) {
        const given = value[camel(key)] ?? ABSENT[name]?.[key];
        const mayLack = PARTLY.has(name) || field[0] === "ipxr_flag";
        if (given !== undefined || !mayLack) putField(view, at, key, field, given, `the ${camel(key)} of ${what}`);
    }
}

/** An object as the bytes of a struct. (It is read before anything is called, since a getter may call.) */
export function packed(name, value, what) {
    const bytes = new Uint8Array(raw.layouts[name].size);
    put(new DataView(bytes.buffer), 0, name, inside.objectOf(value, what), what);
    return bytes;
}

/** Several of them behind each other; of more than `most` one more, which is as much too many. */
export function packedList(name, values, what, most = Infinity) {
    if (!Array.isArray(values)) throw new TypeError(`the ${what}s aren't an array`);
    const { size } = raw.layouts[name];
    const taken = values.slice(0, most + 1);
    const bytes = new Uint8Array(size * taken.length);
    taken.forEach((it, k) => bytes.set(packed(name, it, `${what} ${k}`), size * k));
    return { bytes, count: taken.length };
}

// ---- What a call is lent ----

const ROOM = 65536;
const rooms = new WeakMap();

/** Puts bytes, or room for so many, where a call is lent them, until the next call; returns their addresses. */
export function lend(...parts) {
    const library = inside.loaded();
    if (!rooms.has(library)) rooms.set(library, library.allocated(ROOM));
    let at = rooms.get(library);
    return parts.map((it) => {
        const address = at;
        const length = typeof it === "number" ? it : it.length;
        if (typeof it !== "number") library.bytes.set(it, address);
        at += (length + 7) & ~7;
        return address;
    });
}

/** Puts bytes of any number where they are given to a call: their address, and how many count, since no packet is longer. */
export function given(bytes, what) {
    const library = inside.loaded();
    const length = Number(library.give(inside.bytesOf(bytes, what)));
    return { at: library.input, length };
}

/** The room for what a call writes, and a copy of the first bytes there. */
export const output = () => inside.loaded().output;
export const MOST_OUTPUT = 65535;
export const written = (length) => inside.loaded().copied(output(), length);

export const { judged } = inside;

// ---- What lies in the library's memory as long as it is used ----

const forgotten = new FinalizationRegistry(({ address, end }) => gone(address, end));

function gone(address, end) {
    end?.(address);
    raw.release(address);
}

/** A struct in the library's memory. `address` is for raw calls. */
export class Held {
    #address;
    #end;
    #fault;

    /** All bytes are 0 at first. `end` gives back what it has; `fault` is thrown once it is freed. */
    constructor(name, end, fault) {
        this.#address = raw.allocate(raw.layouts[name].size);
        this.#end = end;
        this.#fault = fault;
        forgotten.register(this, { address: this.#address, end }, this);
    }

    get address() {
        if (this.#address === undefined) throw this.#fault ? new IpxrError(this.#fault) : new Error("it was freed");
        return this.#address;
    }

    /** Gives its memory back. A second time nothing is done. */
    free() {
        if (this.#address === undefined) return;
        forgotten.unregister(this);
        gone(this.#address, this.#end);
        this.#address = undefined;
    }
}
if (Symbol.dispose) Held.prototype[Symbol.dispose] = Held.prototype.free;

/** The address of one of a class, which is looked at before anything else is done. */
export function addressIn(value, kind, what) {
    if (!(value instanceof kind)) throw new TypeError(`${what} isn't of the class ${kind.name}`);
    return value.address;
}

/** What was made, or the fault, and then nothing is left of it. */
export function made(it, answer) {
    if (answer < 0) it.free();
    judged(answer);
}

/** What `read` returns of each number from 0, until a call finds no more. */
export function listed(count, copy, read) {
    return Array.from({ length: count }, (_, k) => {
        judged(copy(k));
        return read();
    });
}

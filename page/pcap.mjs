// Captures byte by byte: those that are made of packets, and where the records of one begin.
import { bytesOf, EVERYONE, hexOf, joined } from "./bytes.mjs";

const [HEADER, RECORD] = [24, 16];
const [MICRO, NANO] = [0xa1b2c3d4, 0xa1b23c4d];
const ETHERNET = 1;
const IPX_TYPE = 0x8137;
// A record keeps no more bytes.
export const MOST_KEPT = 262144;
const [SOURCE, PACKET] = [44, 60];
const [MACS, NODE] = [12, 6];

export function header() {
    const it = new DataView(new ArrayBuffer(HEADER));
    it.setUint32(0, MICRO, true);
    it.setUint16(4, 2, true);
    it.setUint16(6, 4, true);
    it.setUint32(16, MOST_KEPT, true);
    it.setUint32(20, ETHERNET, true);
    return new Uint8Array(it.buffer);
}

export function record(frame, second = 0, fraction = 0, wire = frame.length) {
    const it = new DataView(new ArrayBuffer(RECORD));
    [second, fraction, frame.length, wire].forEach((number, k) => it.setUint32(4 * k, number, true));
    return joined([new Uint8Array(it.buffer), frame]);
}

// A frame of type 8137h around a packet, to a node, from the packet's own source.
export function frameOf(hex, node = EVERYONE) {
    const source = hex.length >= PACKET ? hex.slice(SOURCE, SOURCE + MACS) : "0".repeat(MACS);
    return bytesOf(node + source + IPX_TYPE.toString(16) + hex);
}

// A capture of packets: each a string of digits, with its second and node if it has them.
export const captureOf = (packets) => joined([header(), ...packets.map(({ hex, second, node }) => record(frameOf(hex, node), second))]);

// How the numbers of a capture are written, or nothing where it is none.
function orderOf(bytes) {
    if (bytes.length < HEADER) return null;
    const view = new DataView(bytes.buffer, bytes.byteOffset);
    for (const isLittle of [true, false]) {
        const magic = view.getUint32(0, isLittle);
        if (magic === MICRO || magic === NANO) return { isLittle, part: magic === NANO ? 1e-9 : 1e-6 };
    }
    return null;
}

// Where the records of a capture are: the offset of each, and what reads a time and a frame there.
export class Places {
    constructor(bytes) {
        Object.assign(this, { bytes, order: orderOf(bytes) });
        this.view = new DataView(bytes.buffer, bytes.byteOffset, bytes.length);
        this.starts = this.order ? this.found() : new Uint32Array(0);
    }

    found() {
        let room = new Uint32Array(1024);
        let count = 0;
        for (let at = HEADER; at + RECORD <= this.bytes.length; at += RECORD + this.view.getUint32(at + 8, this.order.isLittle)) {
            if (count === room.length) {
                const wider = new Uint32Array(2 * count);
                wider.set(room);
                room = wider;
            }
            room[count++] = at;
        }
        return room.subarray(0, count);
    }

    time(k) {
        const at = this.starts[k];
        return this.view.getUint32(at, this.order.isLittle) + this.view.getUint32(at + 4, this.order.isLittle) * this.order.part;
    }

    // The nodes between which a frame went: those of its own header, not of the packet in it.
    link(k) {
        const at = this.starts[k] + RECORD;
        const node = (from) => hexOf(this.bytes.subarray(from, from + NODE));
        return { to: node(at), from: node(at + NODE) };
    }

    frame(k) {
        const at = this.starts[k];
        return this.bytes.slice(at + RECORD, at + RECORD + this.view.getUint32(at + 8, this.order.isLittle));
    }
}

// pcapng as a classic capture: its blocks are read one by one, and the packets of its Ethernet interfaces kept, with their times.
import { header, record } from "./pcap.mjs";
import { joined } from "./bytes.mjs";

const [SECTION, INTERFACE, PACKET, SIMPLE, ENHANCED] = [0x0a0d0d0a, 1, 2, 3, 6];
const ORDER = 0x1a2b3c4d;
const ETHERNET = 1;
const [LEAST, ROUND] = [12, 4];
const [END, RESOLUTION, OFFSET] = [0, 9, 14];
const MICROSECONDS = 1000000;
const NAMES = {
    4: "name resolution", 5: "interface statistics", 9: "systemd journal", 10: "decryption secrets", 2989: "custom", 0x40000bad: "custom",
};

export const isPcapng = (bytes) => bytes.length >= LEAST && new DataView(bytes.buffer, bytes.byteOffset).getUint32(0) === SECTION;

// Goes through the blocks of a file.
class Blocks {
    constructor(bytes) {
        this.view = new DataView(bytes.buffer, bytes.byteOffset, bytes.length);
        Object.assign(this, { bytes, isLittle: true, interfaces: [], kept: [], skipped: new Map() });
    }

    number(at) {
        return this.view.getUint32(at, this.isLittle);
    }

    skip(what) {
        this.skipped.set(what, (this.skipped.get(what) ?? 0) + 1);
    }

    // An option of an interface, or nothing.
    *options(at, end) {
        while (at + 4 <= end) {
            const [code, length] = [this.view.getUint16(at, this.isLittle), this.view.getUint16(at + 2, this.isLittle)];
            if (code === END || at + 4 + length > end) return;
            yield { code, at: at + 4, length };
            at += 4 + Math.ceil(length / ROUND) * ROUND;
        }
    }

    addInterface(at, end) {
        const it = { link: this.view.getUint16(at + 8, this.isLittle), ticks: MICROSECONDS, offset: 0 };
        for (const option of this.options(at + 16, end)) {
            if (option.code === RESOLUTION) {
                const value = this.bytes[option.at];
                it.ticks = value & 0x80 ? 2 ** (value & 0x7f) : 10 ** value;
            }
            if (option.code === OFFSET) it.offset = Number(this.view.getBigInt64(option.at, this.isLittle));
        }
        this.interfaces.push(it);
    }

    // Keeps a packet: which interface it is of, its time, where its bytes are.
    keep(number, ticks, at, count, wire, end) {
        const from = this.interfaces[number];
        if (!from || at + count > end) return this.skip("damaged block");
        if (from.link !== ETHERNET) return this.skip(`packet of link type ${from.link}`);
        const whole = ticks / from.ticks;
        const second = Math.floor(whole);
        const fraction = Math.min(Math.round((whole - second) * MICROSECONDS), MICROSECONDS - 1);
        this.kept.push(record(this.bytes.subarray(at, at + count), (second + from.offset) >>> 0, fraction, wire));
    }

    block(type, at, end) {
        if (type === INTERFACE) this.addInterface(at, end);
        else if (type === ENHANCED || type === PACKET) {
            const interfaceOf = type === ENHANCED ? this.number(at + 8) : this.view.getUint16(at + 8, this.isLittle);
            const ticks = this.number(at + 12) * 2 ** 32 + this.number(at + 16);
            this.keep(interfaceOf, ticks, at + 28, this.number(at + 20), this.number(at + 24), end);
        } else if (type === SIMPLE) {
            const wire = this.number(at + 8);
            this.keep(0, 0, at + 12, Math.min(wire, end - at - 12), wire, end);
        } else if (type !== SECTION) this.skip(`${NAMES[type] ?? `type ${type}`} block`);
    }

    all() {
        for (let at = 0; at < this.bytes.length; ) {
            if (at + LEAST > this.bytes.length) return this.skip("cut block");
            if (this.view.getUint32(at) === SECTION) {
                this.isLittle = this.view.getUint32(at + 8, true) === ORDER;
                this.interfaces = [];
            }
            const length = this.number(at + 4);
            if (length < LEAST || length % ROUND || at + length > this.bytes.length) return this.skip("cut block");
            try {
                this.block(this.number(at), at, at + length - 4);
            } catch {
                this.skip("damaged block");
            }
            at += length;
        }
        return undefined;
    }
}

// The classic capture of a pcapng file, and what was left out of it, in words.
export function classic(bytes) {
    const blocks = new Blocks(bytes);
    blocks.all();
    const skipped = [...blocks.skipped].map(([what, count]) => `${count} × ${what}`);
    return { bytes: joined([header(), ...blocks.kept]), skipped };
}

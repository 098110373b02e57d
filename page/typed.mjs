// What was typed into a field, as a script or a packet has it; or what is wrong with it.
import { isHex, padded } from "./bytes.mjs";

// A field that can't be written: its name, and why.
export class Wrong extends Error {
    constructor(field, why) {
        super(why);
        this.field = field;
    }
}

// The digits of a number as it was typed in hexadecimal, as wide as its place.
export function digits(field, typed, bytes) {
    const it = String(typed).trim();
    if (!/^[0-9A-Fa-f]+$/.test(it) || it.length > 2 * bytes) throw new Wrong(field, `hexadecimal, at most ${2 * bytes} digits`);
    return padded(it, 2 * bytes);
}

// A number in decimal that fits into so many bytes.
export function decimal(field, typed, bytes) {
    const most = 256 ** bytes - 1;
    if (!/^\s*\d+\s*$/.test(typed) || +typed > most) throw new Wrong(field, `a number, at most ${most}`);
    return +typed;
}

// Bytes that were typed, as a script has them.
export function bytesTyped(field, text) {
    const it = text.replace(/\s+/g, "");
    if (!isHex(it)) throw new Wrong(field, "an even number of hexadecimal digits");
    return it.toUpperCase();
}


// Bytes in words: hexadecimal digits, pieces of which may be repeated. 00x47 is 47 zeros; 0002,[0030,00x3]x2 is 0002, and twice 0030 and
// three zeros.
import { Fault } from "./files.mjs";

const [MOST_BYTES, MOST_BRACKETS] = [65535, 100];
const SHOWN = 16;
const [SHORTEST_SAVING, LONGEST_PIECE] = [12, 64];

// ---- Words to digits ----

class Reader {
    constructor(name, text) {
        Object.assign(this, { name, text, at: 0, brackets: 0 });
    }

    fail() {
        const there = this.text.slice(this.at, this.at + SHOWN);
        throw new Fault(`${this.name}: expected hexadecimal digits by twos, such as 0002 or 00x47, at '${there}'`);
    }

    // What fits here, which is then read.
    took(pattern) {
        const found = pattern.exec(this.text.slice(this.at));
        if (found) this.at += found[0].length;
        return found;
    }

    // Refuses too many bytes before they are made: a short word could tell more than memory has.
    see(bytes) {
        if (bytes > MOST_BYTES) throw new Fault(`${this.name}: expected at most ${MOST_BYTES} bytes`);
    }

    list() {
        let found = this.piece();
        while (this.took(/^,/)) {
            found += this.piece();
            this.see(found.length / 2);
        }
        return found;
    }

    piece() {
        const one = this.took(/^\[/) ? this.inner() : this.digits();
        const times = this.took(/^x(\d{1,5})/);
        this.see((one.length / 2) * (times?.[1] ?? 1));
        return times ? one.repeat(+times[1]) : one;
    }

    // (a pattern of two digits, repeated, would need room for each of many)
    digits() {
        const [found] = this.took(/^[0-9A-Fa-f]+/) ?? this.fail();
        if (found.length % 2) {
            this.at--;
            this.fail();
        }
        return found.toUpperCase();
    }

    inner() {
        if (++this.brackets > MOST_BRACKETS) throw new Fault(`${this.name}: expected at most ${MOST_BRACKETS} brackets in one another`);
        const found = this.list();
        this.brackets--;
        return this.took(/^\]/) ? found : this.fail();
    }
}

// The digits that a word tells.
export function dataOf(name, word) {
    if (!word) return "";
    const reader = new Reader(name, word);
    const found = reader.list();
    if (reader.at < word.length) reader.fail();
    return found;
}

// ---- Digits to words ----

// How far a piece of so many bytes goes on from a place, in whole pieces.
function timesAt(digits, at, bytes) {
    const piece = digits.slice(at, at + 2 * bytes);
    let times = 1;
    while (digits.startsWith(piece, at + 2 * bytes * times)) times++;
    return times;
}

// The piece that saves most where it is written once with its number, if one saves enough.
function bestOf(digits, bytes) {
    let best = null;
    for (let at = 0; at + 4 * bytes <= digits.length;) {
        const times = timesAt(digits, at, bytes);
        const saved = 2 * bytes * (times - 1);
        if (times > 1 && saved >= SHORTEST_SAVING && saved > (best?.saved ?? 0)) best = { at, bytes, times, saved };
        at += times > 1 ? 2 * bytes * (times - 1) : 2;
    }
    return best;
}

function pieces(digits) {
    if (digits.length < SHORTEST_SAVING) return digits ? [digits] : [];
    const all = Array.from({ length: LONGEST_PIECE }, (_, k) => bestOf(digits, k + 1)).filter((it) => it);
    if (!all.length) return [digits];
    const best = all.reduce((one, other) => (other.saved > one.saved ? other : one));
    const end = best.at + 2 * best.bytes * best.times;
    const inner = pieces(digits.slice(best.at, best.at + 2 * best.bytes));
    const piece = inner.length > 1 || inner[0].includes("x") ? `[${inner.join(",")}]` : inner[0];
    return [...pieces(digits.slice(0, best.at)), `${piece}x${best.times}`, ...pieces(digits.slice(end))];
}

// The word for digits, or none where there are none; of these the first bytes may stand apart.
export function dataWords(digits, apart = 0, name = "data") {
    const [first, rest] = [digits.slice(0, 2 * apart), digits.slice(2 * apart)];
    return digits ? [`${name}=${[...(first ? [first] : []), ...pieces(rest)].join(",")}`] : [];
}

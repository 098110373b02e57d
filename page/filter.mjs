// Which records a filter leaves. What the list shows is found as it stands there, and what `ipxr decode` writes of a record is found, too.
import { addressOf, FRAMES, recordOf, shown, SOCKETS } from "./records.mjs";

// What the list says of a query that nobody answers, and how the text of a query goes on.
const SILENT = "✕ NO ANSWER";
const QUERY = /\n(?:rip request|sap \w+-query)/;
const BEGIN = "record ";
// The words of the first line of a packet's record.
const IS_PACKET = 11;
const NUMBERS = Object.fromEntries(Object.entries(SOCKETS).map(([digits, name]) => [name.toUpperCase(), digits]));

// What is typed into a filter, as it stands in the text; a socket may be given by the name that the list shows.
function asked({ address = "", type = "", socket = "", word = "" }) {
    const clean = (it) => it.trim().toUpperCase();
    const digits = NUMBERS[clean(socket)] ?? (clean(socket) && clean(socket).padStart(4, "0"));
    return { address: clean(address), type: clean(type), socket: digits, word: clean(word) };
}

// Whether an address, or what the list shows of it, has what is asked for in it.
const isAt = (end, asked) => end.includes(asked) || shown(addressOf(end)).toUpperCase().includes(asked);

const ofLines = (text) => recordOf(text.trimEnd().split("\n"));

// As many records are remembered that say the same but for their numbers: most packets of a capture come again and again.
const MOST_KNOWN = 20000;

export class Filter {
    constructor(typed) {
        Object.assign(this, { wanted: asked(typed), known: new Map() });
    }

    get isEmpty() {
        return !Object.values(this.wanted).some((it) => it);
    }

    // Whether a record is what is asked for; an empty word asks for nothing. `silenceOf` says of a record whether nobody answers it.
    fits(text, silenceOf) {
        const { address, type, socket, word } = this.wanted;
        if (address || type || socket) {
            const head = text.slice(0, text.indexOf("\n")).split(" ");
            if (head.length !== IS_PACKET) return false;
            const ends = [head[3], head[4]];
            if (type && head[8] !== type) return false;
            if (socket && !ends.some((it) => it.endsWith(`.${socket}`))) return false;
            if (address && !ends.some((it) => isAt(it, address))) return false;
        }
        if (!word || text.toUpperCase().includes(word) || this.isInList(text)) return true;
        return SILENT.includes(word) && QUERY.test(text) && Boolean(silenceOf(ofLines(text)));
    }

    // Whether the word stands in a cell of the list.
    isInList(text) {
        const body = text.slice(text.indexOf(" ", BEGIN.length) + 1);
        if (!this.known.has(body)) {
            const it = ofLines(text);
            const cells = [...(it.isPacket ? [shown(it.from), shown(it.to)] : []), FRAMES[it.frame] ?? it.frame, it.text];
            if (this.known.size >= MOST_KNOWN) this.known.clear();
            this.known.set(body, cells.some((cell) => cell.toUpperCase().includes(this.wanted.word)));
        }
        return this.known.get(body);
    }
}

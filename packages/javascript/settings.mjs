// The lines of a gateway's configuration: each by itself, and what all say together.
import { inside } from "./ipxr.mjs";
import { MOST_CLIENTS } from "./numbers.mjs";
import * as raw from "./raw.mjs";
import { given, Held, flagOf, lend, MOST_OUTPUT, output, packed, read, textOf, written } from "./values.mjs";

const [NODE, MOST_TEXT] = [6, 65535];
const sized = (name) => raw.layouts[name].size;
const utf8 = new TextEncoder();

// The text of a line or a word, where calls are given it.
function textAt(text, what) {
    if (typeof text !== "string") throw new TypeError(`${what} isn't a text`);
    const bytes = utf8.encode(text);
    if (bytes.length > MOST_TEXT) throw new TypeError(`${what} is too long`);
    return given(bytes, what);
}

// Which cards a system has: all or none, or one of Cards.
function cardsOf(value) {
    if (typeof value === "boolean") return Number(value);
    inside.whole(value, 0xff, "hasCards");
    return value;
}

/** What a line says by itself, and what was expected where it is wrong: one of Expected, or 0. */
export function settingsLine(text, { hasCards = true, isBelowTunnel = false, mostClients = MOST_CLIENTS } = {}) {
    const flags = [cardsOf(hasCards), Number(flagOf(isBelowTunnel, "an option"))];
    inside.whole(mostClients, 0xffff, "the most clients");
    const { at, length } = textAt(text, "the line");
    const [said] = lend(sized("ipxr_setting"));
    const expected = raw.ipxr_settings_line(at, length, ...flags, mostClients, said);
    return { expected, said: read("ipxr_setting", said) };
}

/** The word of a line with that number, from 0, and where its bytes begin; null if there is none. */
export function settingsWord(text, number) {
    inside.whole(number, Number.MAX_SAFE_INTEGER, "the number");
    const { at, length } = textAt(text, "the line");
    const [start] = lend(8);
    const count = raw.ipxr_settings_word(at, length, number, start);
    if (count === 0) return null;
    const first = Number(inside.loaded().view.getBigUint64(start, true));
    return { start: first, word: new TextDecoder().decode(raw.memory().slice(at + first, at + first + count)) };
}

/** The socket that a word is; 0 if it is none. */
export function settingsSocket(word) {
    const { at, length } = textAt(word, "the word");
    return raw.ipxr_settings_socket(at, length);
}

/** The number that a word of hexadecimal digits is, at most so many; null if it is none. */
export function settingsHexadecimal(word, digits) {
    inside.whole(digits, Number.MAX_SAFE_INTEGER, "the digits");
    const { at, length } = textAt(word, "the word");
    const [number] = lend(4);
    return raw.ipxr_settings_hexadecimal(at, length, digits, number) ? inside.loaded().view.getUint32(number, true) : null;
}

/** The node that a word is; null if it is none. */
export function settingsNode(word) {
    const { at, length } = textAt(word, "the word");
    const [node] = lend(NODE);
    return raw.ipxr_settings_node(at, length, node) ? raw.memory().slice(node, node + NODE) : null;
}

/** The range that a word is, such as 192.168.0.0/16; null if it is none. */
export function settingsRange(word) {
    const { at, length } = textAt(word, "the word");
    const [range] = lend(sized("ipxr_setting_range"));
    return raw.ipxr_settings_range(at, length, range) ? read("ipxr_setting_range", range) : null;
}

/** An address with its port as a line has it. */
export function settingsAddressWords(host) {
    const bytes = packed("ipxr_setting_host", host, "the host");
    return textOf(written(raw.ipxr_settings_address_words(...lend(bytes), output(), MOST_OUTPUT)));
}

/** The words of a link as a line has them; "" where it is no link. */
export function settingsLinkWords(link) {
    const bytes = packed("ipxr_setting_link", link, "the link");
    return textOf(written(raw.ipxr_settings_link_words(...lend(bytes), output(), MOST_OUTPUT)));
}

/** A configuration, as far as its lines were read. */
export class Configuration extends Held {
    #lines = 0;

    constructor() {
        super("ipxr_configuration");
    }

    /** Reads the next line: what it says, what was expected where it is wrong (one of Expected, or 0), and what else is wrong. */
    line(text, { hasCards = true } = {}) {
        const cards = cardsOf(hasCards);
        const { at, length } = textAt(text, "the line");
        const [said, wrong] = lend(sized("ipxr_setting"), sized("ipxr_line_wrong"));
        const expected = raw.ipxr_configuration_line(this.address, at, length, ++this.#lines, cards, said, wrong);
        return { expected, said: read("ipxr_setting", said), wrong: read("ipxr_line_wrong", wrong) };
    }

    /** The line of the last network, if that has no link; or 0. */
    unlinked() {
        return raw.ipxr_configuration_unlinked(this.address);
    }

    /** The router's own network, if a line says one; else null. */
    internal() {
        const [at] = lend(sized("ipxr_internal"));
        return raw.ipxr_configuration_internal(this.address, at) ? read("ipxr_internal", at) : null;
    }

    /** What all lines say of each link. */
    links() {
        const [at, found] = [lend(sized("ipxr_configured"))[0], []];
        while (raw.ipxr_configuration_link(this.address, found.length, at)) found.push(read("ipxr_configured", at));
        return found;
    }
}

// What is in the address behind #: which pane is shown, and the script or packet in it. It is text, and becomes nothing but text.
import { base64Of, fromBase64 } from "./bytes.mjs";

// Longer texts make no link that could be sent around.
export const LONGEST = 24000;

export const lengthOf = (text) => new TextEncoder().encode(text).length;

export function written(pane, text) {
    if (!text || lengthOf(text) > LONGEST) return `#${pane}`;
    return `#${pane}=${base64Of(new TextEncoder().encode(text))}`;
}

// The pane and the text of an address; of one that nobody could have written, nothing.
export function read(address) {
    const found = /^#(\w+)(?:=([-\w]*))?$/.exec(address);
    if (!found) return null;
    try {
        return { pane: found[1], text: found[2] ? new TextDecoder("utf-8", { fatal: true }).decode(fromBase64(found[2])) : "" };
    } catch {
        return null;
    }
}

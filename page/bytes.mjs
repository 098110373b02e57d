// Bytes as text and back: hexadecimal digits, and the letters of addresses of pages.

// The node that all of a network hear.
export const EVERYONE = "FFFFFFFFFFFF";

export const hexOf = (bytes) => Array.from(bytes, (it) => it.toString(16).padStart(2, "0")).join("").toUpperCase();

// The bytes of hexadecimal digits, of which there must be an even number.
export function bytesOf(hex) {
    const found = new Uint8Array(hex.length / 2);
    for (let k = 0; k < found.length; k++) found[k] = parseInt(hex.substr(2 * k, 2), 16);
    return found;
}

export const isHex = (text) => /^(?:[0-9A-Fa-f]{2})*$/.test(text);

// A number without the zeros in front, as people write networks and nodes.
export const short = (digits) => digits.toUpperCase().replace(/^0+(?=.)/, "");

export const padded = (digits, count) => digits.toUpperCase().padStart(count, "0");

// Large arguments would overflow the stack.
const PIECE = 8192;

export function base64Of(bytes) {
    let letters = "";
    for (let at = 0; at < bytes.length; at += PIECE) letters += String.fromCharCode(...bytes.subarray(at, at + PIECE));
    return btoa(letters).replace(/\+/g, "-").replace(/\//g, "_").replace(/=+$/, "");
}

export function fromBase64(letters) {
    const plain = atob(letters.replace(/-/g, "+").replace(/_/g, "/"));
    const found = new Uint8Array(plain.length);
    for (let k = 0; k < plain.length; k++) found[k] = plain.charCodeAt(k);
    return found;
}

export function joined(pieces) {
    const whole = new Uint8Array(pieces.reduce((sum, it) => sum + it.length, 0));
    let at = 0;
    for (const it of pieces) {
        whole.set(it, at);
        at += it.length;
    }
    return whole;
}

// What a server of a tunnel makes of the place where a datagram comes from: cookies and nodes that nobody can guess. They are keyed hashes
// of the place, SipHash-2-4 of 64 bits, by a key of sixteen bytes.
import { inside } from "./ipxr.mjs";
import { placeOf } from "./text.mjs";

const [MASK, KEY, MINUTE] = [2n ** 64n - 1n, 16, 60];
const BEGIN = [0x736f6d6570736575n, 0x646f72616e646f6dn, 0x6c7967656e657261n, 0x7465646279746573n];
// The first bytes: a cookie is no node of a client, and a node is one that no manufacturer gave.
const [COOKIE, NODE] = [0, 2];

const turned = (word, by) => ((word << by) & MASK) | (word >> (64n - by));

function mix(v, rounds) {
    for (let k = 0; k < rounds; k++) {
        v[0] = (v[0] + v[1]) & MASK;
        v[2] = (v[2] + v[3]) & MASK;
        v[1] = turned(v[1], 13n) ^ v[0];
        v[3] = turned(v[3], 16n) ^ v[2];
        v[0] = (turned(v[0], 32n) + v[3]) & MASK;
        v[2] = (v[2] + v[1]) & MASK;
        v[1] = turned(v[1], 17n) ^ v[2];
        v[3] = turned(v[3], 21n) ^ v[0];
        v[2] = turned(v[2], 32n);
    }
}

/** SipHash-2-4 of words of 64 bits, by a key of two. */
export function hashOf(words, key) {
    const v = BEGIN.map((it, k) => it ^ key[k % 2]);
    for (const word of [...words, BigInt((words.length * 8) % 256) << 56n]) {
        v[3] ^= word;
        mix(v, 2);
        v[0] ^= word;
    }
    v[2] ^= 0xffn;
    mix(v, 4);
    return v[0] ^ v[1] ^ v[2] ^ v[3];
}

const wordOf = (bytes) => bytes.reduceRight((word, it) => (word << 8n) | BigInt(it), 0n);

/** Six bytes: the first one, and five of a hash. */
function six(first, hash) {
    return Uint8Array.of(first, ...Array.from({ length: 5 }, (_, k) => Number((hash >> BigInt(8 * k)) & 0xffn)));
}

/** The keys of a server. Give sixteen secret bytes that you keep, and clients find their nodes again after a restart. */
export class Keys {
    #key;

    constructor(bytes = crypto.getRandomValues(new Uint8Array(KEY))) {
        if (inside.bytesOf(bytes, "the key").length !== KEY) throw new TypeError(`the key isn't ${KEY} bytes`);
        this.#key = [wordOf(bytes.subarray(0, 8)), wordOf(bytes.subarray(8))];
    }

    /** The cookie of a place in a minute. */
    cookie(place, minute) {
        return six(COOKIE, hashOf([wordOf(placeOf(place)), BigInt(minute) + 1n], this.#key));
    }

    /** The node of a place, for KeyedTunnel. */
    node(place) {
        return six(NODE, hashOf([wordOf(placeOf(place)), 0n], this.#key));
    }

    /** What Tunnel.hear takes for a datagram that comes from a place, in a second of any clock that goes on: Date.now() / 1000 will do. */
    sender(place, seconds, { isTrusted = false } = {}) {
        const minute = Math.floor(seconds / MINUTE);
        const [current, previous] = [minute, minute - 1].map((it) => this.cookie(place, Math.max(it, 0)));
        return { place: placeOf(place), current, previous, isTrusted };
    }

    /** The same for KeyedTunnel.hear. */
    keyedSender(place, seconds, { isTrusted = false, mayRegister = true, former } = {}) {
        const node = this.node(place);
        return { ...this.sender(place, seconds, { isTrusted }), node, former: former ?? node, mayRegister };
    }
}

// One network over several links, as a value. An event returns which links get its packet.
import { Fault } from "./numbers.mjs";
import * as raw from "./raw.mjs";
import { addressOf, nodeOf } from "./text.mjs";
import { Held, judged, lend, listed, made, packed, read } from "./values.mjs";
import { inside } from "./ipxr.mjs";

const [NODE, BYTE] = [6, 0xff];
const linkOf = (link) => inside.whole(link, BYTE, "the link");

/** A segment. Its links have numbers from 0, and are down at first. */
export class Segment extends Held {
    constructor(setting) {
        const bytes = packed("ipxr_segment_setting", setting, "the setting");
        super("ipxr_segment", raw.ipxr_segment_free, Fault.NO_SEGMENT);
        made(this, raw.ipxr_segment_make(this.address, ...lend(bytes)));
    }

    /** A link goes up or down, or changes: { kind, share }. */
    change(link, to) {
        const bytes = packed("ipxr_link", to, "the link");
        judged(raw.ipxr_segment_change(this.address, linkOf(link), ...lend(bytes)));
    }

    /** A packet was heard at a link, from a node for a node: the links that get it, and whether the router hears it. */
    hear(link, source, destination) {
        const [from, to] = [nodeOf(source, "the source"), nodeOf(destination, "the destination")];
        const heard = judged(raw.ipxr_segment_hear(this.address, linkOf(link), ...lend(from, to)));
        return { isHeard: heard === 1, receivers: this.#receivers() };
    }

    /** A node came to a sure link. */
    come(link, node) {
        const bytes = nodeOf(node);
        judged(raw.ipxr_segment_come(this.address, linkOf(link), ...lend(bytes)));
    }

    /** A node left a link. */
    leave(link, node) {
        const bytes = nodeOf(node);
        judged(raw.ipxr_segment_leave(this.address, linkOf(link), ...lend(bytes)));
    }

    /** A second passed. */
    second() {
        judged(raw.ipxr_segment_second(this.address));
    }

    /** The router sends a packet on the segment's network to a node, or to all: the links that get it. */
    send(node) {
        const bytes = nodeOf(node);
        judged(raw.ipxr_segment_send(this.address, ...lend(bytes)));
        return this.#receivers();
    }

    #receivers() {
        const [handle, [at]] = [this.address, lend(1)];
        return listed(raw.ipxr_segment_receivers(handle), (k) => raw.ipxr_segment_receiver(handle, k, at), () => raw.memory()[at]);
    }

    /** Its stations, in the order in which they came to their links. */
    stations() {
        const [handle, [at]] = [this.address, lend(raw.layouts.ipxr_station.size)];
        return listed(raw.ipxr_segment_stations(handle), (k) => raw.ipxr_segment_station(handle, k, at), () => read("ipxr_station", at));
    }

    /** What a link is: { kind, share }. */
    link(link) {
        const [at] = lend(raw.layouts.ipxr_link.size);
        judged(raw.ipxr_segment_link(this.address, linkOf(link), at));
        return read("ipxr_link", at);
    }

    /** The node that a packet with that destination goes to, if no frame says it. */
    nextNode(destination) {
        const bytes = packed("ipxr_address", addressOf(destination), "the destination");
        const [address, at] = lend(bytes, NODE);
        judged(raw.ipxr_segment_next_node(this.address, address, at));
        return raw.memory().slice(at, at + NODE);
    }
}

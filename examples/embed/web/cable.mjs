// A cable of Ethernet in messages: a message is a frame without its checksum. Each frame, of whatever protocol, goes to all others, whose
// cards see by themselves what is for them. The router hears the packets of frames of one kind that are for its node, or for many. A frame
// from the router's own node is forged, or came round a loop: nobody gets it.
import { readFrame, writeFrame } from "./ipxr.mjs";

const ADDRESS = 6;
const HEADER = 14;
// A frame's address of many has this bit in its first byte.
const MANY = 1;

export class Cable {
    #connections = new Set();

    // `hear(bytes)` takes what is for the router, whose node is `node`; frames of `kind` are IPX.
    constructor({ kind, node, hear }) {
        Object.assign(this, { kind, node: Buffer.from(node), hear });
    }

    join(connection) {
        this.#connections.add(connection);
        connection.onMessage = (frame) => this.#heard(connection, frame);
        connection.onClose = () => this.#connections.delete(connection);
    }

    // Sends a packet of the router's.
    send(node, bytes) {
        const frame = writeFrame(this.kind, node, this.node, bytes);
        if (frame) this.#handOn(frame);
    }

    #handOn(frame, except) {
        for (const connection of this.#connections) if (connection !== except) connection.send(frame);
    }

    #heard(connection, frame) {
        if (frame.length < HEADER || this.node.equals(frame.subarray(ADDRESS, 2 * ADDRESS))) return;
        this.#handOn(frame, connection);
        if (!(frame[0] & MANY) && !this.node.equals(frame.subarray(0, ADDRESS))) return;
        const found = readFrame(frame);
        if (found?.kind === this.kind) this.hear(found.packet);
    }
}

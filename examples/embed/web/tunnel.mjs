// A network of IPX in messages, as DOSBox' IPXNET has it in datagrams: a message is a packet from its checksum on.
//
// A client registers by a packet to socket 2 of no node; the answer's destination tells it its network and its node. A packet for a node of
// this network goes to that node's client, and one for all nodes to all others. The router hears what is for its own node, for all, or for
// another network.

const HEADER = 30;
const NODE = 6;
const [AT_LENGTH, AT_CONTROL, AT_TO_NETWORK, AT_TO_NODE, AT_TO_SOCKET] = [2, 4, 6, 10, 16];
const [AT_FROM_NETWORK, AT_FROM_NODE, AT_FROM_SOCKET] = [18, 22, 28];
// The socket of registrations.
const TUNNEL_SOCKET = 2;
// The first byte of a node that no manufacturer gave.
const LOCAL = 0x02;
const NOBODY = "000000000000";
const EVERYBODY = "ffffffffffff";

function textOf(node) {
    return Buffer.from(node).toString("hex");
}

export class Tunnel {
    #clients = new Map();
    #given = 0;

    // `hear(bytes)` takes what is for the router, whose node is `node`.
    constructor({ network, node, hear }) {
        Object.assign(this, { network, node: textOf(node), hear });
    }

    join(connection) {
        const node = this.#nextNode();
        connection.onMessage = (bytes) => this.#heard(connection, node, Buffer.from(bytes));
        connection.onClose = () => this.#clients.delete(node);
    }

    // Sends a packet of the router's.
    send(node, bytes) {
        this.#handOn(textOf(node), bytes);
    }

    // A node that no client had before.
    #nextNode() {
        const node = Buffer.alloc(NODE);
        node.writeUInt32BE(++this.#given, NODE - 4);
        node[0] = LOCAL;
        return textOf(node);
    }

    #handOn(to, bytes, except) {
        for (const [node, connection] of this.#clients) if (to === EVERYBODY ? node !== except : node === to) connection.send(bytes);
    }

    #heard(connection, node, bytes) {
        if (bytes.length < HEADER) return;
        const [to, from] = [AT_TO_NODE, AT_FROM_NODE].map((at) => textOf(bytes.subarray(at, at + NODE)));
        if (bytes.readUInt16BE(AT_TO_SOCKET) === TUNNEL_SOCKET && to === NOBODY) {
            this.#clients.set(node, connection);
            connection.send(this.#answer(node));
        } else if (this.#clients.has(node) && from === node && this.#isHere(bytes.readUInt32BE(AT_FROM_NETWORK))) {
            // (Novell's driver clears it; DOSBox' leaves there what the program left)
            bytes[AT_CONTROL] = 0;
            this.#spoke(node, to, bytes);
        }
    }

    #spoke(from, to, bytes) {
        const isHere = this.#isHere(bytes.readUInt32BE(AT_TO_NETWORK));
        if (isHere && to !== this.node) this.#handOn(to, bytes, from);
        if (!isHere || to === this.node || to === EVERYBODY) this.hear(bytes);
    }

    // A client that doesn't know its network yet says 0.
    #isHere(network) {
        return network === 0 || network === this.network;
    }

    #answer(node) {
        const bytes = Buffer.alloc(HEADER);
        bytes.fill(0xff, 0, AT_LENGTH);
        bytes.writeUInt16BE(HEADER, AT_LENGTH);
        bytes.writeUInt32BE(this.network, AT_TO_NETWORK);
        bytes.write(node, AT_TO_NODE, "hex");
        bytes.writeUInt16BE(TUNNEL_SOCKET, AT_TO_SOCKET);
        bytes.writeUInt32BE(this.network, AT_FROM_NETWORK);
        bytes.write(this.node, AT_FROM_NODE, "hex");
        bytes.writeUInt16BE(TUNNEL_SOCKET, AT_FROM_SOCKET);
        return bytes;
    }
}

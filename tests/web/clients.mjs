// Clients of the relay, as emulators are: of IPXNET's packets, and of frames of Ethernet.
import { numberAt, address, fromHex, hex, packet } from "./packets.mjs";

const [AT_TO_NETWORK, AT_TO_NODE, AT_FROM_NETWORK, AT_FROM_NODE] = [6, 10, 18, 22];
const [TUNNEL_SOCKET, NOBODY, TYPE, ETHERNET] = [2, "000000000000", "8137", 14];

// What comes by a WebSocket, one after the other, for whoever waits for it.
class Inbox {
    #messages = [];
    #waiting;

    constructor(socket) {
        socket.binaryType = "arraybuffer";
        socket.addEventListener("message", ({ data }) => this.#put(new Uint8Array(data)));
        socket.addEventListener("close", () => this.#put(undefined));
    }

    #put(message) {
        this.#messages.push(message);
        this.#waiting?.();
    }

    // The next message; undefined where the connection ended.
    async next() {
        while (this.#messages.length === 0) await new Promise((resolve) => (this.#waiting = resolve));
        return this.#messages.shift();
    }

    // The next message that is wanted; those before it are forgotten.
    async find(isWanted) {
        for (let it = await this.next(); ; it = await this.next()) {
            if (it === undefined) throw new Error("the connection ended");
            if (isWanted(it)) return it;
        }
    }
}

export async function connected(url) {
    const socket = new WebSocket(url);
    const inbox = new Inbox(socket);
    await new Promise((resolve, reject) => {
        socket.addEventListener("open", resolve);
        socket.addEventListener("error", () => reject(new Error(`no connection to ${url}`)));
    });
    return { socket, inbox };
}

// What a packet says of its way.
export function fieldsOf(bytes) {
    const [to, from] = [AT_TO_NETWORK, AT_FROM_NETWORK].map((at) => numberAt(bytes, at, 4));
    const [toNode, fromNode] = [AT_TO_NODE, AT_FROM_NODE].map((at) => hex(bytes.subarray(at, at + 6)));
    return { to, toNode, toSocket: numberAt(bytes, 16, 2), from, fromNode, length: numberAt(bytes, 2, 2) };
}

// A client of packets: it registers, and is told its network and node.
export async function tunnelClient(url) {
    const { socket, inbox } = await connected(url);
    socket.send(packet(0, address(0, NOBODY, TUNNEL_SOCKET), address(0, NOBODY, TUNNEL_SOCKET)));
    const { to: network, toNode: node } = fieldsOf(await inbox.next());
    return {
        network,
        node,
        send: (bytes) => socket.send(bytes),
        heard: (isWanted) => inbox.find((it) => isWanted(fieldsOf(it), it)),
        close: () => socket.close(),
    };
}

// A client of frames, with a card's address; on a network that it is told. It hears what is for its card or for all.
export async function cableClient(url, network, node) {
    const { socket, inbox } = await connected(url);
    const isMine = (frame) => hex(frame.subarray(12, ETHERNET)) === TYPE && [node, "FFFFFFFFFFFF"].includes(hex(frame.subarray(0, 6)));
    const isFor = (frame, isWanted) => isMine(frame) && isWanted(fieldsOf(frame.subarray(ETHERNET)), frame.subarray(ETHERNET));
    return {
        network,
        node,
        send: (bytes, to) => socket.send(fromHex(to + node + TYPE + hex(bytes))),
        sendFrame: (frame) => socket.send(frame),
        heard: async (isWanted) => (await inbox.find((it) => isFor(it, isWanted))).subarray(ETHERNET),
        heardFrame: (isWanted) => inbox.find(isWanted),
        close: () => socket.close(),
    };
}

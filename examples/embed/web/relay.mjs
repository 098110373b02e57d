// A relay for emulators in pages: node relay.mjs [PORT [HOST]]
//
//    js-dos ---- ws://HOST:PORT/ipx ---- network 10 ---- [ router ] ---- network 20 ---- ws://HOST:PORT/ethernet ---- v86
//
// Behind each address is a network of its own: of packets as DOSBox' IPXNET has them, and of frames of Ethernet. The router joins them.
// README.md says what of the emulators was tried.
import { createServer } from "node:http";
import { Frame, Router } from "./ipxr.mjs";
import { Cable } from "./cable.mjs";
import { Tunnel } from "./tunnel.mjs";
import { accepted, refuse } from "./websocket.mjs";

const DEFAULT_PORT = 8086;
// Who may connect: this machine alone, unless another address is named.
const DEFAULT_HOST = "127.0.0.1";
const SECOND = 1000;

// DOSBox' packets are no longer.
const TUNNEL = { network: 0x10, node: [0x02, 0x49, 0x50, 0x58, 0x52, 0x10], cost: 1, longest: 1424 };
const CABLE = { network: 0x20, node: [0x02, 0x49, 0x50, 0x58, 0x52, 0x20], cost: 1, longest: 1500 };
const KIND = Frame.ETHERNET2;

class Relay {
    #router = new Router([TUNNEL, CABLE]);
    #networks = [
        new Tunnel({ ...TUNNEL, hear: (bytes) => this.#send(this.#router.packet(0, bytes)) }),
        new Cable({ ...CABLE, kind: KIND, hear: (bytes) => this.#send(this.#router.packet(1, bytes)) }),
    ];
    #connections = new Set();
    #began = performance.now();
    #told = 0;

    start() {
        this.#send(this.#router.start());
    }

    stop() {
        this.#send(this.#router.stop());
        for (const connection of this.#connections) connection.close();
    }

    // Tells the router of each second that passed, late ones too.
    look() {
        for (const now = (performance.now() - this.#began) / SECOND; this.#told + 1 <= now; this.#told++) this.#send(this.#router.second());
    }

    // A request for a WebSocket. (js-dos may name a room behind the network; there is one.)
    join(request, socket, head) {
        const [, name] = request.url.split(/[/?]/);
        const network = this.#networks[["ipx", "ethernet"].indexOf(name)];
        if (!network) {
            refuse(socket, "404 Not Found");
            return;
        }
        const connection = accepted(request, socket, head);
        if (!connection) return;
        network.join(connection);
        this.#connections.add(connection);
        socket.on("close", () => this.#connections.delete(connection));
    }

    #send({ sent }) {
        for (const { port, node, bytes } of sent) this.#networks[port].send(node, bytes);
    }
}

await Router.load();
const relay = new Relay();
const server = createServer((_, response) => response.writeHead(426,
    { Upgrade: "websocket" }).end("here are WebSockets: /ipx and /ethernet\n"));
server.on("upgrade", (request, socket, head) => relay.join(request, socket, head));
server.listen(Number(process.argv[2] ?? DEFAULT_PORT), process.argv[3] ?? DEFAULT_HOST, () => {
    const { address, port } = server.address();
    console.log(`ws://${address}:${port}/ipx and ws://${address}:${port}/ethernet`);
});
relay.start();
const clock = setInterval(() => relay.look(), SECOND / 4);
for (const signal of ["SIGINT", "SIGTERM"])
    process.once(signal, () => {
        clearInterval(clock);
        relay.stop();
        server.close();
    });

// A server for DOSBox in Node: node server.mjs 2130, and in each DOSBox IPXNET CONNECT ADDRESS 2130. All players are on one network, where
// a router answers what programs ask of one. It gives each a node of its own.
import { createSocket } from "node:dgram";
import { Keys, KeyedTunnel, load, placeText, Router } from "ipxr";

const [NETWORK, NODE, LONGEST] = ["10", "020000000001", 1424];

await load();
const keys = new Keys();
const router = new Router([{ network: NETWORK, node: NODE, cost: 1, longest: LONGEST }]);
const tunnel = new KeyedTunnel({ network: NETWORK, node: NODE, capacity: 64, share: 16, remembered: 1024, rememberedShare: 64 });
const udp = createSocket("udp4");

function send(place, bytes) {
    const [host, port] = placeText(place).split(":");
    udp.send(bytes, Number(port), host);
}

function sendAll({ owns = [], receivers = [], packet }) {
    for (const { place, bytes } of owns) send(place, bytes);
    for (const place of receivers) send(place, packet);
}

function happened({ sent }) {
    for (const { node, bytes } of sent) sendAll({ receivers: tunnel.send(node), packet: bytes });
}

udp.on("message", (bytes, { address, port }) => {
    if (bytes.length > LONGEST) return;
    const heard = tunnel.hear(keys.keyedSender(`${address}:${port}`, Date.now() / 1000), bytes);
    sendAll(heard);
    if (heard.isHeard) happened(router.packet(0, heard.packet));
});
udp.bind(Number(process.argv[2] ?? 213), () => console.log("ready"));
happened(router.start());
setInterval(() => {
    sendAll(tunnel.second());
    happened(router.second());
}, 1000);

// What is built by hand for one router, as acts.mjs does it for an internet: the same forms, and lines of `ipxr replay`.
import { chosenFirst, freeNode, MOST_PORTS, timePassed } from "./acts.mjs";
import { arriving, portNetwork, unjoined } from "./refused.mjs";
import { digits, Wrong } from "./typed.mjs";
import { offerOf, packetOf } from "./words.mjs";

const ports = (script) => script.routers[0].ports.map((it, k) => [String(k), `port ${k}, net ${it.network}`]);
const port = (label) => (script, chosen) => ({ name: "port", label, choices: ports(script), value: chosenFirst("port", chosen) });
const networkOf = (script, it) => script.routers[0].ports[+it.port].network;
const here = port("By port");
const downPorts = (script, state) => ports(script).filter(([it]) => state[0].up[+it] === false);

// A packet of a node on the network of a port.
function came(script, it, kind, more) {
    const network = networkOf(script, it);
    const hex = packetOf(kind, { toNetwork: network, fromNetwork: network, fromNode: digits("node", it.node, 6), ...more });
    return { now: [`in ${it.port} ${hex}`] };
}

const node = (value) => ({ name: "node", label: "From node", value });

export const ROUTER_ACTS = {
    port: {
        isFixed: true, label: "+ Port", title: "Add a port",
        fields: () => [{ name: "network", label: "On network", value: "", hint: "such as 10" }],
        lines(script, it) {
            const { ports: there, last } = script.routers[0];
            if (there.length >= MOST_PORTS) throw new Wrong("network", `there are ${MOST_PORTS} ports already`);
            const network = unjoined("network", script.routers[0], portNetwork("network", it.network));
            return { fixed: there.length ? last + 1 : 0, lines: [`port ${network} ${freeNode(script, 0, there.length, network)} 1 576`] };
        },
    },
    start: { label: "Start", title: "Start the router", needs: ports, fields: () => [], lines: () => ({ now: ["start"] }) },
    stop: { label: "Stop", title: "Stop the router", needs: ports, fields: () => [], lines: () => ({ now: ["stop"] }) },
    time: {
        label: "Time", title: "Let time pass", needs: ports, fields: () => [{ name: "seconds", label: "Seconds", value: "60" }],
        lines: (_, it) => ({ now: [`second ${timePassed("seconds", it.seconds)}`] }),
    },
    down: {
        label: "Break", title: "Break a link", needs: ports, fields: (script, chosen) => [port("Port")(script, chosen)],
        lines: (_, it) => ({ now: [`down ${it.port}`] }),
    },
    up: {
        label: "Mend", title: "Mend a link", needs: downPorts, lacks: "nothing is down here",
        fields: (script, chosen, _, state) => [{ ...port("Port")(script, chosen), choices: downPorts(script, state) }],
        lines: (_, it) => ({ now: [`up ${it.port}`] }),
    },
    offer: {
        label: "Offer", title: "A neighbour offers a route", needs: ports,
        fields: (script, chosen) => [here(script, chosen), node("BB"), { name: "network", label: "Network", value: "99" },
            { name: "hops", label: "Hops", value: "1", hint: "16: gone" }, { name: "ticks", label: "Ticks", value: "2" }],
        lines: (script, it) => ({ now: [`in ${it.port} ${offerOf(networkOf(script, it), it)}`] }),
    },
    ask: {
        label: "Ask", title: "A host asks for networks", needs: ports,
        fields: (script, chosen) => [here(script, chosen), node("AA"),
            { name: "networks", label: "Networks", value: "FFFFFFFF", hint: "FFFFFFFF: all" }],
        lines: (script, it) => came(script, it, "rip-request", { networks: it.networks }),
    },
    send: {
        label: "Send", title: "A host sends a packet", needs: ports,
        fields: (script, chosen) => [here(script, chosen), node("AA"), { name: "toNetwork", label: "To network", value: "99" },
            { name: "toNode", label: "To node", value: "CC" }],
        lines: (script, it) => came(script, it, "data", { toNetwork: it.toNetwork, toNode: it.toNode, toSocket: "4003" }),
    },
    bytes: {
        label: "Bytes", title: "Let any bytes arrive", needs: ports,
        fields: (script, chosen, packet) => [here(script, chosen),
            { name: "hex", label: "Bytes", value: packet, hint: "those of the pane Packet" }],
        lines: (_, it) => ({ now: [`in ${it.port} ${arriving("hex", it.hex)}`] }),
    },
};

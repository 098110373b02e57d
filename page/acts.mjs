// What is built by hand: each act makes lines of a script, and says where they go. The script stays the truth.
import { padded } from "./bytes.mjs";
import { arriving, hostNode, portNetwork, portNetworks, unjoined } from "./refused.mjs";
import { digits, Wrong } from "./typed.mjs";
import { offerOf, packetOf } from "./words.mjs";

export const MOST_PORTS = 8;
const [MOST_ROUTERS, MOST_SECONDS] = [32, 86400];
const SETTLE = "settle 1000000";
const LIMIT = 1000;
const ALL = "all";

// A node that no port or host of that network has: of router 2, port 0 it is 000000000301.
export function freeNode(script, router, port, net) {
    const there = [...script.routers.flatMap((it) => it.ports), ...script.hosts].filter((it) => padded(it.network, 8) === net);
    const taken = new Set(there.map((it) => padded(it.node, 12)));
    let it = (router + 1) * 256 + port + 1;
    while (taken.has(padded(it.toString(16), 12))) it += 0x10000;
    return padded(it.toString(16), 12);
}

const portLine = (script, router, port, net) => `port ${net} ${freeNode(script, router, port, net)} 1 576`;

// Behind which line the next router goes.
function behindRouters(script) {
    if (script.routers.length) return script.routers[script.routers.length - 1].last + 1;
    return script.acts.length ? script.acts[0].line : script.lines.length - (script.text.endsWith("\n") || !script.text ? 1 : 0);
}

// Seconds that were typed.
export function timePassed(name, typed) {
    if (!/^\s*\d{1,7}\s*$/.test(typed) || +typed < 1 || +typed > MOST_SECONDS) throw new Wrong(name, `a number, 1 to ${MOST_SECONDS}`);
    return +typed;
}

// ---- Choices of a form ----

const routers = (script) => script.routers.map((it, k) => [String(k), it.name]);
const ports = (script) => script.routers.flatMap((it, k) =>
    it.ports.map((port, n) => [`${k} ${n}`, `${it.name} port ${n}, net ${port.network}`]));
const hostLabel = (it) => `${it.node} on net ${it.network}${it.isForged ? " (forged)" : ""}`;
const hosts = (script) => script.hosts.map((it) => [`${it.network}.${it.node}`, hostLabel(it)]);
const networks = (script) => script.networks.map((it) => [it, `net ${it}`]);

// The routers and ports of a choice: one port, or all those of a network.
function portsOf(script, choice) {
    if (!choice.startsWith("net ")) return [choice];
    const all = script.routers.flatMap((it, k) => it.ports.map((port, n) => ({ network: port.network, word: `${k} ${n}` })));
    return all.filter((it) => it.network === choice.slice(4)).map((it) => it.word);
}

const isUp = (state, word) => state[+word.split(" ")[0]]?.up[+word.split(" ")[1]] ?? true;
const downOf = (script, choice, state) => portsOf(script, choice).filter((it) => !isUp(state, it));

// Networks and ports to choose from: all of them, or those that are down.
const links = (script) => [...networks(script).map(([it, label]) => [`net ${it}`, `all ports on ${label}`]), ...ports(script)];
const downLinks = (script, state) => links(script).filter(([choice]) => downOf(script, choice, state).length);

// By which port a packet of a host comes in: the first on its network that is up.
function entry(script, host, state) {
    const net = host.split(".")[0];
    const all = portsOf(script, `net ${net}`);
    if (!all.length) throw new Wrong("from", "no router is on its network");
    return all.find((it) => isUp(state, it)) ?? all[0];
}

// What is chosen on the map, as the first choice of a form.
function chosenPort(chosen) {
    const [kind, first, second] = chosen.split(" ");
    return kind === "port" ? `${first} ${second}` : kind === "network" ? `net ${first}` : undefined;
}

export const chosenFirst = (kind, chosen) => (chosen.startsWith(`${kind} `) ? chosen.slice(kind.length + 1) : undefined);
const link = (choices, chosen) => [{ name: "link", label: "Link or port", choices, value: chosenPort(chosen) }];

// The first of AA, BB, .. that no host is called yet, and then of AB, AC, ..
const NODES = ["A", "B", "C", "D", "E", "F"];
function freshNode(script) {
    const taken = new Set(script.hosts.map((it) => it.node));
    const all = [...NODES.map((it) => it + it), ...NODES.flatMap((it) => NODES.map((other) => it + other))];
    return all.find((it) => !taken.has(it)) ?? "";
}

// Behind which line the next host goes: the last one that a comment names below the routers.
function behindHosts(script) {
    let at = behindRouters(script);
    while (/^#\s*host /.test(script.lines[at]?.text ?? "")) at++;
    return at;
}

// A comment that names a forging node as such, where nobody else there has that node.
function forgerLine(script, net, node) {
    const isThere = (it) => it.network === net && padded(it.node, 12) === node;
    const isKnown = script.hosts.some(isThere) || script.routers.some((it) => it.ports.some(isThere));
    return isKnown ? [] : [`# host ${padded(net, 8)}.${node} (forged)`];
}

// ---- The acts ----

// Of each: its label, the fields of its form, and its lines: `fixed` go behind a line, `now` behind the command that is shown. What it
// `needs`, where it can be done at all, and what is said where that `lacks`. Of a field `picked` is what is chosen on the map; where an act
// `remembers`, what was typed last stands there otherwise.
export const ACTS = {
    router: {
        isFixed: true, label: "+ Router", title: "Add a router",
        fields: () => [{ name: "networks", label: "On networks", value: "", hint: "such as 10 20" }],
        lines(script, { networks: typed }) {
            const nets = portNetworks("networks", typed);
            if (!nets.length || nets.length > MOST_PORTS) throw new Wrong("networks", `1 to ${MOST_PORTS} networks`);
            if (script.routers.length >= MOST_ROUTERS) throw new Wrong("networks", `there are ${MOST_ROUTERS} routers already`);
            const number = script.routers.length;
            return { fixed: behindRouters(script), lines: ["router", ...nets.map((it, k) => portLine(script, number, k, it))] };
        },
    },
    network: {
        isFixed: true, label: "+ Network", title: "Join a router to a network", needs: routers,
        fields: (script, chosen) => [
            { name: "router", label: "Router", choices: routers(script), value: chosenFirst("router", chosen) },
            { name: "network", label: "Network", value: chosenFirst("network", chosen) ?? "", hint: "such as 30" }],
        lines(script, it) {
            const router = script.routers[+it.router];
            if (router.ports.length >= MOST_PORTS) throw new Wrong("router", `it has ${MOST_PORTS} ports already`);
            const network = unjoined("network", router, portNetwork("network", it.network));
            return { fixed: router.last + 1, lines: [portLine(script, +it.router, router.ports.length, network)] };
        },
    },
    host: {
        isFixed: true, label: "+ Host", title: "Add a host", needs: networks, lacks: "add a network first",
        fields: (script, chosen) => [
            { name: "network", label: "On network", choices: networks(script), value: chosenFirst("network", chosen) },
            { name: "node", label: "Node", value: freshNode(script) }],
        lines(script, it) {
            const node = hostNode("node", script, it.network, it.node);
            return { fixed: behindHosts(script), lines: [`# host ${padded(it.network, 8)}.${node}`] };
        },
    },
    start: {
        label: "Start", title: "Start routers", needs: routers,
        fields: (script, chosen, _, state) => [{
            name: "router", label: "Router", choices: [[ALL, "all"], ...routers(script)],
            value: state.some((it) => it.runs) ? chosenFirst("router", chosen) : ALL,
        }],
        lines: (script, it) => ({ now: [...(it.router === ALL ? script.routers.map((_, k) => `start ${k}`) : [`start ${it.router}`]),
            SETTLE] }),
    },
    stop: {
        label: "Stop", title: "Stop a router", needs: routers,
        fields: (script, chosen) => [{ name: "router", label: "Router", choices: routers(script), value: chosenFirst("router", chosen) }],
        lines: (_, it) => ({ now: [`stop ${it.router}`, SETTLE] }),
    },
    time: {
        label: "Time", title: "Let time pass; after each step, waiting packets arrive", remembers: true,
        fields: () => [
            { name: "seconds", label: "Seconds", value: "60" },
            { name: "every", label: "in steps of (s)", value: "10", hint: "seconds" }],
        lines(_, it) {
            const [seconds, every] = [timePassed("seconds", it.seconds), timePassed("every", it.every)];
            const found = [];
            for (let left = seconds; left > 0; left -= every) found.push(`second ${Math.min(left, every)}`, SETTLE);
            return { now: found };
        },
    },
    down: {
        label: "Break", title: "Break a link", needs: ports, fields: (script, chosen) => link(links(script), chosen),
        lines: (script, it) => ({ now: [...portsOf(script, it.link).map((word) => `down ${word}`), SETTLE] }),
    },
    up: {
        label: "Mend", title: "Mend a link", needs: downLinks, lacks: "nothing is down here",
        fields: (script, chosen, _, state) => link(downLinks(script, state), chosen),
        lines: (script, it, state) => ({ now: [...downOf(script, it.link, state).map((word) => `up ${word}`), SETTLE] }),
    },
    send: {
        label: "Send", title: "Send a packet from here to there", needs: hosts, lacks: "add hosts first", remembers: true,
        fields: (script, chosen) => [
            { name: "from", label: "From host", choices: hosts(script), picked: chosenFirst("host", chosen) },
            { name: "to", label: "To host", choices: hosts(script),
                value: script.hosts[1] && `${script.hosts[1].network}.${script.hosts[1].node}` }],
        lines(script, it, state) {
            const [fromNetwork, fromNode] = it.from.split(".");
            const [toNetwork, toNode] = it.to.split(".");
            const hex = packetOf("data", { fromNetwork, fromNode, toNetwork, toNode, toSocket: "4003" });
            return { now: [`trace ${entry(script, it.from, state)} ${LIMIT} ${hex}`] };
        },
    },
    forge: {
        label: "Forge", title: "Forge a response of a router", needs: ports,
        fields: (script, chosen) => [
            { name: "link", label: "It comes to", choices: ports(script), value: chosenPort(chosen) },
            { name: "node", label: "In the name of node", value: "EE" }, { name: "network", label: "It offers network", value: "99" },
            { name: "hops", label: "Hops", value: "1", hint: "16: gone" }, { name: "ticks", label: "Ticks", value: "1" }],
        lines(script, it) {
            const [router, port] = it.link.split(" ");
            const { network: net } = script.routers[+router].ports[+port];
            const hex = offerOf(net, it);
            return { now: [...forgerLine(script, net, digits("node", it.node, 6)), `in ${it.link} ${hex}`, SETTLE] };
        },
    },
    bytes: {
        label: "Bytes", title: "Let any bytes arrive", needs: ports,
        fields: (script, chosen, packet) => [
            { name: "link", label: "By port", choices: ports(script), value: chosenPort(chosen) },
            { name: "hex", label: "Bytes", value: packet, hint: "those of the pane Packet" }],
        lines: (_, it) => ({ now: [`in ${it.link} ${arriving("hex", it.hex)}`, SETTLE] }),
    },
};

// The script with the lines of an act, and the last of these lines by its number. `at` is the line of the command that is shown, or -1.
export function edited(script, at, { fixed, lines, now }) {
    const texts = script.lines.map((it) => it.text);
    if (texts[texts.length - 1] === "") texts.pop();
    const first = script.acts.length ? script.acts[0].line : texts.length;
    const place = Math.min(fixed ?? (at < 0 ? first : at + 1), texts.length);
    const added = lines ?? now;
    texts.splice(place, 0, ...added);
    return { text: `${texts.join("\n")}\n`, line: place + added.length - 1, isNow: Boolean(now) };
}

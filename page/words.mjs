// Words to the bytes of a packet, and back. The bytes are written by the library's proved writers; here the fields are read that were
// typed. What was written, the program's proved reader says, which reads it back (pane_packet.mjs).
import { bytesOf, EVERYONE, hexOf } from "./bytes.mjs";
import { bytesTyped, decimal, digits, Wrong } from "./typed.mjs";
import { IpxrError, Rip, words as faultWords, writePacket, writeQuery, writeRip, writeSap } from "./ipxr.mjs";

const HEADER = 30;
const [RIP, SAP, NETBIOS, OTHER] = ["0453", "0452", "0455", "4003"];
const [CROSSED_ROOM, PROPAGATED] = [8, 20];
const NO_DISTANCE = 0xffff;

const number = (field, typed, bytes) => parseInt(digits(field, typed, bytes), 16);
const node = (field, typed) => bytesOf(digits(field, typed, 6));

const lines = (text) => text.split("\n").map((it) => it.trim()).filter((it) => it);
const words = (text) => text.trim().split(/\s+/).filter((it) => it);

// ---- What each kind has besides its ends ----

const nets = (text) => words(text).map((it) => ({ network: number("networks", it, 4), hops: NO_DISTANCE, ticks: NO_DISTANCE }));

const routes = (text) => lines(text).map((line) => {
    const [network, hops, ticks, ...more] = words(line);
    if (ticks === undefined || more.length) throw new Wrong("routes", `not network hops ticks: ${line}`);
    return { network: number("routes", network, 4), hops: decimal("routes", hops, 2), ticks: decimal("routes", ticks, 2) };
});

// The characters of a name's bytes. It stands as in a script: a backslash and two digits are any byte.
function nameTyped(field, typed) {
    const name = typed.replace(/\\([0-9A-Fa-f]{2})/g, (_, it) => String.fromCharCode(parseInt(it, 16)));
    if (/[^\x01-\xff]/.test(name)) throw new Wrong(field, `a name has bytes from 1 to 255: ${typed}`);
    return name;
}

const services = (text) => lines(text).map((line) => {
    const [type, name, network, at, socket, hops, ...more] = words(line);
    if (hops === undefined || more.length) throw new Wrong("services", `not type name network node socket hops: ${line}`);
    return {
        type: number("services", type, 2), name: nameTyped("services", name), network: number("services", network, 4),
        node: node("services", at),
        socket: number("services", socket, 2), hops: decimal("services", hops, 2),
    };
});

// The networks crossed in the room that they have before the data.
function crossed(text) {
    const found = words(text);
    if (found.length >= CROSSED_ROOM) throw new Wrong("crossed", `${CROSSED_ROOM - 1} networks at most`);
    return found.map((it) => digits("crossed", it, 4)).join("").padEnd(8 * CROSSED_ROOM, "0");
}

const data = (it) => bytesTyped("data", it.data);
const isNearest = (it) => it.nearest === "nearest";

// Each kind of packet: its label, its socket, its fields, the last of which may be too long, and how it is written.
export const KINDS = {
    "rip-request": {
        label: "RIP request", socket: RIP, fields: ["networks"],
        write: (ends, it) => writeRip(...ends, Rip.REQUEST, nets(it.networks)),
    },
    "rip-response": {
        label: "RIP response", socket: RIP, fields: ["routes"],
        write: (ends, it) => writeRip(...ends, Rip.RESPONSE, routes(it.routes)),
    },
    "sap-query": {
        label: "SAP query", socket: SAP, fields: ["nearest", "service"],
        write: (ends, it) => writeQuery(...ends, isNearest(it), number("service", it.service, 2)),
    },
    "sap-response": {
        label: "SAP response", socket: SAP, fields: ["nearest", "services"],
        write: (ends, it) => writeSap(...ends, isNearest(it), services(it.services)),
    },
    netbios: {
        label: "NetBIOS (type 20)", socket: NETBIOS, fields: ["crossed", "data"],
        write: (ends, it) => writePacket(...ends, PROPAGATED, words(it.crossed).length, bytesOf(crossed(it.crossed) + data(it))),
    },
    data: {
        label: "Data", socket: OTHER, fields: ["type", "control", "data"],
        write: (ends, it) => writePacket(...ends, decimal("type", it.type, 1), decimal("control", it.control, 1), bytesOf(data(it))),
    },
};

// What stands in each field before anything is typed.
export const DEFAULTS = {
    toNetwork: "10", toNode: EVERYONE, toSocket: RIP, fromNetwork: "10", fromNode: "AA", fromSocket: OTHER, networks: "FFFFFFFF",
    routes: "20 1 2",
    nearest: "general", service: "4", services: "4 SERVER 20 1 451 1", crossed: "", data: "", type: "0", control: "0",
};

const endOf = (it, end) => ({
    network: number(`${end}Network`, it[`${end}Network`], 4), node: node(`${end}Node`, it[`${end}Node`]),
    socket: number(`${end}Socket`, it[`${end}Socket`], 2),
});

// The digits of a packet, or what is wrong with a field.
export function packetOf(kind, values) {
    const it = { ...DEFAULTS, ...values };
    const { fields, write } = KINDS[kind];
    try {
        return hexOf(write([endOf(it, "from"), endOf(it, "to")], it));
    } catch (why) {
        if (!(why instanceof IpxrError)) throw why;
        throw new Wrong(fields[fields.length - 1], faultWords(why.number));
    }
}

// The digits of a response by a node of a network that offers one route, as it was typed in a form.
export function offerOf(net, { node: from, network, hops, ticks }) {
    const route = [digits("network", network, 4), decimal("hops", hops, 2), decimal("ticks", ticks, 2)].join(" ");
    return packetOf("rip-response", { toNetwork: net, fromNetwork: net, fromNode: digits("node", from, 6), fromSocket: "453",
        routes: route });
}

// ---- Back ----

const kindOf = (record) => {
    const [first, second] = (record.lines[1] ?? "").split(" ");
    if (second === "bad") return "data";
    if (first === "rip") return `rip-${second}`;
    if (first === "sap") return second.endsWith("query") ? "sap-query" : "sap-response";
    return first === "crossed" ? "netbios" : "data";
};

// What a record that `ipxr decode` read says, in the fields of its kind; `hex` are the bytes of its packet.
export function valuesOf(record, hex) {
    const kind = kindOf(record);
    const details = record.lines.slice(1).map((it) => it.split(" "));
    const data = hex.slice(2 * HEADER, 2 * record.length);
    const values = {
        toNetwork: record.to.network, toNode: record.to.node, toSocket: record.to.socket, type: String(record.type),
        fromNetwork: record.from.network, fromNode: record.from.node, fromSocket: record.from.socket, control: String(record.control),
        data: kind === "netbios" ? data.slice(8 * CROSSED_ROOM) : data,
    };
    const nets = details.filter((it) => it[0] === "net");
    if (kind === "rip-request") values.networks = nets.map((it) => it[1]).join(" ");
    if (kind === "rip-response") values.routes = nets.map((it) => `${it[1]} ${it[3]} ${it[5]}`).join("\n");
    if (kind.startsWith("sap")) values.nearest = details[0][1].startsWith("nearest") ? "nearest" : "general";
    if (kind === "sap-query") values.service = details[0][2];
    if (kind === "sap-response") values.services = details.filter((it) => it[0] === "service").map((it) =>
        it.slice(1).join(" ")).join("\n");
    if (kind === "netbios") values.crossed = details[0].slice(1).join(" ");
    return { kind, values };
}

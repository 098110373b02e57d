// What a packet passes between a cable and the router's port on it. Bytes that are given stay as they are: what a call changes is a copy.
import { inside } from "./ipxr.mjs";
import * as raw from "./raw.mjs";
import { addressOf, networkOf, nodeOf } from "./text.mjs";
import { given, judged, lend, MOST_OUTPUT, output, packed, packedList, written } from "./values.mjs";

const entryOf = (it, k) => ({ ...it, ...addressOf(it.address ?? it, `the address of service ${k}`) });
const routeOf = (it, k) => ({ ...it, network: networkOf(it.network, `the network of route ${k}`) });

/** The edge of a port, which is given as for a router. Its faults are those of the port. */
export class Edge {
    #port;

    constructor(port) {
        this.#port = packed("ipxr_port", port, "the port");
    }

    // Calls with the port and the packet; returns the answer, and a copy of what the call left of the packet.
    #asked(call, bytes) {
        const { at, length } = given(bytes, "the packet");
        const answer = judged(call(...lend(this.#port), at, length));
        return { answer, left: raw.memory().slice(at, at + length) };
    }

    /** A packet comes in from the cable: the packet with its numbers filled in, or null where it is held. */
    enter(bytes) {
        const { answer, left } = this.#asked(raw.ipxr_edge_enter, bytes);
        return answer === 1 ? left : null;
    }

    /** Whether it is held: it is for RIP or SAP on the port's network, and came through a router. */
    isHeld(bytes) {
        return this.#asked(raw.ipxr_edge_is_held, bytes).answer === 1;
    }

    /** The packet with the port's network in the place of 0, held or not. */
    number(bytes) {
        return this.#asked(raw.ipxr_edge_number, bytes).left;
    }

    /** What passes of a packet by these rules, on its way in or out (Way); null if nothing does. */
    filter(way, rules, bytes) {
        const number = inside.whole(way, 0xff, "the way");
        const { bytes: listed, count } = packedList("ipxr_rule", rules, "rule", raw.IPXR_MOST_RULES);
        const { at, length } = given(bytes, "the packet");
        const [port, list, passes] = lend(this.#port, listed, 8);
        const answer = judged(raw.ipxr_edge_filter(number, port, list, count, at, length, passes));
        return answer === 1 ? raw.memory().slice(at, at + Number(inside.loaded().view.getBigUint64(passes, true))) : null;
    }

    /** The number that a neighbour claims for the cable by a packet from there, if it isn't the port's; else null. */
    claim(bytes) {
        const { at, length } = given(bytes, "the packet");
        const [port, network] = lend(this.#port, 4);
        const answer = judged(raw.ipxr_edge_claim(port, at, length, network));
        return answer === 1 ? inside.loaded().view.getUint32(network, true) : null;
    }

    /** Whether a packet that goes out answers a query for the nearest service, and names none that is nearer than `hops`. */
    isNeedless(hops, bytes) {
        const number = inside.whole(hops, 0xffff, "the hops");
        return this.#asked((port, at, length) => raw.ipxr_edge_is_needless(port, number, at, length), bytes).answer === 1;
    }

    /** A response of routes as if the node had sent it to all routers there: hand it to the router each minute. */
    writeRoutes(node, routes) {
        const list = packedList("ipxr_route_entry", routes.map(routeOf), "route", raw.IPXR_PACKET_ROUTES);
        return this.#write(raw.ipxr_edge_write_routes, nodeOf(node), list);
    }

    /** The same of services. */
    writeServices(node, services) {
        const list = packedList("ipxr_service_entry", services.map(entryOf), "service", raw.IPXR_PACKET_SERVICES);
        return this.#write(raw.ipxr_edge_write_services, nodeOf(node), list);
    }

    #write(call, node, { bytes, count }) {
        const [port, from, list] = lend(this.#port, node, bytes);
        return written(judged(call(port, from, list, count, output(), MOST_OUTPUT)));
    }
}

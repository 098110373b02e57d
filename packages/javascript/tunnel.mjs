// A server of DOSBox's tunnel as a value: the plain one, and one whose clients have nodes that you make. An event returns what came of it.
import { Fault } from "./numbers.mjs";
import * as raw from "./raw.mjs";
import { networkOf, nodeOf, socketOf } from "./text.mjs";
import { given, Held, judged, lend, listed, made, packed, read } from "./values.mjs";

const [NODE, BYTE] = [6, 0xff];
const SOCKETS = 1000;
// The records, which are read where a call wrote them.
const sized = (name) => raw.layouts[name].size;

// What both tunnels do, by the calls of one of them.
class AnyTunnel extends Held {
    #calls;
    #sender;

    constructor(calls, setting) {
        const bytes = packed(`${calls.name}_setting`, setting, "the setting");
        super(calls.name, calls.free, Fault.NO_TUNNEL);
        this.#calls = calls;
        this.#sender = calls.sender;
        made(this, calls.make(this.address, ...lend(bytes)));
    }

    /** A datagram arrived. Its fifth byte, the transport control, counts as 0, since DOSBox leaves there what its program wrote. */
    hear(sender, bytes) {
        const told = packed(this.#sender, sender, "the sender");
        const handle = this.address;
        const { at, length } = given(bytes, "the datagram");
        if (length > 4) raw.memory()[at + 4] = 0;
        const said = judged(this.#calls.hear(handle, ...lend(told), at, length));
        const carried = this.#calls.carried(handle);
        const packet = raw.memory().slice(at, at + carried);
        return { said, owns: this.#owns(), receivers: this.#receivers(), packet, isHeard: this.#calls.is_heard(handle) === 1 };
    }

    /** The router sends a packet on the tunnel's network to a node, or to all: who gets it. */
    send(node) {
        const bytes = nodeOf(node);
        judged(this.#calls.send(this.address, ...lend(bytes)));
        return this.#receivers();
    }

    /** Its clients, in the order in which they came. */
    clients() {
        return this.records(this.#calls.clients, this.#calls.client, this.#calls.member);
    }

    /** What `copy` has of each of so many, as objects. */
    records(count, copy, name) {
        const handle = this.address;
        const [at] = lend(sized(name));
        return listed(count(handle), (k) => copy(handle, k, at), () => read(name, at));
    }

    /** A second passed. */
    passed() {
        judged(this.#calls.second(this.address));
        return this.#owns();
    }

    #owns() {
        return this.records(this.#calls.owns, this.#calls.own, "ipxr_own");
    }

    #receivers() {
        return this.places(this.#calls.receivers, this.#calls.receiver);
    }

    /** Places, of each of which `copy` has the six bytes. */
    places(count, copy) {
        const handle = this.address;
        const [at] = lend(NODE);
        return listed(count(handle), (k) => copy(handle, k, at), () => raw.memory().slice(at, at + NODE));
    }
}

const PLAIN = {
    name: "ipxr_tunnel",
    sender: "ipxr_sender",
    member: "ipxr_client",
    make: raw.ipxr_tunnel_make,
    free: raw.ipxr_tunnel_free,
    hear: raw.ipxr_tunnel_hear,
    second: raw.ipxr_tunnel_second,
    send: raw.ipxr_tunnel_send,
    owns: raw.ipxr_tunnel_owns,
    own: raw.ipxr_tunnel_own,
    receivers: raw.ipxr_tunnel_receivers,
    receiver: raw.ipxr_tunnel_receiver,
    carried: raw.ipxr_tunnel_carried,
    is_heard: raw.ipxr_tunnel_is_heard,
    clients: raw.ipxr_tunnel_clients,
    client: raw.ipxr_tunnel_client,
};

const KEYED = {
    name: "ipxr_keyed",
    sender: "ipxr_keyed_sender",
    member: "ipxr_keyed_member",
    make: raw.ipxr_keyed_make,
    free: raw.ipxr_keyed_free,
    hear: raw.ipxr_keyed_hear,
    second: raw.ipxr_keyed_second,
    send: raw.ipxr_keyed_send,
    owns: raw.ipxr_keyed_owns,
    own: raw.ipxr_keyed_own,
    receivers: raw.ipxr_keyed_receivers,
    receiver: raw.ipxr_keyed_receiver,
    carried: raw.ipxr_keyed_carried,
    is_heard: raw.ipxr_keyed_is_heard,
    clients: raw.ipxr_keyed_clients,
    client: raw.ipxr_keyed_client,
};

/** A tunnel whose clients' nodes are their places. */
export class Tunnel extends AnyTunnel {
    constructor(setting) {
        super(PLAIN, setting);
    }

    /** A second passed: its own datagrams, and the places of the clients that left. */
    second() {
        return { owns: this.passed(), leavers: this.places(raw.ipxr_tunnel_leavers, raw.ipxr_tunnel_leaver) };
    }
}

/** A tunnel whose clients have the nodes that you make for their places. */
export class KeyedTunnel extends AnyTunnel {
    constructor(setting) {
        super(KEYED, setting);
    }

    /** A second passed: its own datagrams, of which the first `pings` are pings of clients, and the clients that left. */
    second() {
        const owns = this.passed();
        const leavers = this.records(raw.ipxr_keyed_leavers, raw.ipxr_keyed_leaver, "ipxr_keyed_member");
        return { owns, pings: raw.ipxr_keyed_pings(this.address), leavers };
    }

    /** Who registered and is remembered, in the order in which they came. */
    waiters() {
        return this.records(raw.ipxr_keyed_waiters, raw.ipxr_keyed_waiter, "ipxr_keyed_member");
    }
}

/** The copy of a broadcast for the network `to`, if it came on `network` and is copied there for one of these sockets; else null. */
export function extend(network, sockets, to, packet) {
    const [here, there] = [networkOf(network), networkOf(to, "the other network")];
    const numbers = Array.from(sockets, (it) => socketOf(it));
    const list = Uint8Array.from(numbers.flatMap((it) => [it & BYTE, it >> 8]));
    const { at, length } = given(packet, "the packet");
    for (let k = 0; k < numbers.length; k += SOCKETS) {
        const [listed_at] = lend(list.subarray(2 * k, 2 * (k + SOCKETS)));
        if (raw.ipxr_tunnel_extend(here, listed_at, Math.min(SOCKETS, numbers.length - k), there, at, length) === 1)
            return raw.memory().slice(at, at + length);
    }
    return null;
}

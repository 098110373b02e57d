// What a gateway lets pass where many send more than somebody can read. A call that decides returns one of Verdict.
import { inside } from "./ipxr.mjs";
import { Clock, Fair, Meter, refused } from "./fair.mjs";
import * as raw from "./raw.mjs";
import { addressIn, given, Held, lend, packed, read } from "./values.mjs";

const [BYTE, SHORT, LONG] = [0xff, 0xffff, 0xffffffff];
const byte = (value, what) => inside.whole(value, BYTE, what);
const short = (value, what) => inside.whole(value, SHORT, what);
const long = (value, what) => inside.whole(value, LONG, what);
const size = (bytes) => inside.whole(bytes, LONG, "the number of bytes");

/** What a packet is, as far as limits differ: one of PacketKind. */
export function kindOf(packet) {
    const { at, length } = given(packet, "the packet");
    return raw.ipxr_kind_of(at, length);
}

// A part of a value, which lies within the block of that.
function part(name, field) {
    return raw.layouts[name].fields[field][1];
}

// Something that the time passes for.
class Used extends Held {
    #clock = new Clock();
    #look;

    constructor(name, look) {
        super(name);
        this.#look = look;
    }

    /** The time passes that your clock shows beyond what it showed at the last look. */
    look(now) {
        this.#clock.look(now, (last, time) => this.#look(this.address, last, time));
    }
}

/** What waits for somebody who reads packets of a network. */
export class Reader extends Used {
    constructor(limits) {
        const at = addressIn(limits, Limits, "the network's limits");
        super("ipxr_reader", raw.ipxr_reader_look);
        const received = at + part("ipxr_limits", "received");
        raw.ipxr_fair_make(this.address + part("ipxr_reader", "packets"), received + part("ipxr_reading", "packets"));
        raw.ipxr_fair_make(this.address + part("ipxr_reader", "pieces"), received + part("ipxr_reading", "pieces"));
    }
}

/** What a client uses of its limits. */
export class ClientUse extends Used {
    constructor() {
        super("ipxr_client_use", raw.ipxr_client_look);
    }
}

/** What all clients of an address use. */
export class AddressUse extends Used {
    constructor() {
        super("ipxr_address_use", raw.ipxr_address_look);
    }
}

const readerIn = (it) => addressIn(it, Reader, "the reader");
const clientIn = (it) => addressIn(it, ClientUse, "what the client uses");
const addressUseIn = (it) => addressIn(it, AddressUse, "what the address uses");
const meterIn = (it, what) => addressIn(it, Meter, what);
const fairIn = (it, what) => addressIn(it, Fair, what);

/** The limits of a network. */
export class Limits extends Held {
    /** `link` is one of LimitsLink, `rate` how many packets a second a client receives, `share` what one says who says little. */
    constructor({ link, rate, share, routes = raw.IPXR_NO_LIMIT, services = raw.IPXR_NO_LIMIT }) {
        const numbers = [byte(link, "the link"), long(rate, "the rate"), long(share, "the share"), short(routes, "the routes"),
            short(services, "the services")];
        super("ipxr_limits");
        refused(this, raw.ipxr_limits_make(this.address, ...numbers), "network's limits");
    }

    /** The limits themselves, as the header has them. */
    numbers() {
        return read("ipxr_limits", this.address);
    }

    /** Limits of your own: an object such as `numbers` returns. */
    set(numbers) {
        raw.memory().set(packed("ipxr_limits", numbers, "the limits"), this.address);
    }

    /** Whether a packet of that kind, which a client says, goes on. `all` is used of its network's limit of pings. */
    says(kind, client, all) {
        return raw.ipxr_limits_says(this.address, byte(kind, "the kind"), clientIn(client), meterIn(all, "all pings"));
    }

    /** The same of a packet that came in a frame. */
    framesSay(kind, all) {
        return raw.ipxr_limits_frames_say(this.address, byte(kind, "the kind"), meterIn(all, "all pings"));
    }

    /** Whether the gateway answers a client that registers or pings, whose address has so many clients. */
    answers(clients, client, address) {
        return raw.ipxr_limits_answers(this.address, long(clients, "the clients"), clientIn(client), addressUseIn(address));
    }

    /** Whether a client gets a packet by which the router answers it. */
    routerAnswers(clients, client, address) {
        return raw.ipxr_limits_router_answers(this.address, long(clients, "the clients"), clientIn(client), addressUseIn(address));
    }

    /** Whether the router hears a packet of that kind of a client. */
    hands(clients, kind, client, address, handed, advertised) {
        return raw.ipxr_limits_hands(this.address, long(clients, "the clients"), byte(kind, "the kind"), clientIn(client),
            addressUseIn(address), meterIn(handed, "what was handed"), meterIn(advertised, "what was advertised"));
    }

    /** Whether the router hears a packet of that kind of a link with frames, whose queue among all such links has that number. */
    framesHand(link, kind, asked, advertised, links) {
        return raw.ipxr_limits_frames_hand(this.address, byte(link, "the link"), byte(kind, "the kind"), meterIn(asked, "what was asked"),
            meterIn(advertised, "what was advertised"), fairIn(links, "what all links told"));
    }

    /** Whether a client whose address has no limits receives a packet of so many bytes, of somebody who has that queue there. */
    receives(client, queue, bytes) {
        return raw.ipxr_limits_receives(this.address, readerIn(client), byte(queue, "the queue"), size(bytes));
    }

    /** The same client receives a packet of the router: it isn't dropped. */
    hearsRouter(client, queue, bytes) {
        raw.ipxr_limits_hears_router(this.address, readerIn(client), byte(queue, "the queue"), size(bytes));
    }

    /** Whether a link with frames gets a packet in so many frames. */
    carries(link, queue, bytes, frames) {
        return raw.ipxr_limits_carries(this.address, readerIn(link), byte(queue, "the queue"), size(bytes), long(frames, "the frames"));
    }
}

/** What all links with frames tell the router, where none has told anything yet. */
export function toldByLinks() {
    const links = new Fair();
    raw.ipxr_told_make(links.address);
    return links;
}

/** What all clients of an address receive, so many packets a second. */
export class HouseholdLimits extends Held {
    constructor(rate) {
        const number = long(rate, "the rate");
        super("ipxr_household_limits");
        refused(this, raw.ipxr_household_make(this.address, number), "address' limits");
    }

    /** The receiver of an address with these limits. */
    receiver() {
        return new Fair(read("ipxr_household_limits", this.address).received);
    }

    /** Whether a client receives a packet of another address: both the client and its address must have room. */
    receives(limits, client, address, queue, bytes) {
        return raw.ipxr_household_receives(this.address, addressIn(limits, Limits, "the network's limits"), readerIn(client),
            fairIn(address, "what the address receives"), byte(queue, "the queue"), size(bytes));
    }

    /** The same of a packet of its own address. */
    receivesOfOwn(limits, client, among, queue, bytes) {
        return raw.ipxr_household_receives_of_own(this.address, addressIn(limits, Limits, "the network's limits"), readerIn(client),
            meterIn(among, "what is said among them"), byte(queue, "the queue"), size(bytes));
    }

    /** The same of a packet of the router. */
    receivesOfRouter(limits, client, address, queue, bytes) {
        return raw.ipxr_household_receives_of_router(this.address, addressIn(limits, Limits, "the network's limits"), readerIn(client),
            fairIn(address, "what the address receives"), byte(queue, "the queue"), size(bytes));
    }
}

/** What goes to places without a client, so many datagrams a second. */
export class StrangersLimits extends Held {
    constructor(rate) {
        const number = rate === undefined ? undefined : long(rate, "the rate");
        super("ipxr_strangers_limits");
        if (number !== undefined) refused(this, raw.ipxr_strangers_make(this.address, number), "strangers' limits");
    }

    /** Whether so many datagrams go to a place without a client: all of them or none. */
    send(count, address, all) {
        return raw.ipxr_strangers_send(this.address, long(count, "the count"), meterIn(address, "what went to the address"),
            meterIn(all, "what went to all"));
    }
}

/** Who has which queue. */
export class Queues extends Held {
    constructor() {
        super("ipxr_queues");
    }

    /** Gives somebody who begins to speak a queue, of those from the first to the last. */
    take(first, last) {
        return raw.ipxr_queues_take(this.address, byte(first, "the first"), byte(last, "the last"));
    }

    /** Somebody who shares his queue gets one that nobody has, if there is one. Returns the one that he has then. */
    unshare(queue, first, last) {
        return raw.ipxr_queues_unshare(this.address, byte(queue, "the queue"), byte(first, "the first"), byte(last, "the last"));
    }

    /** Somebody who has that queue speaks no more. */
    giveBack(queue) {
        raw.ipxr_queues_give_back(this.address, byte(queue, "the queue"));
    }

    /** How many have each. */
    users() {
        return read("ipxr_queues", this.address).users;
    }
}

// ---- A narrow line. Moments are nanoseconds of your clock. ----

/** A moment that calls write, such as the one until which a speaker's part is used: 0 at first. */
export class Moment extends Held {
    constructor() {
        super("ipxr_asked");
    }

    get nanoseconds() {
        return read("ipxr_asked", this.address).again;
    }
}

/** An address that has clients at the end of a line, or speaks to such. */
export class LineAddress extends Held {
    constructor() {
        super("ipxr_line_address");
    }

    state() {
        return read("ipxr_line_address", this.address);
    }
}

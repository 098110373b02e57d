// What becomes of each packet that comes to a gateway.
import { inside } from "./ipxr.mjs";
import * as raw from "./raw.mjs";
import { addressIn, Held, read } from "./values.mjs";

/** The way of a packet: ask what is next, and answer, until it is Next.END. */
export class Course extends Held {
    constructor(begin) {
        if (begin !== raw.ipxr_course_of_frame && begin !== raw.ipxr_course_of_datagram) throw new TypeError("ask Course.ofFrame()");
        super("ipxr_course");
        begin(this.address);
    }

    /** Of what came on a cable with frames. */
    static ofFrame() {
        return new Course(raw.ipxr_course_of_frame);
    }

    /** Of what came at a tunnel. */
    static ofDatagram() {
        return new Course(raw.ipxr_course_of_datagram);
    }

    /** What is next was answered, by a number, or by true or false. */
    answer(it) {
        raw.ipxr_course_answer(this.address, inside.whole(typeof it === "boolean" ? Number(it) : it, 0xffff, "the answer"));
    }

    get next() {
        return read("ipxr_course", this.address).next;
    }

    get fate() {
        return read("ipxr_course", this.address).fate;
    }

    get number() {
        return read("ipxr_course", this.address).number;
    }
}

/** How many packets had each fate. */
export class Counts extends Held {
    constructor() {
        super("ipxr_counts");
    }

    /** Counts the fate of a packet that is at the end of its way. */
    count(course) {
        raw.ipxr_counts_count(this.address, addressIn(course, Course, "the way"));
    }

    /** Counts that something is lost, for one of Lost. */
    lose(why) {
        raw.ipxr_counts_lose(this.address, inside.whole(why, 0xff, "the reason"));
    }

    /** All counts: `in`, `lost` by Lost, and `dropped` by number / 100 * 10 + number % 100. */
    values() {
        const { in: came, lost, dropped } = read("ipxr_counts", this.address);
        return { in: came, lost, dropped };
    }

    /** How many the router dropped for one of Drop. */
    droppedFor(drop) {
        return read("ipxr_counts", this.address).dropped[Math.floor(drop / 100) * 10 + (drop % 100)];
    }
}

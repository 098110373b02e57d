// A narrow line to clients, whose width is shared by those who receive and those who speak.
import { inside } from "./ipxr.mjs";
import { LineAddress, Moment, StrangersLimits } from "./limits.mjs";
import * as raw from "./raw.mjs";
import { addressIn, Held, lend, read, timeOf } from "./values.mjs";

const [BYTE, LONG] = [0xff, 0xffffffff];
const numberOf = (number) => inside.whole(number, BYTE, "the speaker's number");
const size = (bytes) => inside.whole(bytes, LONG, "the number of bytes");
const addressOf = (it) => addressIn(it, LineAddress, "the address");
const momentOf = (it) => addressIn(it, Moment, "the moment");

/** A line of so many kilobits a second. Times are nanoseconds of your clock. */
export class Line extends Held {
    constructor(kilobits) {
        inside.whole(kilobits, LONG, "the kilobits");
        super("ipxr_line");
        this.setKilobits(kilobits);
    }

    setKilobits(kilobits) {
        const [, place] = raw.layouts.ipxr_line.fields.kilobits;
        const number = inside.whole(kilobits, LONG, "the kilobits");
        inside.loaded().view.setUint32(this.address + place, number, true);
    }

    state() {
        return read("ipxr_line", this.address);
    }

    /** An address has one more client there. */
    join(address) {
        raw.ipxr_line_join(this.address, addressOf(address));
    }

    /** Or one fewer. */
    leave(address) {
        raw.ipxr_line_leave(this.address, addressOf(address));
    }

    /** An address speaks. Returns the number that it has then. */
    speak(address) {
        return raw.ipxr_line_speak(this.address, addressOf(address));
    }

    /** A second passes for an address. */
    second(address) {
        raw.ipxr_line_second(this.address, addressOf(address));
    }

    /** An address is gone. */
    silence(address) {
        raw.ipxr_line_silence(this.address, addressOf(address));
    }

    /** Whether there is room for a copy of so many bytes to an address: one of LineRank. */
    room(now, number, bytes, said, to) {
        return raw.ipxr_line_room(this.address, timeOf(now), numberOf(number), size(bytes), momentOf(said), addressOf(to));
    }

    /** It goes out with that rank. */
    send(now, number, bytes, rank, said, to) {
        raw.ipxr_line_send(this.address, timeOf(now), numberOf(number), size(bytes), inside.whole(rank, BYTE, "the rank"), momentOf(said),
            addressOf(to));
    }

    /** Whether there is room beyond all parts. */
    letsBeyond(now) {
        return raw.ipxr_line_lets_beyond(this.address, timeOf(now));
    }

    /** Whether an answer of your own goes out to a client; then `sendAnswer`. */
    letsAnswer(now, address) {
        return raw.ipxr_line_lets_answer(this.address, timeOf(now), momentOf(address));
    }

    sendAnswer(now, bytes, address) {
        raw.ipxr_line_send_answer(this.address, timeOf(now), size(bytes), momentOf(address));
    }

    /** A ping goes out, for which there is always room. */
    sendPing(now, bytes) {
        raw.ipxr_line_send_ping(this.address, timeOf(now), size(bytes));
    }

    /** Whether something goes out to one who is no client; then `sendToStranger`. */
    letsStranger(now, address) {
        return raw.ipxr_line_lets_stranger(this.address, timeOf(now), momentOf(address));
    }

    sendToStranger(now, bytes, address) {
        raw.ipxr_line_send_to_stranger(this.address, timeOf(now), size(bytes), momentOf(address));
    }

    /** Limits of what goes to all who are no clients by this line. */
    strangers() {
        const limits = new StrangersLimits();
        raw.ipxr_line_strangers(this.address, limits.address);
        return limits;
    }

    /** Nanoseconds that should pass from a ping of so many bytes to the next. */
    betweenPings(bytes) {
        const [at] = lend(8);
        raw.ipxr_line_between_pings(this.address, size(bytes), at);
        return inside.loaded().view.getBigUint64(at, true);
    }
}

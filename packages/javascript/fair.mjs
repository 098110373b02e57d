// Fair shares: who speaks to somebody that reads only so fast. All times are nanoseconds: a bigint, or a whole number.
import { inside } from "./ipxr.mjs";
import * as raw from "./raw.mjs";
import { addressIn, Held, lend, packed, read, timeOf } from "./values.mjs";

const speakerOf = (speaker) => inside.whole(speaker, 0xff, "the speaker");
const weightOf = (weight) => timeOf(weight, "the weight");

/** The clock of a value: what it showed at the last look. The first look only begins. */
export class Clock {
    #last;

    /** Calls `look` with the address of what the clock showed last, and with what it shows now. */
    look(now, look) {
        const time = timeOf(now);
        this.#last ??= time;
        const bytes = new Uint8Array(8);
        new DataView(bytes.buffer).setBigUint64(0, this.#last, true);
        look(...lend(bytes), time);
        this.#last = time;
    }
}

/** What can't be made of a setting. */
export function refused(it, isMade, what) {
    if (isMade) return;
    it.free();
    throw new RangeError(`there is no ${what} of this setting`);
}

/** Somebody who reads, with a queue for each speaker. */
export class Fair extends Held {
    #clock = new Clock();

    /** Of a setting, or, without one, a receiver that hears only packets of no weight. */
    constructor(setting) {
        const bytes = setting === undefined ? undefined : packed("ipxr_fair_setting", setting, "the setting");
        super("ipxr_fair");
        if (bytes) refused(this, raw.ipxr_fair_make(this.address, ...lend(bytes)), "receiver");
    }

    /** The time passes that your clock shows beyond what it showed at the last look. */
    look(now) {
        this.#clock.look(now, (last, time) => raw.ipxr_fair_look(this.address, last, time));
    }

    /** So many nanoseconds pass. */
    pass(nanoseconds) {
        raw.ipxr_fair_pass(this.address, timeOf(nanoseconds));
    }

    /** A speaker says a packet of that weight. Returns whether it is heard: then send it. */
    says(speaker, weight) {
        return raw.ipxr_fair_says(this.address, speakerOf(speaker), weightOf(weight));
    }

    /** The same of a packet that two receivers must hear. */
    bothHear(other, speaker, weight, otherWeight) {
        const at = addressIn(other, Fair, "the other receiver");
        return raw.ipxr_fair_both_hear(this.address, at, speakerOf(speaker), weightOf(weight), weightOf(otherWeight));
    }

    /** What it has now, as the header has it. */
    state() {
        return read("ipxr_fair", this.address);
    }
}

/** A limit for one speaker: so much in so much time, and so much at once. */
export class Meter extends Held {
    constructor() {
        super("ipxr_meter");
    }

    pass(nanoseconds) {
        raw.ipxr_meter_pass(this.address, timeOf(nanoseconds));
    }

    /** Lets something pass if no more than `burst` is used then, and counts it. */
    lets(burst, weight) {
        return raw.ipxr_meter_lets(this.address, timeOf(burst, "the burst"), weightOf(weight));
    }

    /** The same by two meters: both count it, or neither. */
    bothLet(burst, weight, other, otherBurst, otherWeight) {
        const at = addressIn(other, Meter, "the other meter");
        return raw.ipxr_meter_both_let(this.address, timeOf(burst), weightOf(weight), at, timeOf(otherBurst), weightOf(otherWeight));
    }

    get used() {
        return read("ipxr_meter", this.address).used;
    }
}

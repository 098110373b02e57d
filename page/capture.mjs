// An opened capture: the text of `ipxr decode`, in which the records are found again, and the bytes of each.
import { hexOf } from "./bytes.mjs";
import { Filter } from "./filter.mjs";
import { conversations } from "./conversations.mjs";
import { Places } from "./pcap.mjs";
import { classic, isPcapng } from "./pcapng.mjs";
import { recordOf } from "./records.mjs";
import { Unanswered } from "./unanswered.mjs";
import { wrongFile } from "./wrong_file.mjs";

const BEGIN = "record ";

// Where each record begins in a text, and where the last one ends: behind it may stand a fault of the file.
function starts(text) {
    const found = [];
    let at = text.startsWith(BEGIN) ? 0 : -1;
    while (at >= 0) {
        found.push(at);
        const next = text.indexOf(`\n${BEGIN}`, at);
        at = next < 0 ? -1 : next + 1;
    }
    const last = found[found.length - 1];
    const isFault = found.length > 0 && /^record \d+: /.test(text.slice(last, last + 60));
    if (!isFault) found.push(text.length);
    return { found, fault: isFault ? text.slice(last).trim() : "" };
}

class Capture {
    constructor(bytes, done, skipped) {
        this.text = new TextDecoder().decode(done.text);
        Object.assign(this, { status: done.status, error: done.error, took: done.took, skipped, places: new Places(bytes) });
        const { found, fault } = starts(this.text);
        Object.assign(this, { starts: found, fault, why: wrongFile(bytes, fault), count: Math.max(found.length - 1, 0) });
        this.unanswered = new Unanswered(this.count, (place) => this.textAt(place), (place) => this.time(place));
        this.choose({});
    }

    // What the page is told when it is opened.
    told() {
        const { count, fault, why, status, error, took, skipped } = this;
        return { count, fault, why, status, error, took, skipped };
    }

    textAt(place) {
        return this.text.slice(this.starts[place], this.starts[place + 1]);
    }

    choose(typed) {
        const filter = new Filter(typed);
        this.isAll = filter.isEmpty;
        this.chosen = [];
        for (let k = 0; !this.isAll && k < this.count; k++) {
            if (filter.fits(this.textAt(k), (it) => this.unanswered.silence(k, it))) this.chosen.push(k);
        }
        return this.length();
    }

    length() {
        return this.isAll ? this.count : this.chosen.length;
    }

    place(k) {
        return this.isAll ? k : this.chosen[k];
    }

    time(place) {
        return place < this.places.starts.length ? this.places.time(place) - this.places.time(0) : 0;
    }

    row(k) {
        const place = this.place(k);
        const link = place < this.places.starts.length ? this.places.link(place) : null;
        return { ...this.read(place), link };
    }

    rows(from, to) {
        return Array.from({ length: Math.max(Math.min(to, this.length()) - from, 0) }, (_, k) => this.row(from + k));
    }

    // What a record says, and that nobody answers it, if it is such a query.
    read(place) {
        const it = recordOf(this.textAt(place).trimEnd().split("\n"));
        return { ...it, place, time: this.time(place), silence: this.unanswered.silence(place, it) };
    }

    // One record, and its bytes.
    record(place) {
        return { ...this.read(place), hex: hexOf(this.places.frame(place)) };
    }

    totals() {
        return conversations(this.length(), (k) => this.textAt(this.place(k)));
    }

    ladder(most) {
        return this.rows(0, most);
    }

    chosenText() {
        return this.isAll ? this.text : this.chosen.map((it) => this.textAt(it)).join("");
    }
}

// Opens the bytes of a file: `decode` plays them to the program.
export function openCapture(bytes, decode) {
    const { bytes: plain, skipped } = isPcapng(bytes) ? classic(bytes) : { bytes, skipped: [] };
    const begun = performance.now();
    const done = decode(plain);
    return new Capture(plain, { ...done, took: performance.now() - begun }, skipped);
}

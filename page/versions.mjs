// The versions of a text: what was put there by an act, and what was typed, each of which can be taken back and had again. What is typed
// without a rest is one version.

// As many can be taken back.
const MOST = 100;
const REST = 1000;

export class Versions {
    // `now` gives the time in milliseconds.
    constructor(text = "", now = Date.now) {
        Object.assign(this, { text, now, past: [], future: [], typedAt: -Infinity });
    }

    get hasPast() {
        return this.past.length > 0;
    }

    get hasFuture() {
        return this.future.length > 0;
    }

    // A text that takes the place of the one before.
    put(text) {
        this.typedAt = -Infinity;
        this.add(text);
    }

    // What has been typed so far.
    type(text) {
        if (text === this.text) return;
        const goesOn = this.now() - this.typedAt < REST;
        this.typedAt = this.now();
        if (goesOn) Object.assign(this, { text, future: [] });
        else this.add(text);
    }

    add(text) {
        if (text === this.text) return;
        this.past.push(this.text);
        if (this.past.length > MOST) this.past.shift();
        Object.assign(this, { text, future: [] });
    }

    // The version before, and the one behind: what was there when neither is there.
    back() {
        return this.moved(this.past, this.future);
    }

    on() {
        return this.moved(this.future, this.past);
    }

    moved(from, to) {
        this.typedAt = -Infinity;
        if (!from.length) return this.text;
        to.push(this.text);
        this.text = from.pop();
        return this.text;
    }
}

// The program, as the page asks for it: it runs in a worker, which is thrown away where a run is stopped.

// What a stopped run fails with.
export class Stopped extends Error {}

export class Program {
    // `code` is the text of the worker, `bytes` the module; `busy` is told when a run begins, how far it is, and when none is left.
    constructor(code, bytes, busy) {
        Object.assign(this, { code, bytes, busy, waiting: new Map(), count: 0 });
        this.begin();
    }

    begin() {
        const place = URL.createObjectURL(new Blob([this.code], { type: "text/javascript" }));
        this.worker = new Worker(place);
        this.worker.onmessage = ({ data }) => this.heard(data);
        this.worker.onerror = (why) => this.failAll(new Error(why.message || "the worker failed"));
        this.ask("module", { bytes: this.bytes }).catch(() => {});
    }

    heard({ id, answer, fault, share }) {
        if (share !== undefined) {
            this.busy(share);
            return;
        }
        const one = this.waiting.get(id);
        this.waiting.delete(id);
        if (!this.waiting.size) this.busy();
        if (fault) one?.fail(new Error(fault));
        else one?.done(answer);
    }

    failAll(why) {
        const all = [...this.waiting.values()];
        this.waiting.clear();
        this.busy();
        for (const it of all) it.fail(why);
    }

    ask(act, more = {}, handed = []) {
        const id = ++this.count;
        return new Promise((done, fail) => {
            this.waiting.set(id, { done, fail });
            this.busy(0);
            this.worker.postMessage({ id, act, ...more }, handed);
        });
    }

    run(verb, input, isByLine = false) {
        return this.ask("run", { verb, input, isByLine });
    }

    get isBusy() {
        return this.waiting.size > 0;
    }

    stop() {
        if (!this.isBusy) return;
        this.worker.terminate();
        this.failAll(new Stopped("stopped"));
        this.begin();
    }
}

// Which packets move between the routers of an internet. `ipxr internet` tells only how many wait; so each router is played for itself by
// `ipxr replay`, which tells what it sends, and this brings it to whom it is for: first in first out, as docs/SCRIPTS.md says. What waits
// after each settle must be what `ipxr internet` says of it; from the first settle where it isn't, nothing is shown.
import { answers } from "./timeline.mjs";
import { EVERYONE, short } from "./bytes.mjs";

// More than this isn't followed: runs of a router, packets, seconds.
const [MOST_RUNS, MOST_PACKETS, MOST_SECONDS] = [2500, 6000, 8000];

const DIFFERS = "from here on the page counts other packets than ipxr";

// One router: the lines that it was told, and the answers to those that it has played.
class Played {
    constructor(ports, play) {
        this.lines = ports;
        this.play = play;
        this.done = ports.length;
    }

    tell(line) {
        this.lines.push(line);
        return this.lines.length - 1;
    }

    // Plays what it was told since; the answers to each line.
    catchUp() {
        if (this.done === this.lines.length) return this.said;
        const { text, ends } = this.play(`${this.lines.join("\n")}\n`);
        this.said = answers(text, ends, this.lines.length);
        this.done = this.lines.length;
        return this.said;
    }
}

class Traffic {
    constructor(script, play) {
        Object.assign(this, { script, runs: 0, seconds: 0, packets: 0, pending: [], queue: [], moved: new Map() });
        const counted = (text) => (this.runs++, play(text));
        this.routers = script.routers.map((it) => new Played(it.ports.map((port) => script.lines[port.line].text), counted));
    }

    // An event of a router, as by a packet that is handed out; what it says and sends for that is looked at when all have caught up.
    event(router, line, packet = {}) {
        if (this.routers[router]) this.pending.push({ router, at: this.routers[router].tell(line), packet });
    }

    // Lets the routers play their events, and puts what they send behind what waits; of a packet that one drops it says why.
    catchUp() {
        for (const it of this.routers) it.catchUp();
        for (const { router, at, packet } of this.pending) {
            for (const line of this.routers[router].said[at] ?? []) {
                const words = line.split(" ");
                if (words[0] === "out") this.send(router, words);
                if (words[0] === "drop") packet.dropped = words[1];
            }
        }
        this.pending = [];
    }

    // To the ports of other routers that a packet is for, by router and port.
    send(from, [, port, node, hex]) {
        const { network } = this.script.routers[from].ports[+port];
        this.script.routers.forEach((it, to) => {
            if (to === from) return;
            it.ports.forEach((other, k) => {
                const isFor = other.network === network && (node === EVERYONE || other.node === short(node));
                if (isFor) this.queue.push({ from, network, to, port: k, hex });
            });
        });
    }

    // Hands out at most so many. All that waits at one moment is one batch: what they cause waits behind them.
    settle(limit) {
        const moved = [];
        this.catchUp();
        while (moved.length < limit && this.queue.length && !this.excess) {
            const batch = this.queue.splice(0, limit - moved.length);
            moved.push(...batch);
            this.packets += batch.length;
            for (const it of batch) this.event(it.to, `in ${it.port} ${it.hex}`, it);
            this.catchUp();
        }
        return moved;
    }

    // What there was more of than is followed, in words, or nothing.
    get excess() {
        if (this.packets > MOST_PACKETS) return `the page follows the first ${MOST_PACKETS} deliveries of a run`;
        if (this.seconds > MOST_SECONDS) return `the page follows the first ${MOST_SECONDS} seconds of a run`;
        return this.runs > MOST_RUNS ? `the page plays single routers ${MOST_RUNS} times at most` : "";
    }

    command([command, ...words]) {
        if (["start", "stop"].includes(command)) this.event(+words[0], command);
        if (["down", "up"].includes(command)) this.event(+words[0], `${command} ${words[1]}`);
        if (command === "in") this.event(+words[0], `in ${words[1]} ${words[2]}`);
        if (command !== "second") return;
        this.seconds += +words[0];
        if (this.excess) return;
        for (let k = 0; k < +words[0]; k++) this.routers.forEach((_, router) => this.event(router, "second 1"));
    }
}

const leftOf = (said) => (said?.[0] === "quiet" ? 0 : +(/^left (\d+)$/.exec(said?.[0] ?? "")?.[1] ?? -1));

// The packets that each settle of a script hands out, by its line, with the reason of those that were dropped where they came; and why there are none of later ones, if some were left out. `said` are
// the answers of `ipxr internet` to each line; `play` plays a text to `ipxr replay`.
export function moves(script, said, play) {
    const traffic = new Traffic(script, play);
    for (const { line, words } of script.acts) {
        if (traffic.excess || (said[line] ?? []).some((it) => it.startsWith("line "))) break;
        if (words[0] !== "settle") {
            traffic.command(words);
            continue;
        }
        const moved = traffic.settle(+words[1]);
        if (traffic.excess) break;
        if (leftOf(said[line]) !== traffic.queue.length) return { moved: traffic.moved, why: DIFFERS };
        traffic.moved.set(line, moved);
    }
    return { moved: traffic.moved, why: traffic.excess };
}

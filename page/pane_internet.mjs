// The pane Internet: the map of a script of `ipxr internet`, the tables of the router that is chosen, and acts that write lines.
import { drawMoments, mapAt } from "./side_by_side.mjs";
import { draw, isNarrow, made } from "./dom.mjs";
import { droppedBy, receptions, sentences, waysIn, waysOf } from "./traces.mjs";
import { captureOf } from "./pcap.mjs";
import { answers, isChanged } from "./timeline.mjs";
import { answered, questions } from "./hops.mjs";
import { padded } from "./bytes.mjs";
import { plan } from "./internet_map.mjs";
import { reason } from "./reasons.mjs";
import { recordsOf } from "./records.mjs";
import { ScriptPane } from "./pane_script.mjs";
import { Stopped } from "./program.mjs";
import { tablesOf } from "./tables_view.mjs";

// As many packets of a settle are told in words.
const MOST_TOLD = 60;

export class InternetPane extends ScriptPane {
    constructor(program, kind, page, aside) {
        super(program, kind, page);
        this.aside = aside;
    }

    right() {
        const it = super.right();
        this.beside = made("input", { type: "checkbox", onchange: () => this.draw(...this.last) });
        const label = made("label", { class: "fine", title: "before something fails, as it fails, and afterwards" }, this.beside,
            "side by side");
        it.querySelector(".fine").after(label);
        return it;
    }

    // The steps, and where traced packets were sent that no router received.
    async refined(script, done) {
        const told = await super.refined(script, done);
        const asked = questions(told.shown, told.steps);
        if (!asked) return told;
        const { text, ends } = await this.program.run(this.kind.verb, asked.text, true);
        answered(asked, answers(text, ends, asked.count));
        return told;
    }

    // The plan changes only with routers, ports and hosts, so that the map stays as it is while a script is typed.
    plan() {
        const isTall = isNarrow();
        const shape = JSON.stringify([isTall, this.script.routers.map((it) => [it.name, it.ports.map((port) => port.network)]),
            this.script.hosts]);
        if (shape === this.shape) return;
        this.shape = shape;
        this.found = this.script.routers.length ? plan(this.script, isTall) : null;
        if (!this.found?.at.has(this.chosen)) this.chosen = this.script.routers.length ? "router 0" : "";
    }

    draw(step, found, moved = null) {
        Object.assign(this, { last: [step, found, moved] });
        if (!this.found) {
            this.drawing = null;
            this.picture.replaceChildren(made("p", { class: "none" }, "Choose an example, or add a router."));
            this.tables.replaceChildren();
            return;
        }
        this.drawing = this.beside.checked ? drawMoments(this.script, this.steps) : this.mapOf(step, found, moved);
        const chosen = this.beside.checked ? `moment ${this.at}` : this.chosen;
        if (this.drawing) draw(this.picture, this.drawing, (key) => this.choose(key), chosen);
        else this.picture.replaceChildren(made("p", { class: "none" }, "No port goes down here, and no router stops."));
        this.drawTables(step, found);
        if (receptions(step.said).length) this.said.textContent = sentences(step, this.script).map((it) => it.text).join("\n");
        if (moved) this.said.textContent = [...step.said, ...moved.sentences].join("\n");
        else if (step.words[0] === "settle") this.follow(step, found);
    }

    mapOf(step, found, moved) {
        const told = [step, ...this.causes(step)];
        const came = waysIn(told, this.script.routers);
        const all = moved ? [...came, ...waysOf(moved.packets, moved.kinds)] : came;
        const ways = all.length && { trace: all, lost: droppedBy(told) };
        const dropped = (moved?.packets ?? []).filter((it) => it.dropped).map((it) => it.to);
        if (ways) ways.lost = [...new Set([...ways.lost, ...dropped])];
        return mapAt(this.script, this.found, step, { changed: found.map(isChanged), chosen: this.chosen, ...ways });
    }

    // The packets that a settle handed out are found aside, and drawn when they are there.
    async follow(step, found) {
        if (this.followed !== this.steps) {
            this.followed = this.steps;
            this.moved = this.aside.ask("moves", { text: this.shown.text });
        }
        try {
            const { moved: all, why } = await this.moved;
            const packets = all.get(step.line);
            if (this.steps[this.at] !== step) return;
            if (!packets && why) this.said.textContent = [...step.said, `(no deliveries are shown: ${why})`].join("\n");
            if (!packets?.length) return;
            const read = await this.aside.run("decode", captureOf(packets.slice(0, MOST_TOLD)));
            const labels = recordsOf(read.text).records;
            const moved = { packets, kinds: labels.map((it) => it.kind), sentences: this.told(packets, labels) };
            if (this.steps[this.at] === step) this.draw(step, found, moved);
        } catch (why) {
            if (!(why instanceof Stopped)) throw why;
            this.followed = null;
        }
    }

    told(packets, labels) {
        const nameOf = (it) => this.script.routers[it].name;
        const endOf = ({ dropped }) => (dropped ? `: lost, ${reason(dropped) || dropped}` : "");
        const lines = labels.map((it, k) =>
            `${nameOf(packets[k].from)} to ${nameOf(packets[k].to)}, net ${packets[k].network}: ${it.text}${endOf(packets[k])}`);
        return packets.length > labels.length ? [...lines, `and ${packets.length - labels.length} more`] : lines;
    }

    choose(key) {
        if (key.startsWith("moment ")) {
            this.beside.checked = false;
            this.show(+key.split(" ")[1]);
        } else if (key && key !== this.chosen) {
            this.chosen = key;
            this.draw(...this.last);
        }
    }

    drawTables(step, found) {
        const [kind, first, second] = this.chosen.split(" ");
        if (kind === "router" || kind === "port") this.drawRouter(+first, step, found[+first]);
        else this.drawNetwork(kind === "network" ? first : first?.split(".")[0], step);
    }

    drawRouter(number, step, found) {
        const router = this.script.routers[number];
        if (!router) return this.tables.replaceChildren();
        const state = step.state[number];
        const ports = router.ports.map((it, k) => `${k}: net ${it.network}${state.up[k] ? "" : " (down)"}`).join(", ");
        const nameOf = (port, node) => this.script.routers.find((it) => it.ports.some((one) => (
            one.network === router.ports[port]?.network && padded(one.node, 12) === node)))?.name ?? node.replace(/^0+/, "");
        return this.tables.replaceChildren(made("h2", {}, `Router ${router.name}`),
            made("p", {}, `${state.runs ? "running" : "stopped"} · ports ${ports}`),
            ...(found ? tablesOf(found, { nameOf, networkOf: (port) => router.ports[port]?.network ?? "?" }) : []));
    }

    // Who is on a network, and whether the ports there are up.
    drawNetwork(network, step) {
        const all = this.script.routers.flatMap((it, k) =>
            it.ports.map((port, n) => ({ ...port, name: it.name, isUp: step.state[k].up[n] })));
        const ports = all.filter((it) => it.network === network);
        const lines = ports.map((it) => `${it.name}, node ${it.node}, cost ${it.cost}: ${it.isUp ? "up" : "down"}`);
        const hosts = this.script.hosts.filter((it) => it.network === network).map((it) => `host ${it.node}`);
        this.tables.replaceChildren(made("h2", {}, `Network ${network}`),
            made("ul", {}, [...lines, ...hosts].map((it) => made("li", {}, it))));
    }
}

// The pane Router: who sent what to whom in a script of `ipxr replay`, and the tables of the router.
import { drawLadder, ofSteps, packetsOf } from "./ladder.mjs";
import { answers, steps, together, toldApart } from "./timeline.mjs";
import { centred, draw, made } from "./dom.mjs";
import { captureOf } from "./pcap.mjs";
import { parsed } from "./script.mjs";
import { recordsOf } from "./records.mjs";
import { ScriptPane } from "./pane_script.mjs";
import { short } from "./bytes.mjs";
import { tablesOf } from "./tables_view.mjs";

// As many rows around the shown step are drawn.
const MOST_ROWS = 120;

// A script that lasts longer isn't told apart into the seconds in which something is sent.
const MOST_SECONDS = 20000;

export class RouterPane extends ScriptPane {
    async coarse(script, said) {
        const isLong = lasting(script) > MOST_SECONDS;
        const apart = !isLong && toldApart(script, said);
        const note = isLong ? `its seconds aren't told apart, since it lasts more than ${MOST_SECONDS}` : "";
        if (!apart) return { ...super.coarse(script, said), note };
        const again = await this.program.run(this.kind.verb, apart.text, true);
        const fine = together(apart, answers(again.text, again.ends, apart.origins.length));
        const shown = parsed(fine.text, false);
        return { shown, origins: fine.origins, steps: steps(shown, fine.said), note };
    }

    async draw(step, found) {
        const networks = this.script.routers[0].ports.map((it) => it.network);
        const ladder = await this.ladder(networks);
        const [key, all] = [`step ${this.at}`, ladder.rows];
        const { rows, first } = around(all, key);
        this.drawing = drawLadder({ ...ladder, rows }, key);
        const { scrollLeft } = this.picture;
        if (!this.drawing) this.picture.replaceChildren(made("p", { class: "none" }, "Choose an example, or type a script."));
        else draw(this.picture, this.drawing, (it) => it && this.show(+it.split(" ")[1]), key);
        const note = `rows ${first + 1} to ${first + rows.length} of ${all.length}, around the step that is shown`;
        if (rows.length < all.length) this.picture.prepend(made("p", { class: "none" }, note));
        this.picture.querySelector(`[data-key="${key}"]`)?.scrollIntoView({ block: "nearest" });
        if (this.drawing) centred(this.picture, this.drawing, scrollLeft);
        const state = step.state[0];
        const ports = networks.map((it, k) => `${k}: net ${it}${state.up[k] ? "" : " (down)"}`).join(", ");
        this.tables.replaceChildren(made("p", {}, `${state.runs ? "running" : "stopped"}${ports ? ` · ports ${ports}` : ""}`),
            ...tablesOf(found[0], { nameOf: (_, node) => short(node), networkOf: (port) => networks[port] ?? "?" }));
    }

    // The rows of all steps, by what the program says of their packets. They are kept until the script changes.
    async ladder(networks) {
        if (this.ladderOf !== this.steps) {
            const [steps, packets] = [this.steps, packetsOf(this.steps)];
            const read = await this.program.run("decode", captureOf(packets));
            const labels = recordsOf(read.text).records.map((it) => (it.isPacket ? it : { kind: "data", text: "no packet" }));
            Object.assign(this, { ladderOf: steps, rows: ofSteps(steps, networks, labels) });
        }
        return this.rows;
    }
}

const lasting = (script) => script.acts.reduce((sum, { words }) => sum + (words[0] === "second" ? +words[1] : 0), 0);

// The rows that are drawn, those around a step, and the number of the first.
function around(rows, key) {
    if (rows.length <= MOST_ROWS) return { rows, first: 0 };
    const at = Math.max(rows.findIndex((it) => it.key === key), 0);
    const first = Math.min(Math.max(at - MOST_ROWS / 2, 0), rows.length - MOST_ROWS);
    return { rows: rows.slice(first, first + MOST_ROWS), first };
}

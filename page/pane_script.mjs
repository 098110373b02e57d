// What the panes Internet and Router have in common: an editor with a menu of examples, and a slider through the commands of a run.
import { answers, asking, finer, isChanged, MOST_APART, steps, tables, withoutIdle } from "./timeline.mjs";
import { recordsOf, shown } from "./records.mjs";
import { made, save } from "./dom.mjs";
import { captureOf } from "./pcap.mjs";
import { isHex } from "./bytes.mjs";
import { edited } from "./acts.mjs";
import { Editor } from "./editor.mjs";
import { explained } from "./reasons.mjs";
import { LEGENDS, legendButton } from "./legend.mjs";
import { openForm } from "./form.mjs";
import { parsed } from "./script.mjs";
import { seeLines } from "./refused.mjs";
import { Stopped } from "./program.mjs";
import { svgText } from "./drawing.mjs";
import { Versions } from "./versions.mjs";
import { wrongLine } from "./wrong_line.mjs";

// A script with more commands than this isn't split into seconds and deliveries.
const MOST_FINE = 2000;
const CAUSES = new Set(["start", "stop", "down", "up", "in"]);
const EMPTY = "";

// Where the lines of an act go, which is said where it isn't the end.
const placeOf = (line) => (line < 0 ? "inserts before the first command" : `inserts behind line ${line + 1}`);

export class ScriptPane {
    // `kind` says the verb, the end of a file's name, the examples and the acts, and gives the bytes of the pane Packet;
    // `page` is told what is said below the heading, and when the text has changed.
    constructor(program, kind, page) {
        Object.assign(this, { program, kind, changed: page.changed, tell: page.tell, at: 0, steps: [], round: 0, chosen: "" });
        this.remembered = new Map();
        this.editor = new Editor(`script of ${kind.verb}`, () => this.typed(), (by) => this.turn(by));
        this.slider = made("input", { type: "range", min: 0, max: 0, value: 0, "aria-label": "time",
            oninput: () => this.show(+this.slider.value) });
        this.moment = made("output", { class: "moment" });
        this.said = made("pre", { class: "said", tabindex: "0", "aria-label": "what ipxr answers" });
        this.picture = made("div", { class: "picture" });
        this.tables = made("div", { class: "tables" });
        this.element = made("section", { class: "split" }, this.left(), this.right());
    }

    button(label, act, title) {
        return made("button", { type: "button", onclick: act, title: title ?? false }, label);
    }

    left() {
        const names = Object.keys(this.kind.examples);
        this.menu = made("select", { "aria-label": "example", onchange: () => this.example(this.menu.value) },
            made("option", { value: "" }, "Examples"), names.map((it) => made("option", { value: it }, it)));
        const file = made("input", { type: "file", hidden: true,
            onchange: () => this.opened(file.files[0]).then(() => (file.value = "")) });
        this.undo = this.button("Undo", () => this.turn(-1), "take back the last change");
        this.redo = this.button("Redo", () => this.turn(1), "make it again");
        for (const it of [this.undo, this.redo]) it.disabled = true;
        this.about = made("p", { class: "none about" });
        const bar = made("div", { class: "bar" }, this.menu, this.button("New", () => this.replace(EMPTY)),
            this.button("Open", () => file.click()),
            this.button("Save", () => save(`script.${this.kind.end}`, this.editor.text)), this.undo, this.redo, file);
        const all = made("details", { class: "all", ontoggle: () => this.showAll() }, made("summary", {}, "All that ipxr writes"),
            (this.all = made("pre", { class: "said", tabindex: "0" })));
        this.allOpen = all;
        return made("div", { class: "left" }, bar, this.about, this.editor.element, all);
    }

    right() {
        const step = (by) => () => this.show(this.at + by);
        this.fine = made("input", { type: "checkbox", onchange: () => this.play() });
        const bar = made("div", { class: "bar time" },
            made("button", { type: "button", onclick: step(-1), "aria-label": "one step back" }, "◀"), this.slider,
            made("button", { type: "button", onclick: step(1), "aria-label": "one step on" }, "▶"),
            made("label", { class: "fine", title: "single seconds and single deliveries" }, this.fine, "slow motion"),
            this.button("Save picture", () => this.savePicture(), "save the picture as SVG"), legendButton(LEGENDS[this.kind.verb]));
        return made("div", { class: "right" }, ...this.acts(), this.picture, bar, this.moment, this.said, this.tables);
    }

    acts() {
        const buttons = Object.entries(this.kind.acts).map(([name, it]) =>
            made("button", { type: "button", title: it.title, "data-act": name,
            onclick: () => this.act(it) }, it.label));
        return [made("div", { class: "bar acts", role: "toolbar", "aria-label": "build" }, buttons)];
    }

    // Asks what an act needs to know, and writes its lines into the script.
    async act(it) {
        if (this.script?.text !== this.editor.text) await this.play();
        const { script } = this;
        const step = this.steps[this.at];
        if (!script || (it.needs && !it.needs(script, step.state).length)) {
            this.tell(it.lacks ?? (script?.isInternet ? "add a router first" : "add a port first"), true);
            return;
        }
        const before = this.lineOf(step);
        const kept = (it.remembers && this.remembered.get(it)) || {};
        const fields = it.fields(script, this.chosen, this.kind.packet(), step.state);
        openForm(it.title, fields.map((one) => ({ ...one, value: one.picked ?? kept[one.name] ?? one.value })), (values) => {
            const lines = it.lines(script, values, step.state);
            const next = edited(script, before, lines);
            seeLines(next.text, script.isInternet, next.line, (lines.lines ?? lines.now).length);
            const more = next.text.split("\n").length - script.lines.length;
            this.remembered.set(it, values);
            this.replace(next.text, next.isNow ? next.line : before < 0 ? before : before + more);
        }, it.isFixed || this.at === this.steps.length - 1 ? "" : placeOf(before));
    }

    // ---- The text ----

    async opened(file) {
        if (file) this.replace(await file.text());
    }

    example(name) {
        if (name) this.replace(this.kind.examples[name]);
    }

    // Names the example whose text this is, with what it shows: its first line says so.
    name() {
        const [name, text] = Object.entries(this.kind.examples).find(([, it]) => it === this.editor.text) ?? ["", ""];
        this.menu.value = name;
        this.about.textContent = text.split("\n")[0].replace(/^# */, "");
    }

    // Puts another text into the editor; what was there can be had back.
    replace(text, line) {
        this.noteTyped();
        if (this.versions) this.versions.put(text);
        else this.versions = new Versions(text);
        this.editor.text = text;
        return this.play(line ?? -2);
    }

    // What was typed is a version, too.
    noteTyped() {
        this.versions?.type(this.editor.text);
    }

    typed() {
        this.versions ??= new Versions(EMPTY);
        this.noteTyped();
        return this.play();
    }

    // The version before the one that is shown, or behind it.
    turn(by) {
        this.noteTyped();
        if (!this.versions) return undefined;
        this.editor.text = by < 0 ? this.versions.back() : this.versions.on();
        return this.play();
    }

    // Where there is nothing more to take back, or to have again, the focus goes to the other button.
    showVersions() {
        const focused = document.activeElement;
        this.undo.disabled = !this.versions?.hasPast;
        this.redo.disabled = !this.versions?.hasFuture;
        if (focused === this.undo && focused.disabled) this.redo.focus();
        if (focused === this.redo && focused.disabled) this.undo.focus();
    }

    // ---- A run ----

    // Plays the script; `line` is the line to be shown then, -2 for where a new script begins, and else the one that was shown.
    async play(line) {
        const round = ++this.round;
        this.name();
        this.showVersions();
        const isInternet = this.kind.verb === "internet";
        const script = parsed(this.editor.text, isInternet);
        const wanted = line ?? this.steps[this.at]?.line ?? -1;
        try {
            const done = await this.program.run(this.kind.verb, this.editor.text, true);
            const told = await this.refined(script, done);
            if (round !== this.round) return;
            Object.assign(this, { script, done, ...told });
            this.played(wanted);
        } catch (why) {
            if (round === this.round) this.failed(why);
        }
        this.changed();
    }

    failed(why) {
        if (why instanceof Stopped) throw why;
        this.tell(`ipxr: ${why.message}`, true);
    }

    // The steps; fine ones where they are asked for.
    async refined(script, done) {
        const said = answers(done.text, done.ends, script.lines.length);
        const isShort = script.acts.length <= MOST_FINE;
        const note = this.fine.checked && !isShort ? `slow motion is for scripts of at most ${MOST_FINE} commands` : "";
        if (!this.fine.checked || !isShort || done.status !== 0) {
            const told = await this.coarse(script, said);
            return { ...told, note: note || told.note };
        }
        const first = finer(script);
        const tried = await this.program.run(this.kind.verb, first.text, true);
        const fine = withoutIdle(first, answers(tried.text, tried.ends, first.origins.length));
        const again = await this.program.run(this.kind.verb, fine.text, true);
        const shown = Object.assign(parsed(fine.text, script.isInternet), { hosts: script.hosts });
        return { shown, origins: fine.origins, steps: steps(shown, answers(again.text, again.ends, shown.lines.length)),
            note: first.isWhole ? "" : `slow motion leaves more than ${MOST_APART} seconds of a line together` };
    }

    coarse(script, said) {
        return { shown: script, origins: null, steps: steps(script, said), note: "" };
    }

    lineOf(step) {
        return step.line >= 0 && this.origins ? this.origins[step.line] : step.line;
    }

    played(wanted) {
        this.slider.max = this.steps.length - 1;
        const found = wanted === -2 ? this.first() : this.steps.findLastIndex((it) => this.lineOf(it) <= wanted);
        const wrong = /^line (\d+): (\w+)$/m.exec(this.done.text);
        this.plan();
        this.show(this.done.status === 2 && wrong ? this.steps.length - 1 : Math.max(found, 0));
        if (wrong) this.tell(`${wrong[0]}${this.expected(+wrong[1])}`, true);
        else this.tell(this.done.status ? this.done.error.trim() : this.note, Boolean(this.done.status));
        if (wrong) this.editor.show(+wrong[1] - 1, true);
        this.showAll();
    }

    // What was expected in the wrong line, which the program names.
    expected(line) {
        const found = wrongLine(new TextEncoder().encode(this.editor.text), this.kind.verb === "internet");
        return found?.line === line ? ` (${found.text})` : "";
    }

    showAll() {
        if (this.allOpen.open) this.all.textContent = this.done?.text ?? "";
    }

    plan() {}

    // The step that is shown of a new script: the first packet's way, or the end.
    first() {
        const traced = this.steps.findIndex((it) => it.words[0] === "trace" && it.said.length);
        return traced < 0 ? this.steps.length - 1 : traced;
    }

    // ---- A step ----

    async show(k) {
        if (!this.steps.length) return;
        this.at = Math.min(Math.max(k, 0), this.steps.length - 1);
        const step = this.steps[this.at];
        this.slider.value = this.at;
        this.moment.textContent = this.momentOf(step);
        this.slider.setAttribute("aria-valuetext", this.moment.textContent);
        this.editor.show(this.lineOf(step), step.said.some((it) => it.startsWith("line ")));
        this.said.textContent = step.said.map(explained).join("\n");
        this.said.hidden = !step.said.length;
        await this.ask(step);
    }

    momentOf(step) {
        const isLong = (it) => it.length > 20;
        const command = step.line < 0 ? "before the first command" : step.words.filter((it) => !isLong(it)).join(" ");
        return `Second ${step.second} · ${command}${step.words[0] === "settle" ? " (waiting packets arrive)" : ""}`;
    }

    // Asks for all tables at a step. While one question is on its way the next waits, and only the last one that waits is asked.
    async ask(step) {
        this.next = step;
        if (this.isAsking) return;
        this.isAsking = true;
        try {
            while (this.next) {
                const [one, script] = [this.next, this.shown];
                this.next = null;
                await this.answer(one, script);
            }
        } catch (why) {
            this.failed(why);
        } finally {
            this.isAsking = false;
        }
    }

    async answer(step, script) {
        const causes = this.causes(step);
        const isWrong = step.said.some((it) => it.startsWith("line "));
        const asked = asking(script, isWrong ? -1 : step.line, causes[0]?.line);
        const done = await this.program.run(this.kind.verb, asked.text, true);
        const found = tables(script, asked, answers(done.text, done.ends, asked.count));
        const packet = await this.packetOf(step);
        for (const it of causes) await this.packetOf(it);
        if (this.next || script !== this.shown) return;
        this.moment.textContent = `${this.momentOf(step)}${packet}${this.changes(found)}`;
        await this.draw(step, found);
    }

    // The commands that a settle follows at once, whose packets it hands out: what they changed is marked there too.
    causes(step) {
        const at = this.steps.indexOf(step);
        if (step.words[0] !== "settle" || this.origins) return [];
        let first = at;
        while (CAUSES.has(this.steps[first - 1]?.words[0])) first--;
        return this.steps.slice(first, at);
    }

    // What the packet of a command says, by the program's word.
    async packetOf(step) {
        const hex = ["in", "trace"].includes(step.words[0]) ? step.words[step.words.length - 1].replace("-", "") : "";
        if (!hex || !isHex(hex)) return "";
        const [it] = recordsOf((await this.program.run("decode", captureOf([{ hex }]))).text).records;
        if (it.isPacket) step.kind = it.kind;
        return it.isPacket ? ` · ${shown(it.from)} to ${shown(it.to)}: ${it.text}` : " · no packet";
    }

    // Whose tables a command changed, where there is more than one.
    changes(found) {
        const names = this.script.routers.filter((_, k) => this.script.isInternet && found[k] && isChanged(found[k])).map((it) => it.name);
        return names.length ? ` · tables changed: ${names.join(", ")}` : "";
    }

    savePicture() {
        if (this.drawing) save(`${this.kind.verb}.svg`, svgText(this.drawing), "image/svg+xml");
    }
}

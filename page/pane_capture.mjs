// The pane Capture: the packets of a file, which are filtered; the chosen one field by field; a ladder and totals of those that are shown.
import { drawLadder, ofRecords } from "./ladder.mjs";
import { frameFields } from "./fields.mjs";
import { centred, draw, made, save } from "./dom.mjs";
import { bytesView } from "./bytes_view.mjs";
import { EVERYONE, fromBase64, short } from "./bytes.mjs";
import { jsonOf } from "./json.mjs";
import { LEGENDS, legendButton } from "./legend.mjs";
import { FRAMES, shown } from "./records.mjs";
import { Stopped } from "./program.mjs";
import { svgText } from "./drawing.mjs";
import { VirtualList } from "./virtual_list.mjs";

// The heads of the table of conversations; arrows have words for who doesn't see them.
const HEADS = [["Between"], ["Packets"], ["Bytes"], ["→", "packets there"], ["←", "packets back"]];
// As many packets are in a ladder.
const MOST_ROWS = 200;
const TYPES = [["", "any type"], ["1", "1 RIP"], ["4", "4 SAP or data"], ["17", "17 NCP"], ["20", "20 NetBIOS"], ["5", "5 SPX"],
    ["0", "0"]];
const PAUSE = 200;
// What the examples show.
const SHOWS = {
    "nearest-server": "A client finds its nearest server, and sends it the first packet via the router.",
    "no-server": "One client asks in another kind of frame than the server's, and nobody answers; another client gets an answer.",
};

const isAll = (party) => party.endsWith(`.${EVERYONE}`);

export class CapturePane {
    constructor(program, kind, page) {
        Object.assign(this, { program, kind, tell: page.tell, name: "", round: 0 });
        this.list = new VirtualList({
            label: "packets", heads: ["No.", "Time", "From", "To", "Frame", "What"],
            rowsAt: (from, to) => program.ask("rows", { from, to }), cells: (it) => this.cells(it), chosen: (it) => this.pick(it.place),
        });
        this.detail = made("div", { class: "detail", "aria-live": "polite" });
        this.picture = made("div", { class: "picture ladder" });
        this.totals = made("div", { class: "tables" });
        this.count = made("output", { class: "moment" });
        this.full = made("div", { class: "full", hidden: true }, this.filters(), this.count, this.list.element, this.detail, this.more());
        this.element = made("section", { class: "capture" }, this.opening(), this.full);
    }

    opening() {
        const taken = () => this.file(file.files[0]).then(() => (file.value = ""));
        const file = made("input", { type: "file", id: "file", accept: ".pcap,.pcapng,.cap,.dmp", onchange: taken });
        this.about = made("span", { class: "none" });
        const menu = made("select", { "aria-label": "example", onchange: () => this.example(menu.value) },
            made("option", { value: "" }, "Examples"), Object.keys(this.kind.examples).map((it) => made("option", { value: it }, it)));
        this.menu = menu;
        return made("div", { class: "drop" }, made("label", { for: "file" }, "Drop a capture here, or choose one:"), file, menu,
            this.about);
    }

    filters() {
        const later = () => this.filterLater();
        const input = (name, label) => made("label", {}, made("span", {}, label),
            made("input", { name, type: "search", autocomplete: "off", spellcheck: "false", oninput: later }));
        const types = TYPES.map(([word, label]) => made("option", { value: word }, label));
        const type = made("label", {}, made("span", {}, "Type"), made("select", { name: "type", onchange: later }, types));
        this.form = made("form", { class: "bar filters", role: "search", onsubmit: (event) => event.preventDefault() },
            input("address", "Address"), type, input("socket", "Socket"), input("word", "Word"));
        const out = (label, act) => made("button", { type: "button", onclick: act }, label);
        this.form.append(made("span", { class: "bar aside" }, out("Text", () => this.saveText()), out("JSON", () => this.saveJson()),
            out("Save picture", () => this.savePicture()), legendButton(LEGENDS.capture)));
        return this.form;
    }

    more() {
        const ladder = made("details", { open: true }, made("summary", {}, "Ladder"), this.picture);
        this.totalsOpen = made("details", { ontoggle: () => this.countTotals() }, made("summary", {}, "Conversations"), this.totals);
        return made("div", { class: "more" }, ladder, this.totalsOpen);
    }

    cells(it) {
        const ends = it.isPacket ? [shown(it.from), shown(it.to)] : ["", ""];
        return [String(it.number), it.time.toFixed(3), ...ends, FRAMES[it.frame] ?? it.frame,
            it.silence ? `✕ no answer · ${it.text}` : it.text];
    }

    // ---- Opening ----

    async file(file) {
        if (file) await this.open(file.name, new Uint8Array(await file.arrayBuffer()));
    }

    example(name) {
        if (name) this.open(`${name}.pcap`, fromBase64(this.kind.examples[name]), true);
    }

    // Opens the bytes of a file. Where another one is chosen meanwhile, that is shown and this is forgotten.
    async open(name, bytes, isExample = false) {
        const round = ++this.round;
        try {
            const told = await this.program.ask("open", { bytes }, [bytes.buffer]);
            if (round !== this.round) return;
            Object.assign(this, { name, opened: told });
            const example = name.replace(/\.pcap$/, "");
            this.menu.value = isExample ? example : "";
            this.about.textContent = (isExample && SHOWS[example]) || "";
            this.full.hidden = false;
            this.form.reset();
            await this.refresh(told.count);
            if (round !== this.round) return;
            const fault = told.why ? `${told.fault} (${told.why})` : told.fault;
            const faults = [fault, told.error.trim(), ...told.skipped.map((it) => `skipped ${it}`)].filter((it) => it);
            this.tell([`${name}: ${told.count} records`, ...faults].join(" · "), Boolean(told.fault || told.error));
        } catch (why) {
            if (why instanceof Stopped) throw why;
            this.tell(`${name}: ${why.message}`, true);
            this.closed();
        }
    }

    // The capture is no more, since its worker was stopped.
    closed() {
        this.full.hidden = true;
    }

    // ---- Choosing ----

    filterLater() {
        clearTimeout(this.timer);
        this.timer = setTimeout(() => this.filterNow(), PAUSE);
    }

    async filterNow() {
        const filter = Object.fromEntries(["address", "type", "socket", "word"].map((it) => [it, this.form.elements[it].value]));
        const { round } = this;
        const count = await this.program.ask("choose", { filter });
        if (round === this.round) await this.refresh(count);
    }

    async refresh(count) {
        this.count.textContent = count === this.opened.count ? `${count} records` : `${count} of ${this.opened.count} records`;
        await this.list.reset(count);
        await this.countTotals();
        this.ladder = ofRecords(await this.program.ask("ladder", { most: MOST_ROWS }));
        this.ladderNote = count > MOST_ROWS ? `the first ${MOST_ROWS} of ${count}` : "";
        this.drawLadder("");
        if (count) await this.list.choose(0);
        else this.detail.replaceChildren();
    }

    async pick(place) {
        const it = await this.program.ask("record", { place });
        const frame = FRAMES[it.frame] ? `${FRAMES[it.frame]} (${it.frame})` : it.frame;
        this.detail.replaceChildren(made("h2", {}, `Record ${it.number}: ${frame}, ${it.text}`),
            ...(it.silence ? [made("p", { class: "fault" }, it.silence)] : []), made("pre", { class: "said" }, it.lines.join("\n")),
            bytesView(it.hex, frameFields(it.hex)));
        this.drawLadder(`record ${place}`);
    }

    drawLadder(key) {
        this.drawing = drawLadder(this.ladder, key);
        const { scrollLeft } = this.picture;
        if (!this.drawing) this.picture.replaceChildren(made("p", { class: "none" }, "no packets"));
        else draw(this.picture, this.drawing, (chosen) => chosen && this.pick(+chosen.split(" ")[1]), key);
        if (this.ladderNote) this.picture.prepend(made("p", { class: "none" }, this.ladderNote));
        if (this.drawing) centred(this.picture, this.drawing, scrollLeft);
    }

    // Counting takes a while in large captures, so it is done for who looks.
    async countTotals() {
        if (this.totalsOpen.open) this.drawTotals(await this.program.ask("totals"));
    }

    drawTotals({ list, count }) {
        const name = (it) => `${short(it.split(".")[0])}.${isAll(it) ? "all" : short(it.split(".")[1])}`;
        const button = (it) => made("button", {
            type: "button", class: "link", title: "filter by this address", onclick: () => this.only(isAll(it.a) ? it.b : it.a, it.joined),
        }, `${name(it.a)} ↔ ${name(it.b)}`);
        const rows = list.map((it) => made("tr", {}, [button(it), it.packets, it.bytes, it.forth, it.back].map((cell) => (
            made("td", {}, cell instanceof Node ? cell : String(cell))))));
        const heads = HEADS.map(([head, label]) => made("th", { scope: "col", "aria-label": label }, head));
        const note = count > list.length ? made("p", { class: "none" }, `the ${list.length} with most packets, of ${count}`) : "";
        this.totals.replaceChildren(note, made("table", {}, made("thead", {}, made("tr", {}, heads)), made("tbody", {}, rows)));
    }

    // A node that was also told without its network is looked for by its node alone.
    only(address, joined) {
        this.form.elements.address.value = joined.includes(address) ? address.split(".")[1] : address;
        this.filterNow();
    }

    // ---- Saving ----

    async saveText() {
        save(`${this.name}.txt`, await this.program.ask("text"));
    }

    async saveJson() {
        save(`${this.name}.json`, jsonOf(await this.program.ask("text")), "application/json");
    }

    savePicture() {
        if (this.drawing) save(`${this.name}.svg`, svgText(this.drawing), "image/svg+xml");
    }
}

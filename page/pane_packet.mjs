// The pane Packet: words to bytes and back. The bytes are written by the library's proved writers (words.mjs), and read back by the
// program's proved reader: a capture is made with the packet in it, and `ipxr decode` says what the packet is.
import { DEFAULTS, KINDS, packetOf, valuesOf } from "./words.mjs";
import { faultOf, packetFields } from "./fields.mjs";
import { bytesView } from "./bytes_view.mjs";
import { captureOf } from "./pcap.mjs";
import { isHex } from "./bytes.mjs";
import { made } from "./dom.mjs";
import { recordsOf } from "./records.mjs";
import { Wrong } from "./typed.mjs";

const ENDS = [["to", "To", true], ["from", "From", true]];
// Each field of some kind: its label, and whether it has many lines or choices.
const FIELDS = {
    networks: { label: "Networks asked for", hint: "FFFFFFFF asks for all" },
    routes: { label: "Routes", hint: "network hops ticks, a line each", isLong: true },
    nearest: { label: "Asked for", choices: [["general", "all"], ["nearest", "the nearest"]] },
    service: { label: "Service type", hint: "FFFF asks for all" },
    services: { label: "Services", hint: "type name network node socket hops, a line each", isLong: true },
    crossed: { label: "Networks crossed", hint: "at most 7" },
    type: { label: "Packet type" }, control: { label: "Transport control" },
    data: { label: "Data", hint: "hexadecimal", isLong: true },
};

export class PacketPane {
    constructor(program, page) {
        Object.assign(this, { program, changed: page.changed, round: 0 });
        this.kind = made("select", { name: "kind", onchange: () => this.kindChosen() },
            Object.entries(KINDS).map(([word, it]) => made("option", { value: word }, it.label)));
        this.fault = made("p", { class: "fault", role: "alert", id: "packet-fault" });
        this.hex = made("textarea", {
            class: "hexline", rows: 5, spellcheck: "false", autocapitalize: "off", "aria-label": "the packet in hexadecimal",
            oninput: () => this.typedHex(),
        });
        this.read = made("div", { class: "read", "aria-live": "polite" });
        this.element = made("section", { class: "split packet" },
            made("form", { class: "words", onsubmit: (event) => event.preventDefault(), oninput: () => this.typedWords() },
                this.fields(), this.fault),
            made("div", { class: "right" }, made("label", { class: "above" }, "Bytes", this.hex), this.read));
        this.fill({ ...DEFAULTS, toSocket: KINDS[this.kind.value].socket });
        this.showKind();
    }

    input(name, { choices, isLong, hint }) {
        if (choices) return made("select", { name }, choices.map(([word, label]) => made("option", { value: word }, label)));
        if (isLong) return made("textarea", { name, rows: 3, spellcheck: "false", placeholder: hint ?? false });
        return made("input", { name, spellcheck: "false", autocomplete: "off", placeholder: hint ?? false });
    }

    fields() {
        this.inputs = new Map();
        this.rows = new Map();
        const add = (name, it) => {
            const element = this.input(name, it);
            this.inputs.set(name, element);
            return element;
        };
        const ends = ENDS.map(([end, label]) => made("fieldset", { class: "end" }, made("legend", {}, label),
            ["Network", "Node", "Socket"].map((part) => made("label", {}, made("span", {}, part), add(end + part, {})))));
        const others = Object.entries(FIELDS).map(([name, it]) => {
            const row = made("label", {}, made("span", {}, it.label), add(name, it));
            this.rows.set(name, row);
            return row;
        });
        return [made("label", {}, made("span", {}, "Kind"), this.kind), ...ends, ...others];
    }

    fill(values) {
        for (const [name, it] of this.inputs) if (values[name] !== undefined) it.value = values[name];
    }

    showKind() {
        for (const [name, row] of this.rows) row.hidden = !KINDS[this.kind.value].fields.includes(name);
    }

    kindChosen() {
        this.showKind();
        this.inputs.get("toSocket").value = KINDS[this.kind.value].socket;
        this.typedWords();
    }

    // ---- Words to bytes ----

    typedWords() {
        const values = Object.fromEntries([...this.inputs].map(([name, it]) => [name, it.value]));
        this.showFault(null);
        try {
            this.hex.value = packetOf(this.kind.value, values);
        } catch (why) {
            if (!(why instanceof Wrong)) throw why;
            this.showFault(why);
            return;
        }
        this.readBack();
    }

    // What is wrong stands below its field; or nothing is wrong.
    showFault(why) {
        for (const it of this.inputs.values()) for (const name of ["aria-invalid", "aria-describedby"]) it.removeAttribute(name);
        this.fault.textContent = why?.message ?? "";
        const input = this.inputs.get(why?.field);
        if (!input) return;
        input.closest("label").after(this.fault);
        input.setAttribute("aria-invalid", "true");
        input.setAttribute("aria-describedby", this.fault.id);
    }

    // ---- Bytes to words ----

    async typedHex() {
        const record = await this.readBack();
        if (!record?.isPacket) return;
        const { kind, values } = valuesOf(record, this.digits());
        this.kind.value = kind;
        this.fill(values);
        this.showKind();
        this.showFault(null);
    }

    digits() {
        return this.hex.value.replace(/\s+/g, "").toUpperCase();
    }

    // What the program reads in the bytes, and which of them is wrong.
    async readBack() {
        this.changed();
        const [round, hex] = [++this.round, this.digits()];
        if (!isHex(hex)) {
            const at = hex.search(/[^0-9A-F]/);
            this.say(at < 0 ? `an odd number of digits: ${hex.length}` : `digit ${at + 1} is ${hex[at]}, which isn't hexadecimal`, true);
            return null;
        }
        const done = await this.program.run("decode", captureOf([{ hex }])).catch((why) => ({ fault: why.message }));
        if (round !== this.round) return null;
        if (done.fault) {
            this.say(done.fault, true);
            return null;
        }
        const record = recordsOf(done.text).records[0];
        const fault = faultOf(record.lines);
        this.say(fault ? `${fault.word}: ${fault.why} (${whichBytes(fault, hex.length / 2)})` : record.text, Boolean(fault));
        const lines = record.lines.join("\n").replace(/^record 1 EthernetII /, "");
        this.read.append(made("pre", { class: "said" }, lines), bytesView(hex, packetFields(hex), fault));
        return record;
    }

    say(text, isFault) {
        this.read.replaceChildren(made("p", { class: isFault ? "fault" : "good" }, text));
    }
}

function whichBytes({ from, to }, count) {
    if (from >= count) return `they end at byte ${count}`;
    return to - from === 1 ? `byte ${from}` : `bytes ${from} to ${to - 1}${to > count ? `, of which there are ${count - from}` : ""}`;
}

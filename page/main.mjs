// The page: its panes, of which one is shown, and the program that they share.
import { ACTS } from "./acts.mjs";
import { find, tell } from "./dom.mjs";
import { read, written } from "./address.mjs";
import { CapturePane } from "./pane_capture.mjs";
import { copied } from "./copying.mjs";
import { isText } from "./file_kinds.mjs";
import { fromBase64 } from "./bytes.mjs";
import { InternetPane } from "./pane_internet.mjs";
import { isOfInternet } from "./script.mjs";
import { PacketPane } from "./pane_packet.mjs";
import { Program, Stopped } from "./program.mjs";
import { Router as Library } from "./ipxr.mjs";
import { ROUTER_ACTS } from "./router_acts.mjs";
import { RouterPane } from "./pane_router.mjs";

const FIRST = { internet: "ring", router: "two-segments", capture: "nearest-server" };
// Bytes by which a script is told from a capture.
const HEAD = 64;
// A run that is shorter than this shows nothing.
const SHORT = 300;

const textOf = (id) => find(`#${id}`).textContent;

class Page {
    constructor() {
        const examples = JSON.parse(textOf("examples"));
        // Three workers: a capture stays open while a script is stopped, and a script is played while packets are followed.
        const program = () => new Program(textOf("worker"), fromBase64(textOf("module").trim()), (share) => this.busy(share));
        this.programs = [program(), program(), program()];
        const [scripts, files, aside] = this.programs;
        const page = (name) => ({ changed: () => this.write(), tell: (text, isFault) => this.tell(name, text, isFault) });
        const packet = () => this.panes.packet.digits();
        const internets = { verb: "internet", end: "internet", examples: examples.internets, acts: ACTS, packet };
        const scriptsOfOne = { verb: "replay", end: "script", examples: examples.scripts, acts: ROUTER_ACTS, packet };
        this.panes = {
            capture: new CapturePane(files, { examples: examples.captures }, page("capture")),
            internet: new InternetPane(scripts, internets, page("internet"), aside),
            router: new RouterPane(scripts, scriptsOfOne, page("router")),
            packet: new PacketPane(scripts, page("packet")),
        };
        Object.assign(this, { begun: new Set(), told: {} });
        for (const [name, pane] of Object.entries(this.panes)) {
            pane.element.id = `pane-${name}`;
            pane.element.setAttribute("role", "tabpanel");
            pane.element.setAttribute("aria-labelledby", `tab-${name}`);
            find("main").append(pane.element);
            find(`#tab-${name}`).addEventListener("click", () => this.show(name));
        }
        find("nav").addEventListener("keydown", (event) => this.key(event));
        find("#stop").addEventListener("click", () => this.stop());
        find("#copy").addEventListener("click", () => this.copy());
        this.takeFiles();
        window.addEventListener("hashchange", () => this.follow());
        this.follow();
    }

    // ---- Panes ----

    show(name) {
        this.shown = name;
        for (const [other, pane] of Object.entries(this.panes)) {
            const isShown = other === name;
            pane.element.hidden = !isShown;
            const tab = find(`#tab-${other}`);
            tab.setAttribute("aria-selected", String(isShown));
            tab.tabIndex = isShown ? 0 : -1;
        }
        tell(...(this.told[name] ?? [""]));
        if (!this.begun.has(name)) this.begin(name, "");
        this.write();
    }

    // What a pane says is seen while that pane is.
    tell(name, ...said) {
        this.told[name] = said;
        if (name === this.shown) tell(...said);
    }

    // What a pane shows first: what a link brought, or an example.
    begin(name, text) {
        this.begun.add(name);
        const pane = this.panes[name];
        if (name === "packet") {
            if (text) pane.hex.value = text;
            pane[text ? "typedHex" : "typedWords"]();
        } else if (name === "capture") pane.example(FIRST.capture);
        else if (text) pane.replace(text);
        else pane.example(FIRST[name]);
    }

    key(event) {
        const names = Object.keys(this.panes);
        const by = { ArrowRight: 1, ArrowLeft: -1 }[event.key];
        if (!by) return;
        const next = names[(names.indexOf(this.shown) + by + names.length) % names.length];
        this.show(next);
        find(`#tab-${next}`).focus();
    }

    // ---- Files that are dropped anywhere ----

    takeFiles() {
        const over = (isOver) => (event) => (event.preventDefault(), document.body.classList.toggle("over", isOver));
        window.addEventListener("dragover", over(true));
        window.addEventListener("dragleave", over(false));
        window.addEventListener("drop", over(false));
        window.addEventListener("drop", (event) => event.dataTransfer.files.length && this.take(event.dataTransfer.files[0]));
    }

    // A capture or a script, by what it holds.
    async take(file) {
        const bytes = new Uint8Array(await file.arrayBuffer());
        const text = isText(bytes.subarray(0, HEAD)) ? new TextDecoder().decode(bytes) : "";
        const name = text ? (isOfInternet(text) ? "internet" : "router") : "capture";
        this.begun.add(name);
        this.show(name);
        return text ? this.panes[name].replace(text) : this.panes.capture.open(file.name, bytes);
    }

    // ---- The address ----

    textNow() {
        const pane = this.panes[this.shown];
        if (this.shown === "packet") return pane.digits();
        return pane.editor ? pane.editor.text : "";
    }

    write() {
        if (!this.shown) return;
        const next = written(this.shown, this.textNow());
        if (next === location.hash) return;
        this.last = next;
        try {
            history.replaceState(null, "", next);
        } catch {
            location.replace(next);
        }
    }

    // Copies the address, where all that is shown stands in it; else says what hinders it.
    async copy() {
        this.write();
        tell(...(await copied(location.href, this.shown, this.textNow())));
    }

    follow() {
        if (location.hash && location.hash === this.last) return;
        const wanted = read(location.hash);
        const name = wanted && Object.hasOwn(this.panes, wanted.pane) ? wanted.pane : "internet";
        if (wanted?.text) this.begin(name, wanted.text);
        this.show(name);
    }

    // ---- Runs ----

    // Stops what runs. What waits for it fails with Stopped, which is told once, here.
    stop() {
        if (this.panes.capture.program.isBusy) this.panes.capture.closed();
        this.programs.forEach((it) => it.stop());
        tell("stopped");
    }

    busy(share) {
        const bar = find("#busy");
        if (!this.programs?.some((it) => it.isBusy)) {
            clearTimeout(this.timer);
            this.timer = 0;
            bar.hidden = true;
            return;
        }
        if (share !== undefined) find("progress").value = share;
        this.timer ||= setTimeout(() => (bar.hidden = false), SHORT);
    }
}

window.addEventListener("unhandledrejection", (event) => event.reason instanceof Stopped && event.preventDefault());
// The library writes packets; it is there before anybody can ask for one.
Library.load(fromBase64(textOf("library").trim())).then(
    () => (window.page = new Page()),
    (why) => tell(`the library isn't loaded: ${why.message}`, true),
);

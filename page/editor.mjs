// An editor of a script: its text, the numbers of its lines, and a mark on one of them.
import { made } from "./dom.mjs";

const PAUSE = 250;

export class Editor {
    // `changed` is told when somebody has typed and rests; `stepped` when a key asks for the version before (-1) or behind (1).
    constructor(label, changed, stepped) {
        this.numbers = made("pre", { class: "numbers", "aria-hidden": "true" });
        this.mark = made("div", { class: "mark", hidden: true });
        this.area = made("textarea", {
            class: "text", spellcheck: "false", autocapitalize: "off", autocomplete: "off", wrap: "off", "aria-label": label,
            oninput: () => this.typed(), onscroll: () => this.scrolled(), onkeydown: (event) => this.key(event),
        });
        this.element = made("div", { class: "editor" }, this.numbers, made("div", { class: "sheet" }, this.mark, this.area));
        Object.assign(this, { changed, stepped, line: -1 });
    }

    get text() {
        return this.area.value;
    }

    set text(it) {
        clearTimeout(this.timer);
        const at = this.area.selectionStart;
        this.area.value = it;
        if (document.activeElement === this.area) this.area.setSelectionRange(at, at);
        this.number();
    }

    number() {
        const count = this.text.split("\n").length;
        if (count === this.count) return;
        this.count = count;
        this.numbers.textContent = Array.from({ length: count }, (_, k) => k + 1).join("\n");
        this.scrolled();
    }

    typed() {
        this.number();
        clearTimeout(this.timer);
        this.timer = setTimeout(() => this.changed(), PAUSE);
    }

    // The browser's own undo knows nothing of the texts that were put here.
    key(event) {
        const isUndo = event.key.toLowerCase() === "z" && !event.shiftKey;
        const isRedo = event.key.toLowerCase() === (event.shiftKey ? "z" : "y");
        if (!(event.ctrlKey || event.metaKey) || event.altKey || !(isUndo || isRedo)) return;
        event.preventDefault();
        this.stepped(isUndo ? -1 : 1);
    }

    get height() {
        return parseFloat(getComputedStyle(this.area).lineHeight);
    }

    scrolled() {
        this.numbers.style.transform = `translateY(${-this.area.scrollTop}px)`;
        this.mark.style.transform = `translateY(${this.line * this.height - this.area.scrollTop}px)`;
    }

    // Marks a line, as one that is wrong or that is shown, and brings it into sight.
    show(line, isWrong = false) {
        this.line = line;
        this.mark.hidden = line < 0;
        this.mark.classList.toggle("wrong", isWrong);
        const [top, room] = [line * this.height, this.area.clientHeight];
        const isOut = top < this.area.scrollTop || top + this.height > this.area.scrollTop + room;
        if (line >= 0 && isOut && document.activeElement !== this.area) this.area.scrollTop = Math.max(top - room / 2, 0);
        this.scrolled();
    }
}

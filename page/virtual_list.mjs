// A list of very many rows, of which only those in sight are there. To screen readers it is a grid with heads of columns and a chosen row,
// and one stop for Tab.
import { isNarrow, made } from "./dom.mjs";

// How high a row is, as in style.css: in a narrow window it has two lines.
const [ROW, TWO_LINES, MORE] = [24, 40, 12];
// The rows of heads, which screen readers count.
const HEADS = 1;
// Browsers refuse higher elements; a longer list is scrolled in larger steps.
const HIGHEST = 8000000;

export class VirtualList {
    // `rowsAt(from, to)` promises rows; `cells(row)` are the texts of one; `chosen(row)` is told which was chosen.
    constructor({ label, heads, rowsAt, cells, chosen }) {
        Object.assign(this, { rowsAt, cells, chosen, count: 0, current: -1, round: 0 });
        this.space = made("div", { class: "space" });
        this.rows = made("div", { class: "rows", role: "rowgroup" });
        this.scroller = made("div", { class: "scroller", tabindex: "-1", role: "presentation", onscroll: () => this.draw() },
            this.space, this.rows);
        const head = made("div", { class: "row heads", role: "row", "aria-rowindex": 1 },
            heads.map((it) => made("span", { role: "columnheader" }, it)));
        this.element = made("div", { class: "list", tabindex: "0", role: "grid", "aria-label": label, "aria-colcount": heads.length,
            onkeydown: (event) => this.key(event) }, head, this.scroller);
        this.name = `row-of-${label}`;
        new ResizeObserver(() => this.draw()).observe(this.scroller);
    }

    get rowHigh() {
        return isNarrow() ? TWO_LINES : ROW;
    }

    get high() {
        return Math.min(this.count * this.rowHigh, HIGHEST);
    }

    // How many pixels of the list one of the scroller is.
    get scale() {
        const [all, seen] = [this.count * this.rowHigh, this.scroller.clientHeight];
        return this.high > seen ? (all - seen) / (this.high - seen) : 1;
    }

    reset(count) {
        this.count = count;
        this.current = -1;
        this.space.style.height = `${this.high}px`;
        this.element.setAttribute("aria-rowcount", count + HEADS);
        this.scroller.scrollTop = 0;
        return this.draw();
    }

    async draw() {
        const round = ++this.round;
        const top = this.scroller.scrollTop * this.scale;
        const first = Math.max(Math.floor(top / this.rowHigh) - MORE, 0);
        const last = Math.min(Math.ceil((top + this.scroller.clientHeight) / this.rowHigh) + MORE, this.count);
        const found = first < last ? await this.rowsAt(first, last).catch(() => []) : [];
        if (round !== this.round) return;
        this.rows.replaceChildren(...found.map((it, k) => this.row(it, first + k)));
        const isThere = this.current >= first && this.current < first + found.length;
        if (isThere) this.element.setAttribute("aria-activedescendant", this.nameOf(this.current));
        else this.element.removeAttribute("aria-activedescendant");
        this.rows.style.transform = `translateY(${this.scroller.scrollTop - (top - first * this.rowHigh)}px)`;
    }

    nameOf(number) {
        return `${this.name}-${number + 1}`;
    }

    row(it, number) {
        const isChosen = number === this.current;
        return made("div", { class: `row ${it.kind ?? ""}`, role: "row", id: this.nameOf(number), "aria-rowindex": number + 1 + HEADS,
            "aria-selected": String(isChosen),
            onclick: () => this.choose(number, it) }, this.cells(it).map((text) => made("span", { role: "gridcell" }, text)));
    }

    async choose(number, row) {
        if (number < 0 || number >= this.count) return;
        this.current = number;
        const it = row ?? (await this.rowsAt(number, number + 1))[0];
        this.sight(number);
        await this.draw();
        this.chosen(it);
    }

    // Brings a row into sight.
    sight(number) {
        const [top, seen] = [this.scroller.scrollTop * this.scale, this.scroller.clientHeight];
        const [upper, lower] = [number * this.rowHigh, (number + 1) * this.rowHigh];
        const wanted = upper < top ? upper : lower > top + seen ? lower - seen : top;
        if (wanted !== top) this.scroller.scrollTop = wanted / this.scale;
    }

    key(event) {
        const page = Math.max(Math.floor(this.scroller.clientHeight / this.rowHigh) - 1, 1);
        const steps = { ArrowDown: 1, ArrowUp: -1, PageDown: page, PageUp: -page, Home: -this.count, End: this.count };
        if (!(event.key in steps) || !this.count) return;
        event.preventDefault();
        this.choose(Math.min(Math.max(this.current + steps[event.key], 0), this.count - 1));
    }
}

// The fields of bytes beside the bytes: pointing at one shows the other.
import { made } from "./dom.mjs";
import { padded } from "./bytes.mjs";

const WIDE = 8;

// Marks what has to do with a byte, or with a field.
function mark(root, isWanted) {
    for (const it of root.querySelectorAll("[data-from]")) it.classList.toggle("lit", isWanted(+it.dataset.from, +it.dataset.to));
}

function hexRows(hex, isWrong) {
    const count = hex.length / 2;
    const rows = [];
    const byte = (it) => made("span", { class: isWrong(it) ? "byte wrong" : "byte", "data-from": it, "data-to": it + 1 },
        hex.slice(2 * it, 2 * it + 2));
    for (let at = 0; at < count; at += WIDE) {
        const bytes = Array.from({ length: Math.min(WIDE, count - at) }, (_, k) => byte(at + k));
        rows.push(made("div", { class: "hexrow" }, made("span", { class: "offset" }, padded(at.toString(16), 4)), bytes));
    }
    return rows;
}

// Fields with the bytes in which they stand; `wrong` are the bytes at fault.
export function bytesView(hex, fields, wrong = null) {
    const isWrong = (from, to = from + 1) => wrong && from < wrong.to && to > wrong.from;
    const list = fields.map((it) => made("tr", {
        "data-from": it.from, "data-to": it.to, tabindex: "0", class: `depth${it.depth}${isWrong(it.from, it.to) ? " wrong" : ""}`,
    }, made("th", { scope: "row" }, it.name), made("td", {}, it.value)));
    const root = made("div", { class: "both" }, made("table", { class: "fields" }, made("tbody", {}, list)),
        made("div", { class: "hex", "aria-label": "bytes" }, hexRows(hex, (it) => isWrong(it))));
    const point = (event) => {
        const at = event.target.closest?.("[data-from]");
        if (!at) return mark(root, () => false);
        const [from, to] = [+at.dataset.from, +at.dataset.to];
        return mark(root, (a, b) => a < to && b > from);
    };
    root.addEventListener("pointerover", point);
    root.addEventListener("focusin", point);
    root.addEventListener("pointerleave", () => mark(root, () => false));
    return root;
}

// A dialog with fields, each a choice or a line to type in. What is wrong with a field is said beside it, and the dialog stays.
import { made } from "./dom.mjs";
import { Wrong } from "./typed.mjs";

function input({ name, choices, value, hint }) {
    if (!choices) return made("input", { name, ".value": value ?? "", placeholder: hint ?? false, autocomplete: "off",
        spellcheck: "false" });
    const it = made("select", { name }, choices.map(([word, label]) => made("option", { value: word }, label)));
    if (value !== undefined && choices.some(([word]) => word === value)) it.value = value;
    return it;
}

// Says what is wrong: beside its field, or below them all.
function show(fault, why, rows, below) {
    const wrong = rows.get(why.field);
    for (const { element } of rows.values()) for (const it of ["aria-invalid", "aria-describedby"]) element.removeAttribute(it);
    fault.textContent = why.message;
    if (!wrong) return below.before(fault);
    wrong.row.after(fault);
    wrong.element.setAttribute("aria-invalid", "true");
    wrong.element.setAttribute("aria-describedby", fault.id);
    return wrong.element.focus();
}

// Opens a dialog. `done` is told the values, and may throw a Wrong; a note may stand below the fields.
export function openForm(title, fields, done, note = "") {
    const fault = made("p", { class: "fault", role: "alert", id: "fault" });
    const close = () => dialog.close();
    const rows = new Map(fields.map((it) => {
        const element = input(it);
        return [it.name, { element, row: made("label", {}, made("span", {}, it.label), element) }];
    }));
    const bar = made("div", { class: "bar" }, made("button", { type: "submit", class: "main" }, "Do it"),
        made("button", { type: "button", onclick: close }, "Cancel"));
    const below = note ? made("p", { class: "none" }, note) : null;
    const form = made("form", { method: "dialog" }, made("h2", {}, title), ...[...rows.values()].map((it) => it.row), below, bar);
    const dialog = made("dialog", { "aria-label": title, onclose: () => dialog.remove() }, form);
    form.addEventListener("submit", (event) => {
        event.preventDefault();
        try {
            done(Object.fromEntries([...rows].map(([name, { element }]) => [name, element.value])));
            close();
        } catch (why) {
            if (!(why instanceof Wrong)) throw why;
            show(fault, why, rows, bar);
        }
    });
    document.body.append(dialog);
    dialog.showModal();
}

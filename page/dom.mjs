// Elements of the page. Whatever comes from a file, a script or a link is put there as text alone: nothing here reads HTML.
import { roving } from "./roving.mjs";
import { tree } from "./drawing.mjs";

// A large drawing becomes smaller to fit, but not so small that it can't be read: then it is moved.
const LEAST = 0.65;
const HIT = 16;
// The width of windows (as in style.css) in which things stand below each other.
const NARROW = "(max-width: 820px)";
export const isNarrow = () => matchMedia(NARROW).matches;
const SVG = "http://www.w3.org/2000/svg";

// An element with attributes, listeners (names that begin with "on"), properties (with a dot in front), and what is inside.
export function made(name, attributes = {}, ...inner) {
    const it = document.createElement(name);
    for (const [key, value] of Object.entries(attributes)) {
        if (key.startsWith("on")) it.addEventListener(key.slice(2), value);
        else if (key.startsWith(".")) it[key.slice(1)] = value;
        else if (value !== false && value !== undefined) it.setAttribute(key, value === true ? "" : value);
    }
    it.append(...inner.flat().filter((one) => one !== null && one !== undefined));
    return it;
}

export const find = (selector, within = document) => within.querySelector(selector);

// The colours of drawings are those of the page; the number of each drawing is in the names of its arrows.
let drawings = 0;
const palette = (number) => new Proxy({}, { get: (_, name) => (name === "ids" ? `arrow-${number}-` : `var(--${name})`) });

function svg(node) {
    if (typeof node === "string") return document.createTextNode(node);
    const [name, attributes, inner] = node;
    const it = document.createElementNS(SVG, name);
    for (const [key, value] of Object.entries(attributes)) if (key !== "xmlns") it.setAttribute(key, value);
    it.append(...inner.map(svg));
    return it;
}

// A line that isn't seen, wide enough to be clicked on.
function wide(line) {
    const it = line.cloneNode();
    it.setAttribute("stroke", "transparent");
    it.setAttribute("stroke-width", HIT);
    it.removeAttribute("stroke-dasharray");
    return it;
}

// The elements of a drawing, in which the thing of a key is chosen, and one may have the focus. `choose` is told the key of what is
// clicked, or chosen by a key.
function svgOf(drawing, choose, key, focused) {
    const it = svg(tree(drawing, palette(++drawings)));
    it.querySelector("title").remove(); // (it would be shown wherever one points)
    for (const side of ["width", "height"]) it.style.setProperty(`min-${side}`, `${Math.round(it.getAttribute(side) * LEAST)}px`);
    for (const line of it.querySelectorAll("[data-key^='port '] > polyline")) line.after(wide(line));
    it.setAttribute("role", "group");
    it.setAttribute("aria-label", drawing.title);
    const chosen = (event) => event.target.closest?.("[data-key]")?.dataset.key;
    it.addEventListener("click", (event) => choose?.(chosen(event) ?? ""));
    it.addEventListener("keydown", (event) => {
        if (event.key !== "Enter" && event.key !== " ") return;
        event.preventDefault();
        choose?.(chosen(event) ?? "");
    });
    roving(it, key, focused);
    return it;
}

// Puts a drawing where one may be already; what had the focus there has it again.
export function draw(place, drawing, choose, key = "") {
    const focused = place.contains(document.activeElement) ? document.activeElement.dataset.key : undefined;
    place.replaceChildren(svgOf(drawing, choose, key, focused));
    if (focused) place.querySelector(`[data-key="${CSS.escape(focused)}"]`)?.focus({ preventScroll: true });
}

// A drawing that is wider than its place is moved there: to where it was, or so that its middle is seen, as a ladder's router.
export function centred(place, drawing, before) {
    const svg = find("svg", place);
    const [wide, box] = [svg.getBoundingClientRect().width, svg.viewBox.baseVal];
    if (wide <= place.clientWidth || drawing.middle === undefined) return;
    place.scrollLeft = before || ((drawing.middle - box.x) / box.width) * wide - place.clientWidth / 2;
}

// Hands a file to who sits there.
export function save(name, content, type = "text/plain") {
    const link = made("a", { href: URL.createObjectURL(new Blob([content], { type })), download: name });
    link.click();
    setTimeout(() => URL.revokeObjectURL(link.href), 60000);
}

// What is said below the heading, until the next is said.
export function tell(text, isFault = false) {
    const place = find("#told");
    place.textContent = text;
    place.classList.toggle("fault", isFault);
}

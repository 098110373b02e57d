// Drawings: shapes in the order in which they are put there, and the room that they take. Colours are names; who shows a drawing says what
// each looks like. A drawing becomes a tree of SVG, and that the text of a file, or elements of a page (dom.mjs).

const SIZE = 13;
const ARROW = "M0,1 L10,5 L0,9 z";
export const FONT = "system-ui, 'DejaVu Sans', Verdana, sans-serif";

// How each colour looks on white paper, as in a file; and how the names of heads of arrows begin, which differ from one drawing of a page
// to the next.
export const PAPER = {
    ids: "arrow-",
    ink: "#20242a", quiet: "#6b7280", pale: "#c3c8d0", paper: "#ffffff", router: "#e4ecf8", network: "#ffffff", alarm: "#c0262d",
    off: "#e5e7eb", chosen: "#0b5394", rip: "#0b5394", sap: "#23794a", crossed: "#8e44ad", data: "#8a5a2b", way: "#d9480f",
    changed: "#b8860b",
};

// About how wide a word is: letters that are as wide as high count as two, and marks on letters as none.
const WIDE = /[\p{Script=Han}\p{Script=Hiragana}\p{Script=Katakana}\p{Script=Hangul}\p{Extended_Pictographic}]/gu;
const MARK = /\p{M}/gu;
export function widthOf(text, size = SIZE) {
    const isPlain = /^[ -~]*$/.test(text);
    const count = isPlain ? text.length : [...text.replace(MARK, "").replace(WIDE, "00")].length;
    return count * size * 0.58;
}

const number = (it) => String(Math.round(it * 10) / 10);

export class Drawing {
    constructor(title) {
        Object.assign(this, { title, shapes: [], left: Infinity, top: Infinity, right: -Infinity, bottom: -Infinity });
    }

    covers(...points) {
        for (const [x, y] of points) {
            this.left = Math.min(this.left, x);
            this.top = Math.min(this.top, y);
            this.right = Math.max(this.right, x);
            this.bottom = Math.max(this.bottom, y);
        }
    }

    line(points, { colour = "ink", width = 1.5, dashes = "", arrow = false } = {}) {
        this.covers(...points);
        this.shapes.push({ kind: "line", points, colour, width, dashes, arrow });
    }

    // A box around a point.
    box(x, y, width, height, { fill = "paper", colour = "ink", corner = 3, thick = 1.5, dashes = "" } = {}) {
        this.covers([x - width / 2, y - height / 2], [x + width / 2, y + height / 2]);
        this.shapes.push({ kind: "box", x, y, width, height, fill, colour, corner, thick, dashes });
    }

    // Words whose middle line is at a height; with a halo they can be read over lines.
    words(x, y, text, { size = SIZE, colour = "ink", anchor = "middle", bold = false, halo = false } = {}) {
        const whole = widthOf(text, size);
        const right = x + whole * { start: 1, middle: 0.5, end: 0 }[anchor];
        this.covers([right - whole, y - size * 0.7], [right, y + size * 0.7]);
        this.shapes.push({ kind: "words", x, y, text, size, colour, anchor, bold, halo });
    }

    // What is drawn meanwhile is one thing, which may be chosen by its key.
    thing(key, label, draw) {
        const outer = this.shapes;
        const inner = [];
        this.shapes = inner;
        draw();
        this.shapes = outer;
        this.shapes.push({ kind: "thing", key, label, shapes: inner });
    }

    // Another drawing, its left upper corner here. What were things there are none here.
    put(other, left, top) {
        this.covers([left, top], [left + other.right - other.left, top + other.bottom - other.top]);
        this.shapes.push({ kind: "group", x: left - other.left, y: top - other.top, shapes: flat(other.shapes) });
    }
}

const flat = (shapes) => shapes.flatMap((it) => (it.kind === "thing" ? flat(it.shapes) : [it]));

const ELEMENTS = {
    line: (it, palette) => ["polyline", {
        points: it.points.map(([x, y]) => `${number(x)},${number(y)}`).join(" "), fill: "none", stroke: palette[it.colour],
        "stroke-width": it.width, "stroke-linecap": "round", "stroke-linejoin": "round",
        ...(it.dashes && { "stroke-dasharray": it.dashes }), ...(it.arrow && { "marker-end": `url(#${palette.ids}${it.colour})` }),
    }, []],
    box: (it, palette) => ["rect", {
        x: number(it.x - it.width / 2), y: number(it.y - it.height / 2), width: number(it.width), height: number(it.height), rx: it.corner,
        fill: palette[it.fill], stroke: palette[it.colour], "stroke-width": it.thick, ...(it.dashes && { "stroke-dasharray": it.dashes }),
    }, []],
    words: (it, palette) => ["text", {
        x: number(it.x), y: number(it.y + it.size * 0.35), "font-size": it.size, "text-anchor": it.anchor, fill: palette[it.colour],
        ...(it.bold && { "font-weight": "600" }),
        ...(it.halo && { stroke: palette.paper, "stroke-width": 4, "stroke-linejoin": "round", "paint-order": "stroke" }),
    }, [it.text]],
    // (in a file nothing can be chosen; of a page roving.mjs says which of the things is Tab's)
    thing: (it, palette) => ["g", { ...(palette !== PAPER && { tabindex: "-1", role: "button" }), "aria-label": it.label,
        "data-key": it.key },
        it.shapes.map((inner) => element(inner, palette))],
    group: (it, palette) => ["g", { transform: `translate(${number(it.x)} ${number(it.y)})` },
        it.shapes.map((inner) => element(inner, palette))],
};

const element = (it, palette) => ELEMENTS[it.kind](it, palette);

const colours = (shapes) => shapes.flatMap((it) => (it.shapes ? colours(it.shapes) : it.arrow ? [it.colour] : []));

const head = (colour, palette) => ["marker", {
    id: `${palette.ids}${colour}`, viewBox: "0 0 10 10", refX: 9, refY: 5, markerWidth: 11, markerHeight: 11, markerUnits: "userSpaceOnUse",
    orient: "auto",
}, [["path", { d: ARROW, fill: palette[colour] }, []]]];

// The tree of a drawing: names, attributes, and what is inside.
export function tree(drawing, palette = PAPER, margin = 14) {
    const [left, top] = [Math.floor(drawing.left - margin), Math.floor(drawing.top - margin)];
    const [wide, high] = [Math.ceil(drawing.right + margin) - left, Math.ceil(drawing.bottom + margin) - top];
    const heads = [...new Set(colours(drawing.shapes))].sort().map((it) => head(it, palette));
    return ["svg", {
        xmlns: "http://www.w3.org/2000/svg", width: wide, height: high, viewBox: `${left} ${top} ${wide} ${high}`, "font-family": FONT,
    }, [
        ["title", {}, [drawing.title]], ["defs", {}, heads],
        ["rect", { x: left, y: top, width: wide, height: high, fill: palette.paper }, []],
        ...drawing.shapes.map((it) => element(it, palette)),
    ]];
}

const escaped = (text) => String(text).replace(/&/g, "&amp;").replace(/</g, "&lt;").replace(/>/g, "&gt;").replace(/"/g, "&quot;");

// The text of a file, with a line for each element but those inside of others.
export function textOf(node) {
    if (typeof node === "string") return escaped(node);
    const [name, attributes, inner] = node;
    const said = Object.entries(attributes).map(([key, value]) => ` ${key}="${escaped(value)}"`).join("");
    const feed = name === "svg" ? "\n" : "";
    return inner.length ? `<${name}${said}>${feed}${inner.map((it) => textOf(it) + feed).join("")}</${name}>` : `<${name}${said}/>`;
}

export const svgText = (drawing) => `${textOf(tree(drawing))}\n`;

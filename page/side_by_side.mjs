// Maps side by side: one for each moment of a run (moments.mjs), all with the same places.
import { drawMap, plan } from "./internet_map.mjs";
import { ends, lostAt, receptions, ways } from "./traces.mjs";
import { Drawing, widthOf } from "./drawing.mjs";
import { moments } from "./moments.mjs";

// Lines of these maps are shorter, and as many maps stand in a row as fit into this width.
const [APART, WIDTH] = [62, 960];
// The room of the words above each, and between two maps.
const [ABOVE, BETWEEN] = [44, 26];
const [BOLD, PLAIN] = [13, 12];

// The map at a step, with the way of the packet that is traced there.
export function mapAt(script, found, step, shown = {}) {
    const copies = receptions(step.said);
    const way = { trace: ways(copies, script.routers), ends: ends(step, script), lost: lostAt(step) };
    return drawMap(script, found, { state: step.state, ...way, ...shown });
}

const headOf = (it) => `${it.second} s: ${it.title}`;

// A word that is too long goes on in the next line.
function wrapped(text, room, size) {
    const lines = [""];
    for (const word of text.split(" ")) {
        const longer = `${lines[lines.length - 1]} ${word}`.trim();
        if (widthOf(longer, size) <= room || !lines[lines.length - 1]) lines[lines.length - 1] = longer;
        else lines.push(word);
    }
    return lines;
}

function linesOf(moment, room) {
    const heads = wrapped(headOf(moment), room, BOLD).map((text) => ({ text, size: BOLD, bold: true }));
    const said = moment.says ? wrapped(moment.says.text, room, PLAIN) : [];
    return [...heads, ...said.map((text) => ({ text, size: PLAIN, colour: moment.says.isLost ? "alarm" : "quiet" }))];
}

// The drawing, or nothing where a script has no such moments. Each map is a thing with the number of its step.
export function drawMoments(script, steps) {
    const shown = moments(script, steps);
    if (!shown.length) return null;
    const found = plan(script, true, APART);
    const maps = shown.map((it) => mapAt(script, found, steps[it.step]));
    const [left, right] = [Math.min(...maps.map((it) => it.left)), Math.max(...maps.map((it) => it.right))];
    const [top, bottom] = [Math.min(...maps.map((it) => it.top)), Math.max(...maps.map((it) => it.bottom))];
    const wide = Math.max(right - left, 210);
    const most = Math.max(1, Math.floor((WIDTH + BETWEEN) / (wide + BETWEEN)));
    const columns = Math.ceil(shown.length / Math.ceil(shown.length / most));
    const words = shown.map((it) => linesOf(it, wide));
    const above = Math.max(ABOVE, ...words.map((it) => 10 + 17 * it.length));
    const drawing = new Drawing("before and after");
    shown.forEach((it, k) => {
        const x = (k % columns) * (wide + BETWEEN);
        const y = Math.floor(k / columns) * (bottom - top + above + BETWEEN);
        const label = `${headOf(it)}${it.says ? `; ${it.says.text}` : ""}`;
        const room = { x, y, above, wide, high: bottom - top, left, top };
        drawing.thing(`moment ${it.step}`, label, () => drawMoment(drawing, maps[k], words[k], room));
    });
    return drawing;
}

// One map below its words, in a frame.
function drawMoment(drawing, map, words, { x, y, above, wide, high, left, top }) {
    drawing.box(x + wide / 2, y + (above + high) / 2, wide + 16, above + high + 12, { colour: "pale", corner: 6, thick: 1 });
    words.forEach((it, n) => drawing.words(x + 2, y + 12 + 17 * n, it.text, { ...it, anchor: "start" }));
    drawing.put(map, x + map.left - left, y + above + map.top - top);
}

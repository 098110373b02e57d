// One stop for Tab in a drawing, however many things are in it: arrows go on from there, each to the nearest thing in its direction.

const DIRECTIONS = { ArrowLeft: [-1, 0], ArrowRight: [1, 0], ArrowUp: [0, -1], ArrowDown: [0, 1] };
// What lies aside of a direction counts as that much farther.
const ASIDE = 2;
const STILL = 1;

// Which of the places is the nearest from one of them in a direction, by their numbers; none is -1.
export function nearest(places, from, [x, y]) {
    const [left, top] = places[from];
    const far = places.map(([other, lower], k) => {
        const [wide, high] = [other - left, lower - top];
        const along = wide * x + high * y;
        return k === from || along < STILL ? Infinity : along + ASIDE * Math.abs(wide * y - high * x);
    });
    const least = Math.min(...far);
    return least === Infinity ? -1 : far.indexOf(least);
}

function middle(it) {
    const { left, top, width, height } = it.getBoundingClientRect();
    return [left + width / 2, top + height / 2];
}

// To where a key goes among things: by its number.
function next(key, things, at) {
    if (DIRECTIONS[key]) return nearest(things.map(middle), at, DIRECTIONS[key]);
    return { Home: 0, End: things.length - 1, PageDown: Math.min(at + 1, things.length - 1), PageUp: Math.max(at - 1, 0) }[key] ?? -1;
}

// Makes the things of a drawing one stop, which is first at the one that had the focus before, or at the chosen one. (With a listener for
// the focus the drawing itself would be a stop in Chromium.)
export function roving(svg, chosen, focused = chosen) {
    const things = [...svg.querySelectorAll("[data-key]")];
    const numberOf = (key) => things.findIndex((it) => it.dataset.key === key);
    const stop = (at) => things.forEach((it, k) => it.setAttribute("tabindex", k === at ? "0" : "-1"));
    things[numberOf(chosen)]?.setAttribute("aria-current", "true");
    stop([numberOf(focused), numberOf(chosen), 0].find((it) => it >= 0));
    svg.addEventListener("click", ({ target }) => {
        const at = things.indexOf(target.closest("[data-key]"));
        if (at >= 0) stop(at);
    });
    svg.addEventListener("keydown", (event) => {
        const from = things.indexOf(document.activeElement);
        const to = from < 0 || event.altKey || event.ctrlKey || event.metaKey ? -1 : next(event.key, things, from);
        if (to < 0) return;
        event.preventDefault();
        stop(to);
        things[to].focus();
    });
}

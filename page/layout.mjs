// Where to draw the points of a graph: as far from each other as there are lines between them, as nearly as can be (stress majorization,
// which is what graphviz' neato does too). The same graph always gives the same places.

const ROUNDS = 300;
// From how many places it is begun, of which the best is taken; of many points from two, since each takes long.
const [STARTS, MANY] = [12, 40];
const STILL = 2e-3;

// The number of lines between any two points; points without a way between them are a little farther apart than any others.
function distances(count, lines) {
    const near = Array.from({ length: count }, () => []);
    for (const [a, b] of lines) {
        near[a].push(b);
        near[b].push(a);
    }
    const far = Array.from({ length: count }, () => new Float64Array(count).fill(-1));
    let most = 0;
    for (let start = 0; start < count; start++) {
        const row = far[start];
        const waiting = [start];
        row[start] = 0;
        for (const at of waiting) {
            for (const it of near[at]) {
                if (row[it] >= 0) continue;
                row[it] = row[at] + 1;
                most = Math.max(most, row[it]);
                waiting.push(it);
            }
        }
    }
    for (const row of far) row.forEach((it, k) => it < 0 && (row[k] = most + 1));
    return far;
}

// Numbers between 0 and 1 that look random, and are always the same.
function* numbers(seed) {
    for (let state = seed; ;) {
        state = (Math.imul(state, 1664525) + 1013904223) >>> 0;
        yield state / 2 ** 32;
    }
}

// The first start is a circle, the others are scattered.
function start(count, seed) {
    const random = numbers(seed);
    const turn = (2 * Math.PI) / Math.max(count, 1);
    const wide = Math.sqrt(count) + 1;
    const onCircle = (k) => [Math.cos(turn * k) * count / 4, Math.sin(turn * k) * count / 4];
    const scattered = () => [random.next().value * wide, random.next().value * wide];
    return Array.from({ length: count }, (_, k) => (seed ? scattered() : onCircle(k)));
}

const gap = (a, b) => Math.hypot(a[0] - b[0], a[1] - b[1]) || 1e-9;

// Moves each point to where the others want it. Returns how far the farthest was moved.
function moved(places, far) {
    const count = places.length;
    let most = 0;
    for (let k = 0; k < count; k++) {
        const here = places[k];
        const row = far[k];
        let [x, y, weight] = [0, 0, 0];
        for (let j = 0; j < count; j++) {
            if (j === k) continue;
            const there = places[j];
            const wanted = row[j];
            const [wide, high] = [here[0] - there[0], here[1] - there[1]];
            const share = wanted / (Math.sqrt(wide * wide + high * high) || 1e-9);
            const w = 1 / (wanted * wanted);
            x += (there[0] + wide * share) * w;
            y += (there[1] + high * share) * w;
            weight += w;
        }
        most = Math.max(most, Math.abs(x / weight - here[0]), Math.abs(y / weight - here[1]));
        places[k] = [x / weight, y / weight];
    }
    return most;
}

function stress(places, far) {
    let sum = 0;
    for (let k = 0; k < places.length; k++) {
        for (let j = 0; j < k; j++) sum += (gap(places[k], places[j]) / far[k][j] - 1) ** 2;
    }
    return sum;
}

// Turned so that the second point stands right of the first, and the third not above it.
function turned(places) {
    if (places.length < 2) return places;
    const [a, b] = places;
    const [x, y, length] = [b[0] - a[0], b[1] - a[1], gap(a, b)];
    const spun = places.map((it) => [((it[0] - a[0]) * x + (it[1] - a[1]) * y) / length,
        ((it[1] - a[1]) * x - (it[0] - a[0]) * y) / length]);
    const sign = spun.slice(2).reduce((sum, it) => sum + it[1], 0) < 0 ? -1 : 1;
    return spun.map((it) => [it[0], it[1] * sign]);
}

// Moves points apart that would cover each other: `room` is how much each needs in both directions, half.
function separated(places, room, rounds = 60) {
    for (let round = 0; round < rounds; round++) {
        let clashes = 0;
        for (let k = 0; k < places.length; k++) {
            for (let j = 0; j < k; j++) {
                const [x, y] = [places[k][0] - places[j][0], places[k][1] - places[j][1]];
                const [overX, overY] = [room[k][0] + room[j][0] - Math.abs(x), room[k][1] + room[j][1] - Math.abs(y)];
                if (overX <= 0 || overY <= 0) continue;
                clashes++;
                const axis = overX < overY ? 0 : 1;
                const push = ((axis ? overY : overX) / 2 + 0.5) * ((axis ? y : x) < 0 ? -1 : 1);
                places[k][axis] += push;
                places[j][axis] -= push;
            }
        }
        if (!clashes) break;
    }
    return places;
}

// ---- How good places are ----

const side = (a, b, c) => Math.sign((b[0] - a[0]) * (c[1] - a[1]) - (b[1] - a[1]) * (c[0] - a[0]));
const isCrossed = ([a, b], [c, d]) => side(a, b, c) * side(a, b, d) < 0 && side(c, d, a) * side(c, d, b) < 0;

// Whether a line goes through a box around a place.
function isThrough([a, b], [x, y], [wide, high]) {
    let [from, to] = [0, 1];
    for (const [start, end, low, most] of [[a[0], b[0], x - wide, x + wide], [a[1], b[1], y - high, y + high]]) {
        const way = end - start || 1e-9;
        const [one, other] = [(low - start) / way, (most - start) / way];
        [from, to] = [Math.max(from, Math.min(one, other)), Math.min(to, Math.max(one, other))];
    }
    return from < to;
}

// How many lines cross, and how many go through boxes that they don't end at, of which each counts as several.
const OF_BOX = 3;
function faults(places, lines, room) {
    const ends = lines.map((line) => line.map((it) => places[it]));
    let sum = 0;
    for (let k = 0; k < lines.length; k++) {
        for (let j = 0; j < k; j++) if (isCrossed(ends[k], ends[j])) sum++;
        places.forEach((it, n) => {
            if (!lines[k].includes(n) && isThrough(ends[k], it, room[n].map((half) => half * 0.7))) sum += OF_BOX;
        });
    }
    return sum;
}

// As much worse a fault makes places than others whose distances are as right.
const WORSE = 0.15;

// Lies as it does, or stands, as the picture ought to be.
function laid(places, isTall) {
    const wide = [0, 1].map((axis) => Math.max(...places.map((it) => it[axis])) - Math.min(...places.map((it) => it[axis])));
    return isTall === wide[0] > wide[1] ? places.map(([x, y]) => [y, x]) : places;
}

// The places of points, `apart` being the length of a line, and `room` half of what each takes.
export function places(count, lines, room, apart, isTall = false) {
    if (count < 2) return Array.from({ length: count }, () => [0, 0]);
    const far = distances(count, lines);
    const starts = count > MANY ? 2 : STARTS;
    let best;
    for (let seed = 0; seed < starts; seed++) {
        const found = start(count, seed);
        for (let round = 0; round < ROUNDS && moved(found, far) > STILL; round++);
        const placed = separated(laid(turned(found), isTall).map(([x, y]) => [x * apart, y * apart]), room);
        const badness = (stress(found, far) + 1e-3) * (1 + WORSE * faults(placed, lines, room));
        if (!best || badness < best.badness * 0.999) best = { placed, badness };
    }
    return best.placed;
}

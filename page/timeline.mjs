// What a run of a script did, command by command: when each came, what was answered, which routers ran and which ports were up then.

const LINES = /\n/;

// The answers to each line, from the text of a run and where the answer to each line ends.
export function answers(text, ends, count) {
    const found = [];
    let at = 0;
    for (let k = 0; k < count; k++) {
        const end = ends[k] ?? text.length;
        found.push(end > at ? text.slice(at, end).split(LINES).filter((it) => it) : []);
        at = Math.max(at, end);
    }
    return found;
}

export const freshState = (script) => script.routers.map((it) => ({ runs: false, up: it.ports.map(() => true) }));

const copied = (state) => state.map((it) => ({ runs: it.runs, up: [...it.up] }));

// The state after a command that wasn't dropped.
function changed(state, words, isInternet) {
    const [command, first, second] = words;
    const router = isInternet ? state[+first] : state[0];
    if (!router) return state;
    const port = isInternet ? +second : +first;
    if (command === "start") return Object.assign(router, { runs: true, up: router.up.map((it) => it || !router.runs) }), state;
    if (command === "stop") router.runs = false;
    if ((command === "down" || command === "up") && port < router.up.length) router.up[port] = command === "up";
    return state;
}

const CHANGES = new Set(["start", "stop", "down", "up"]);

// The steps of a script: the moment before its first command, and the one after each. A wrong line is the last one.
export function steps(script, said) {
    const found = [{ line: -1, words: [], second: 0, said: [], state: freshState(script) }];
    for (const { line, words } of script.acts) {
        const last = found[found.length - 1];
        const answer = said[line] ?? [];
        const isWrong = answer.some((it) => it.startsWith("line "));
        const isDropped = answer.some((it) => it.startsWith("drop "));
        const acts = !isWrong && !isDropped && CHANGES.has(words[0]);
        const state = acts ? changed(copied(last.state), words, script.isInternet) : last.state;
        found.push({ line, words, second: last.second + (words[0] === "second" && !isWrong ? +words[1] : 0), said: answer, state });
        if (isWrong) break;
    }
    return found;
}

// ---- Tables at a step ----

function queries(script) {
    if (!script.isInternet) return ["routes", "services"];
    return script.routers.flatMap((_, k) => [`routes ${k}`, `services ${k}`]);
}

// The script up to a line, with questions for all tables before and after that line, or before an earlier one; and which lines of it are
// the questions.
export function asking(script, line, since = line) {
    const asked = queries(script);
    const first = script.acts.length ? script.acts[0].line : script.lines.length;
    const lines = script.lines.slice(0, line < 0 ? first : since).map((it) => it.text);
    const before = lines.length;
    lines.push(...asked);
    if (line >= 0) lines.push(...script.lines.slice(since, line + 1).map((it) => it.text));
    const after = lines.length;
    lines.push(...asked);
    return { text: `${lines.join("\n")}\n`, before, after, count: lines.length };
}

const ROUTE = ["network", "hops", "ticks", "port", "node", "age"];
const SERVICE = ["type", "name", "network", "node", "socket", "hops", "port", "age"];
const NUMBERS = new Set(["hops", "ticks", "port", "age"]);

function record(line) {
    const words = line.split(" ");
    const names = words[0] === "route" ? ROUTE : SERVICE;
    return Object.fromEntries(names.map((it, k) => [it, NUMBERS.has(it) ? +words[k + 1] : words[k + 1]]));
}

const keyOf = (it) => (it.type === undefined ? it.network : `${it.type} ${it.name}`);
const same = (a, b) => ["hops", "ticks", "port", "node", "network", "socket"].every((it) => a[it] === b[it]);

// A record that nobody has said again for longer than a minute, in which each neighbour says all that it knows.
export const STALE = 60;

// The records of now beside those of before: each with what became of it.
export function compared(before, now) {
    const old = new Map(before.map((it) => [keyOf(it), it]));
    const rows = now.map((it) => {
        const was = old.get(keyOf(it));
        old.delete(keyOf(it));
        return { ...it, mark: !was ? "new" : !same(was, it) ? "changed" : it.age > STALE ? "stale" : "" };
    });
    return [...rows, ...[...old.values()].map((it) => ({ ...it, mark: "gone" }))];
}

// The tables of each router, from what was said to `asking`.
export function tables(script, asked, said) {
    return script.routers.map((_, k) => {
        const of = (start, which) => (said[start + 2 * k + which] ?? []).filter((it) => /^(route|service) /.test(it)).map(record);
        return {
            routes: compared(of(asked.before, 0), of(asked.after, 0)),
            services: compared(of(asked.before, 1), of(asked.after, 1)),
        };
    });
}

export const isChanged = (table) => [...table.routes, ...table.services].some((it) => ["new", "changed", "gone"].includes(it.mark));

// ---- Finer steps ----

// As many single deliveries of one settle are shown as this; and as many seconds of a line at most are told apart.
export const MOST_APART = 300;

// The same script in single seconds and single deliveries: text, for each line the line of the script that it is of, and whether no line
// has too many seconds for that.
export function finer(script) {
    const text = [];
    const origins = [];
    const add = (line, origin) => (text.push(line), origins.push(origin));
    script.lines.forEach(({ text: line, words }, k) => {
        const [command, count] = words;
        const times = Math.min(+count || 0, MOST_APART);
        if (command === "second" && times > 1 && /^\d{1,7}$/.test(count) && +count <= MOST_APART) {
            for (let n = 0; n < times; n++) add("second 1", k);
        } else if (command === "settle" && times > 1 && /^\d{1,7}$/.test(count)) {
            for (let n = 0; n < times; n++) add("settle 1", k);
            if (+count > times) add(`settle ${+count - times}`, k);
        } else add(line, k);
    });
    const isWhole = !script.acts.some(({ words }) => words[0] === "second" && +words[1] > MOST_APART);
    return { text: text.join("\n"), origins, isWhole };
}

// A script in which each second counts by itself where something is sent in it; nothing where there are none but single ones.
export function toldApart(script, said) {
    const isSent = ({ line, words }) => words[0] === "second" && +words[1] > 1 && said[line].some((it) => it.startsWith("out "));
    const times = new Map(script.acts.filter(isSent).map(({ line, words }) => [line, +words[1]]));
    if (!times.size) return null;
    const linesOf = ({ text }, k) => (times.has(k) ? Array(times.get(k)).fill({ text: "second 1", k }) : [{ text, k }]);
    const lines = script.lines.flatMap(linesOf);
    return { text: lines.map((it) => it.text).join("\n"), origins: lines.map((it) => it.k) };
}

// Puts the seconds of a line together again in which nothing is said, with the answers of each line.
export function together(fine, said) {
    const found = [];
    fine.text.split("\n").forEach((text, k) => {
        const last = found[found.length - 1];
        const isIdle = text === "second 1" && !said[k].length;
        if (isIdle && last?.idle && last.origin === fine.origins[k]) last.idle++;
        else found.push({ text, idle: isIdle ? 1 : 0, origin: fine.origins[k], said: said[k] });
    });
    const lines = found.map((it) => (it.idle ? `second ${it.idle}` : it.text));
    return { text: lines.join("\n"), origins: found.map((it) => it.origin), said: found.map((it) => it.said) };
}

// Leaves out deliveries that found nothing left: all but the first of a settle of which nothing waited.
export function withoutIdle(fine, said) {
    const text = fine.text.split("\n");
    const isIdle = (k) => /^settle \d+$/.test(text[k]) && k > 0 && fine.origins[k] === fine.origins[k - 1] && said[k - 1]?.[0] === "quiet";
    const kept = text.map((_, k) => k).filter((k) => !isIdle(k));
    return { text: kept.map((k) => text[k]).join("\n"), origins: kept.map((k) => fine.origins[k]) };
}

// The moments of a run that are shown side by side: before something fails, as it fails, and later, whenever a traced packet fares
// otherwise than the last one did. A port that goes down or up is such an event, and a router that stops, or starts again.
import { outcome } from "./traces.mjs";

// The steps at which something changes that was running.
function changesOf(steps, script) {
    const hadStarted = script.routers.map(() => false);
    const found = [];
    steps.forEach((it, k) => {
        const isFirst = it.words[0] === "start" && !hadStarted[numberOf(it, script)];
        if (it.words[0] === "start") hadStarted[numberOf(it, script)] = true;
        if (k && it.state !== steps[k - 1].state && !isFirst) found.push(k);
    });
    return found;
}

const numberOf = (step, script) => (script.isInternet ? +step.words[1] : 0);

const isBetween = (steps, from, to) => steps.slice(from + 1, to).some((it) => ["second", "trace"].includes(it.words[0]));

// Changes with no second and no trace between them are one event.
function eventsOf(steps, script) {
    const found = [];
    for (const k of changesOf(steps, script)) {
        const last = found[found.length - 1];
        if (last && !isBetween(steps, last[last.length - 1], k)) last.push(k);
        else found.push([k]);
    }
    return found;
}

// ---- Words ----

const listed = (names) => (names.length < 3 ? names.join(" and ") : `${names.slice(0, -1).join(", ")} and ${names[names.length - 1]}`);
const VERBS = { down: "fails at", up: "is back at", stop: "stops", start: "starts again" };

// What happens in an event: ports of one network are told together.
function told(steps, script, event) {
    const found = new Map();
    for (const k of event) {
        const [command, , port] = steps[k].words;
        const router = script.routers[numberOf(steps[k], script)];
        const isPort = command === "down" || command === "up";
        const key = isPort ? `net ${router.ports[+port].network} ${VERBS[command]}` : command;
        if (!found.has(key)) found.set(key, { isPort, command, names: [] });
        found.get(key).names.push(router.name);
    }
    const say = ([key, it]) => (it.isPort ? `${key} ${listed(it.names)}` : `${listed(it.names)} ${VERBS[it.command]}`);
    return [...found].map(say).join(", ");
}

// ---- Moments ----

// The traces behind a step and before another one.
function tracesIn(steps, from, to) {
    const found = [];
    for (let k = from + 1; k < to; k++) if (steps[k].words[0] === "trace" && steps[k].said.length) found.push(k);
    return found;
}

const later = (seconds) => (seconds ? `${seconds} s later` : "then");

// The moments: each the number of a step, the second, what is to be read above it, and what became of the packet.
export function moments(script, steps) {
    const events = eventsOf(steps, script);
    const found = [];
    const add = (step, title) => found.push({ step, second: steps[step].second, title, says: outcome(steps[step], script) });
    events.forEach((event, n) => {
        const [first, last] = [event[0], event[event.length - 1]];
        const end = events[n + 1]?.[0] ?? steps.length;
        if (!n) add(tracesIn(steps, 0, first).pop() ?? first - 1, "before");
        const traces = tracesIn(steps, last, end);
        let shown = traces.length && steps[traces[0]].second === steps[last].second ? traces.shift() : last;
        add(shown, told(steps, script, event));
        for (const k of traces) {
            const isOther = steps[k].said.join() !== steps[shown].said.join();
            if (isOther) add(k, later(steps[k].second - steps[last].second));
            shown = k;
        }
    });
    return found;
}

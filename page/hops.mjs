// Where traced packets were sent that no router received. A trace tells who received a packet, not where it was sent; so the routers are
// asked for their routes there.
import { receptions, sentOn } from "./traces.mjs";
import { short } from "./bytes.mjs";

const DEFAULT_ROUTE = "FFFFFFFE";

// The script with questions behind its traces: its text, its number of lines, and which line asks for which step and router. Nothing, where
// all is known without.
export function questions(script, steps) {
    const asked = new Map();
    for (const step of steps) {
        const routers = sentOn(receptions(step.said)).map((it) => it.router);
        if (step.line >= 0 && routers.length) asked.set(step.line, { step, routers: [...new Set(routers)] });
    }
    if (!asked.size) return null;
    const [lines, places] = [[], []];
    script.lines.forEach(({ text }, k) => {
        lines.push(text);
        const { step, routers } = asked.get(k) ?? { routers: [] };
        for (const router of routers) places.push({ step, router, line: lines.push(`routes ${router}`) - 1 });
    });
    return { text: `${lines.join("\n")}\n`, count: lines.length, places };
}

// Notes with each step where its routers sent the packet, by what was said to the questions.
export function answered({ places }, said) {
    for (const { step, router, line } of places) {
        const [{ hex }] = sentOn(receptions(step.said)).filter((it) => it.router === router);
        const routes = (said[line] ?? []).map((it) => it.split(" "));
        const route = [hex.slice(12, 20), DEFAULT_ROUTE].map((net) => routes.find((it) => it[1] === net)).find((it) => it);
        if (route) (step.hops ??= {})[router] = { port: +route[4], node: short(route[5]) };
    }
}

// The tables of a router as tables of the page: routes and services, those that changed marked.
import { made } from "./dom.mjs";
import { short } from "./bytes.mjs";

const WORDS = { FFFFFFFE: "default" };
const MARKS = { new: "new", changed: "changed", stale: "stale", gone: "gone", "": "" };

const row = (mark, cells) => made("tr", { class: mark || false }, cells.map((it) => made("td", {}, String(it))),
    made("td", {}, MARKS[mark]));

function table(caption, heads, rows) {
    if (!rows.length) return made("p", { class: "none" }, `no ${caption}`);
    return made("table", {}, made("caption", {}, caption),
        made("thead", {}, made("tr", {}, heads.map((it) => made("th", { scope: "col" }, it)),
            made("th", { scope: "col", "aria-label": "what became of it" }))), made("tbody", {}, rows));
}

// The tables of a router; `nameOf` says whose a neighbour's node is, `networkOf` which network a port is on.
export function tablesOf(found, { nameOf, networkOf }) {
    const routes = found.routes.map((it) => row(it.mark, [
        WORDS[it.network] ?? short(it.network), it.hops, it.ticks, `net ${networkOf(it.port)}`, nameOf(it.port, it.node), `${it.age} s`]));
    const services = found.services.map((it) => row(it.mark, [
        short(it.type), it.name, `${short(it.network)}.${short(it.node)}`, it.socket, it.hops, `net ${networkOf(it.port)}`,
            `${it.age} s`]));
    return [
        table("routes", ["Network", "Hops", "Ticks", "Heard on", "From", "Age"], routes),
        table("services", ["Type", "Name", "Address", "Socket", "Hops", "Heard on", "Age"], services),
    ];
}

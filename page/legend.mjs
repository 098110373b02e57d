// What the signs and colours of pictures and tables mean: a small table behind a "?".
import { made } from "./dom.mjs";

const COLOURS = [["rip", "→", "routes (RIP)"], ["sap", "→", "services (SAP)"], ["crossed", "→", "propagated packets (NetBIOS)"],
    ["data", "→", "all others"]];
const LOST = ["alarm", "✕", "a packet is lost here, or a port is down"];
const TABLES = [["new", "new", "a new record"], ["changed", "changed", "a record that changed"],
    ["gone", "gone", "a record that ended"],
    ["stale", "stale", "a record older than a minute"]];

export const LEGENDS = {
    internet: [["router", "A", "a router with the numbers of its ports; dashed: stopped"], ["network", "net 1", "a network"],
        ["host", "AA", "a host: a node that packets come from or go to"], ["dot", "●", "its tables changed"],
        ["way", "→", "the path of a traced packet, with the numbers of its receptions"], LOST, ...COLOURS, ...TABLES,
        ["", "settle", "waiting packets arrive"], ["", "second", "time passes"]],
    replay: [["", "✕ NoRoute", "a packet is dropped, and why"], ...COLOURS, ...TABLES],
    capture: [["router", "10.1", "a router: it carries others' packets"], ["", "all of 10", "a broadcast on network 10"],
        ["alarm", "✕ no answer", "a query that nobody answers"], ...COLOURS],
};

// The button that opens a legend.
export function legendButton(legend) {
    const open = () => {
        const close = made("button", { type: "button", class: "main", onclick: () => dialog.close() }, "Close");
        const row = ([kind, sign, words]) => made("tr", {}, made("td", {}, made("span", { class: `sign ${kind}` }, sign)),
            made("td", {}, words));
        const dialog = made("dialog", { class: "legend", "aria-label": "legend", onclose: () => dialog.remove() },
            made("h2", {}, "What the signs mean"), made("table", {}, made("tbody", {}, legend.map(row))),
                made("div", { class: "bar" }, close));
        document.body.append(dialog);
        dialog.showModal();
    };
    return made("button", { type: "button", class: "help", title: "what the signs mean", "aria-label": "what the signs mean",
        onclick: open }, "?");
}

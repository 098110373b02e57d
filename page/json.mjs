// What `ipxr decode` writes as lines of JSON, in the names of tools/json: one object for each line.

// Each line: its words, with the names of its values in braces; of several that fit, the first one counts.
const FORMS = [
    "service bad", "service {type} {name} {network} {node} {socket} {hops:n}", "record {record:n}: {fault}",
    "record {record:n} {kind} bad {fault}",
    "record {record:n} {kind} {source} {destination} tc {control:n} type {type:n} length {length:n}", "record {record:n} {kind}",
    "crossed bad {fault}", "crossed{networks:l}", "rip bad {fault}", "rip {operation}", "net {network} hops {hops:n} ticks {ticks:n}",
    "sap bad {fault}", "sap {operation} {type}", "sap {operation}",
];
const VALUES = { n: "(\\d+)", l: "((?: [0-9A-F]+)*)", undefined: "([^ :]\\S*)" };
const NAME = /\{(\w+)(?::(\w))?\}/g;

const PATTERNS = FORMS.map((form) => ({
    first: /^\w+/.exec(form)[0], isBad: form.includes(" bad"), names: [...form.matchAll(NAME)].map(([, name, kind]) => ({ name, kind })),
    pattern: new RegExp(`^${form.replace(NAME, (_, name, kind) => VALUES[kind])}$`),
}));

function value(text, kind) {
    if (kind === "n") return +text;
    return kind === "l" ? text.split(" ").filter((it) => it) : text;
}

function said(line) {
    for (const { first, isBad, names, pattern } of PATTERNS) {
        const found = pattern.exec(line);
        if (!found) continue;
        const values = names.map(({ name, kind }, k) => [name, value(found[k + 1], kind)]);
        return { line: first, ...(isBad && { bad: true }), ...Object.fromEntries(values) };
    }
    return { line };
}

// The lines of JSON of a text; each also has the number of its record.
export function jsonOf(text) {
    let record;
    return text.split("\n").filter((it) => it).map((line) => {
        const it = said(line);
        record = it.record ?? record;
        return `${JSON.stringify(record === undefined ? it : { ...it, record })}\n`;
    }).join("");
}

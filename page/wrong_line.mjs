// The first wrong line of a script, in plain words: which of its words is wrong, and what was expected there. docs/SCRIPTS.md has the
// checks and their order; `ipxr` makes them too, and says the number of the line and a word.

const LONGEST_LINE = 131_200;
const [MOST_PORTS, MOST_ROUTERS] = [8, 32];
const MOST_DIGITS = 7;
const SHORTEST_PACKET = 576;
const NOT_OF_PORTS = ["00000000", "FFFFFFFE", "FFFFFFFF"];
const EVERYONE = "FFFFFFFFFFFF";
const [LINE_FEED, RETURN] = [10, 13];
const SHOWN = 24;

// ---- What a word may be ----

// Each: the fault of a word that isn't one, whether a word is one, and what was expected.
const digits = (fault, count, wanted, example) => ({
    fault, fits: (word) => word.length === count && /^[0-9A-Fa-f]+$/.test(word),
    wanted(word) {
        const isCut = /^[0-9A-Fa-f]+$/.test(word) && word.length < count;
        return `${wanted}, such as ${isCut ? word.toUpperCase().padStart(count, "0") : example}`;
    },
});

const number = (least, most, wanted) => ({
    fault: "number", fits: (word) => /^\d+$/.test(word) && word.length <= MOST_DIGITS && +word >= least && +word <= most,
    wanted: (word) => `${wanted}, ${least} to ${most}${/^\d{8,}$/.test(word) ? `, in at most ${MOST_DIGITS} digits` : ""}`,
});

function bytesWanted(word) {
    const other = /[^0-9A-Fa-f]/.exec(word);
    const why = !word ? "" : other ? ` ('${other[0]}' is none)` : ` (there are ${word.length})`;
    return `the bytes of a packet, an even number of hexadecimal digits${why}, or - for none`;
}

// The words by the names that docs/SCRIPTS.md gives them. (A cost of 0 and a shorter packet are numbers all the same, and are faults of
// their own.)
const NET = { name: "NET", ...digits("network", 8, "a network, eight hexadecimal digits", "00000010") };
const NODE = { name: "NODE", ...digits("node", 12, "a node, twelve hexadecimal digits", "000000000001") };
const COST = { name: "COST", ...number(0, 65535), wanted: () => "the cost in ticks, 1 to 65535" };
const LONGEST = { name: "LONGEST", ...number(0, 65535), wanted: () => `the longest packet in bytes, ${SHORTEST_PACKET} to 65535` };
const ROUTES = { name: "ROUTES", ...number(0, 65535, "the most routes by this port") };
const SERVICES = { name: "SERVICES", ...number(0, 65535, "the most services by this port") };
const ROUTER = { name: "ROUTER", ...number(0, 255, "the number of a router") };
const PORT = { name: "PORT", ...number(0, 255, "the number of a port") };
const SECONDS = { name: "N", ...number(1, 86400, "a number of seconds") };
const DELIVERIES = { name: "LIMIT", ...number(0, 1_000_000, "the most deliveries") };
const RECEPTIONS = { name: "LIMIT", ...number(0, 1_000_000, "the most receptions") };
const HEX = {
    name: "HEX", fault: "hex", fits: (word) => word === "-" || /^(?:[0-9A-Fa-f]{2})+$/.test(word), wanted: bytesWanted,
};

const OF_PORT = [[NET, NODE, COST, LONGEST], [NET, NODE, COST, LONGEST, ROUTES, SERVICES]];

// The commands of `replay` and of `internet`, with the words that may stand behind each.
const REPLAY = {
    port: OF_PORT, start: [[]], stop: [[]], second: [[SECONDS]], in: [[PORT, HEX]], down: [[PORT]], up: [[PORT]], routes: [[]],
    services: [[]],
};
const INTERNET = {
    router: [[]], port: OF_PORT, start: [[ROUTER]], stop: [[ROUTER]], second: [[SECONDS]], in: [[ROUTER, PORT, HEX]],
    down: [[ROUTER, PORT]], up: [[ROUTER, PORT]], settle: [[DELIVERIES]], trace: [[ROUTER, PORT, RECEPTIONS, HEX]], routes: [[ROUTER]],
    services: [[ROUTER]],
};

// ---- Words of the explanation ----

const quoted = (word) => `'${word.length > SHOWN ? `${word.slice(0, SHOWN)}...` : word}'`;
const listed = (names) => `${names.slice(0, -1).join(", ")} or ${names[names.length - 1]}`;

// A fault: `ipxr`'s word for it, what stands there, and what was expected.
const wrong = (fault, there, expected) => ({ fault, there, expected });

// ---- The bytes of a line ----

// Each line of bytes, without its line feed.
function* linesOf(bytes) {
    for (let at = 0; at < bytes.length;) {
        const feed = bytes.indexOf(LINE_FEED, at);
        const end = feed < 0 ? bytes.length : feed;
        yield bytes.subarray(at, end);
        at = end + 1;
    }
}

const withoutReturn = (bytes) => (bytes[bytes.length - 1] === RETURN ? bytes.subarray(0, -1) : bytes);

function byteFault(bytes, text) {
    const at = text.search(/[^\t -~]/);
    if (at < 0) return null;
    const name = bytes[at] === RETURN ? "a carriage return" : `the byte ${bytes[at].toString(16).toUpperCase().padStart(2, "0")}`;
    const allowed = "printable ASCII or a tab; other letters may stand in comments";
    return wrong("text", `${name} at column ${at + 1}`, bytes[at] === RETURN ? "one only at the end of the line" : allowed);
}

// ---- The routers that are named ----

// The first two ports that have the same of something.
function alike(ports, keyOf) {
    const seen = new Map();
    for (const port of ports) {
        if (seen.has(keyOf(port))) return [seen.get(keyOf(port)), port];
        seen.set(keyOf(port), port);
    }
    return null;
}

// What is wrong with the making of routers, in `ipxr`'s order: each by itself, then their nodes.
function makingFault(routers, there, isInternet) {
    const faults = routers.map((it) => routerFault(it, there, isInternet)).filter((it) => it);
    if (faults.length) return faults[0];
    const pair = alike(routers.flatMap((it) => it.ports), (it) => `${it.network}.${it.node}`);
    if (!pair) return null;
    const [one, other] = pair;
    const both = `lines ${one.line} and ${other.line} both have ${one.network}.${one.node}`;
    return wrong("samenode", there, `ports with different addresses before it: ${both}`);
}

function routerFault(router, there, isInternet) {
    if (!router.ports.length) {
        const where = isInternet ? `below each router line: line ${router.line} has none` : "before it, since it makes the router";
        return wrong("none", there, `a port line ${where}`);
    }
    const pair = alike(router.ports, (it) => it.network);
    if (!pair) return null;
    const lines = `lines ${pair[0].line} and ${pair[1].line}`;
    return wrong("same", there, `each port of a router on a network of its own before it: ${lines} both have ${pair[0].network}`);
}

// ---- A script ----

class Script {
    constructor(isInternet) {
        const [forms, others] = isInternet ? [INTERNET, REPLAY] : [REPLAY, INTERNET];
        Object.assign(this, { isInternet, forms, others, other: isInternet ? "replay" : "internet", made: 0, maker: "" });
        this.routers = isInternet ? [] : [{ line: 0, ports: [] }];
    }

    // What is wrong with a line, or nothing; then it has been done.
    fault(bytes, line) {
        if (bytes.length > LONGEST_LINE) return wrong("long", `the line has ${bytes.length} bytes`, `at most ${LONGEST_LINE}`);
        const own = withoutReturn(bytes);
        const text = new TextDecoder("latin1").decode(own);
        if (text.startsWith("#")) return null;
        const words = text.split(/[ \t]+/).filter((it) => it);
        return byteFault(own, text) ?? (words.length ? this.wordsFault(words, line) : null);
    }

    wordsFault([command, ...values], line) {
        if (!Object.hasOwn(this.forms, command)) return this.commandFault(command);
        const form = this.forms[command].find((it) => it.length === values.length);
        if (!form) return this.countFault(command, values);
        const isNaming = command === "router" || command === "port";
        const fault = (isNaming ? this.placeFault(command) : null) ?? valueFault(form, values);
        if (fault) return fault;
        return isNaming ? this.name(command, values, line) : this.actFault(command, form, values, line);
    }

    commandFault(command) {
        const hint = Object.hasOwn(this.others, command) ? ` (ipxr ${this.other} has it)` : "";
        return wrong("command", quoted(command), `a command: ${listed(Object.keys(this.forms))}${hint}`);
    }

    // Too few words, or too many.
    countFault(command, values) {
        const forms = this.forms[command];
        const form = forms.find((it) => it.length > values.length);
        const isOther = (it) => it.length === values.length && it.every((word, k) => word.fits(values[k]));
        const hint = Object.hasOwn(this.others, command) && this.others[command].some(isOther) ? ` (ipxr ${this.other} takes this)` : "";
        const whole = [command, ...(form ?? forms[forms.length - 1]).map((it) => it.name)].join(" ");
        if (!form) return wrong("words", quoted(values[forms[forms.length - 1].length]), `nothing more than '${whole}'${hint}`);
        const at = form.findIndex((it, k) => k === values.length || !it.fits(values[k]));
        const there = at < values.length ? quoted(values[at]) : "the line ends";
        return wrong("words", there, `${form[at].wanted(values[at] ?? "")}, as in '${whole}'${hint}`);
    }

    // Whether a router or a port may be named here.
    placeFault(command) {
        const made = this.isInternet ? "the routers" : "the router";
        if (this.made) return wrong("late", quoted(command), `before line ${this.made}, where '${this.maker}' makes ${made}`);
        if (command === "router") {
            return this.routers.length < MOST_ROUTERS ? null : wrong("routers", quoted(command), `at most ${MOST_ROUTERS} routers`);
        }
        if (!this.routers.length) return wrong("router", quoted(command), "a router line before it");
        const { ports } = this.routers[this.routers.length - 1];
        return ports.length < MOST_PORTS ? null : wrong("many", quoted(command), `at most ${MOST_PORTS} ports of a router`);
    }

    name(command, [network, node, cost, longest], line) {
        if (command === "router") this.routers.push({ line, ports: [] });
        if (command === "router") return null;
        const port = { line, network: network.toUpperCase(), node: node.toUpperCase() };
        if (+longest < SHORTEST_PACKET) return wrong("longest", quoted(longest), LONGEST.wanted());
        if (+cost === 0) return wrong("cost", quoted(cost), COST.wanted());
        if (NOT_OF_PORTS.includes(port.network)) return wrong("network", quoted(network), "the network of a port, 00000001 to FFFFFFFD");
        if (port.node === EVERYONE) return wrong("node", quoted(node), "the node of a port, not the broadcast");
        this.routers[this.routers.length - 1].ports.push(port);
        return null;
    }

    // The first command that acts makes the routers; each names a router and a port that there are.
    actFault(command, form, values, line) {
        const fault = this.made ? null : makingFault(this.routers, quoted(command), this.isInternet);
        if (fault) return fault;
        if (!this.made) Object.assign(this, { made: line, maker: command });
        return this.routerFault(form, values) ?? this.portFault(form, values);
    }

    routerFault(form, values) {
        const at = form.indexOf(ROUTER);
        if (at < 0 || this.routers[+values[at]]) return null;
        const there = this.routers.length ? `a router of the script, ${upTo(this.routers.length)}` : "a router line before: there is none";
        return wrong("router", quoted(values[at]), there);
    }

    portFault(form, values) {
        const at = form.indexOf(PORT);
        if (at < 0) return null;
        const { ports } = this.routers[this.isInternet ? +values[form.indexOf(ROUTER)] : 0];
        return ports[+values[at]] ? null : wrong("port", quoted(values[at]), `a port of the router, ${upTo(ports.length)}`);
    }
}

const upTo = (count) => (count === 1 ? "only 0" : `0 to ${count - 1}`);

// The first word that isn't what stands there.
function valueFault(form, values) {
    const at = form.findIndex((it, k) => !it.fits(values[k]));
    return at < 0 ? null : wrong(form[at].fault, quoted(values[at]), form[at].wanted(values[at]));
}

// The first wrong line of a script: its number, `ipxr`'s word, and a sentence; or nothing.
export function wrongLine(bytes, isInternet) {
    const script = new Script(isInternet);
    let line = 0;
    for (const one of linesOf(bytes)) {
        line++;
        const found = script.fault(one, line);
        if (found) return { line, fault: found.fault, text: `${found.there}: expected ${found.expected}` };
    }
    return null;
}

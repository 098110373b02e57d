// What the built program says of a script, command by command, and of a capture.
//
// A script is played whole, so that it takes time as its length. Between any two commands stand marks: lines that do nothing, and whose
// answer is known. So it is known which answer is of which command.
import { existsSync } from "node:fs";
import { fileURLToPath } from "node:url";
import { spawnSync } from "node:child_process";
import { together, toldApart } from "../page/timeline.mjs";
import { Fault } from "./files.mjs";
import { parsed } from "../page/script.mjs";

const TOP = fileURLToPath(new URL("..", import.meta.url));
// Where it is built, and where archives of a release have it.
const PLACES = ["crates/ipxr/out/ipxr", "bin/ipxr", "ipxr.exe", "ipxr"];
const MOST_BYTES = 2 ** 31 - 1;
const [DONE, WRONG_LINE] = [0, 2];

// The program that the variable IPXR names; else the one that was built, that of the archive in which this lies, or the system's.
function program() {
    return process.env.IPXR || PLACES.map((it) => `${TOP}${it}`).find((it) => existsSync(it)) || "ipxr";
}

// What is said where the program can't be run.
const REFUSALS = { ENOENT: "isn't there: 'make run' builds ipxr", EACCES: "isn't a program that may be run" };

// The text of a run on an input, and its status. (A program that ends at a wrong line leaves what stands behind it unread.)
export function run(verb, input) {
    const done = spawnSync(program(), [verb], { input, maxBuffer: MOST_BYTES });
    const { code, message } = done.error ?? {};
    if (code && (code !== "EPIPE" || done.status === null)) throw new Fault(REFUSALS[code] ? `${program()} ${REFUSALS[code]}` : message);
    const error = done.stderr.toString("latin1");
    const isUsual = [DONE, WRONG_LINE].includes(done.status);
    if (!isUsual) throw new Fault(error.trim().split("\n").pop() || `ipxr ended with ${done.status ?? done.signal}`);
    return { text: done.stdout.toString("latin1"), error, status: done.status };
}

// ---- Marks ----

// Nothing is handed out, and the answer is `quiet` or `left N`.
const OF_INTERNET = ["settle 0"];
// Two packets that are none, and how they are dropped: as these, or since the router is stopped.
const OF_ROUTER = ["in 0 -", `in 0 FFFF0000${"00".repeat(26)}`];
const DROPS = ["drop Malformed:Short", "drop Malformed:LengthSmall"];

const isWrong = (line) => line?.startsWith("line ");

// A script with marks behind each command; and of each of its lines, of which line of the script it is.
function marked(script) {
    const isAct = new Set(script.acts.map((it) => it.line));
    const marks = script.isInternet ? OF_INTERNET : OF_ROUTER;
    const lines = script.lines.flatMap((it, k) => (isAct.has(k) ? [it.text, ...marks] : [it.text]).map((text) => ({ text, line: k })));
    return { text: lines.map((it) => `${it.text}\n`).join(""), origins: lines.map((it) => it.line) };
}

// Takes the answers of an internet's commands from all that was written.
class InternetAnswers {
    constructor(lines) {
        Object.assign(this, { lines, at: 0 });
    }

    take([command]) {
        const found = command === "settle" && !isWrong(this.lines[this.at]) ? [this.lines[this.at++]] : [];
        while (this.at < this.lines.length && !/^(quiet$|left )/.test(this.lines[this.at])) found.push(this.lines[this.at++]);
        this.at++;
        return found;
    }
}

// The same of one router's. Stopped, it drops what comes, the marks too; so it is known how many drops are a command's own.
class RouterAnswers {
    constructor(lines) {
        Object.assign(this, { lines, at: 0, runs: false });
    }

    isMark(from) {
        return DROPS.every((it, k) => this.lines[from + k] === it);
    }

    // How many drops a command has that came to a stopped router.
    ownDrops([command, count]) {
        if (["start", "routes", "services"].includes(command)) return 0;
        return command === "second" ? +count : 1;
    }

    take(words) {
        const found = [];
        const own = this.runs ? 0 : this.ownDrops(words);
        for (let k = 0; k < own && !isWrong(this.lines[this.at]); k++) found.push(this.lines[this.at++]);
        while (this.at < this.lines.length && !this.lines[this.at].startsWith("drop ")) found.push(this.lines[this.at++]);
        if (!this.isMark(this.at) && this.isMark(this.at + 1)) found.push(this.lines[this.at++]);
        this.runs = this.isMark(this.at);
        this.at += DROPS.length;
        return found;
    }
}

// The answers to each line of a script.
function answersOf(script) {
    const { text, origins } = marked(script);
    const done = run(script.isInternet ? "internet" : "replay", text);
    const lines = done.text.split("\n").slice(0, -1);
    const reader = script.isInternet ? new InternetAnswers(lines) : new RouterAnswers(lines);
    const said = script.lines.map(() => []);
    for (const { line, words } of script.acts) {
        if (reader.at >= lines.length) break;
        said[line] = reader.take(words);
    }
    return renumbered(said, origins);
}

// Answers in which the number of a wrong line is that of the line which it is of.
function renumbered(said, origins) {
    const mended = (text) => text.replace(/^line (\d+):/, (_, number) => `line ${origins[number - 1] + 1}:`);
    return said.map((lines) => lines.map(mended));
}

// A script with the answers to each of its lines; of one router each second in which it sends something is a line of its own.
export function played(text, isInternet) {
    const script = parsed(text, isInternet);
    const said = answersOf(script);
    const apart = isInternet ? null : toldApart(script, said);
    if (!apart) return { script, said };
    const fine = together(apart, renumbered(answersOf(parsed(apart.text, false)), apart.origins));
    return { script: parsed(fine.text, false), said: fine.said };
}

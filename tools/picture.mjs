// Draws a script or a capture as SVG, with the page's modules.
import { writeFileSync } from "node:fs";
import { basename } from "node:path";
import { fileURLToPath } from "node:url";
import { contentOf, Fault, namesIn, seeScript, watchOutput } from "./files.mjs";
import { played, run } from "./program.mjs";
import { drawLadder, ofRecords, ofSteps, packetsOf } from "../page/ladder.mjs";
import { drawMoments, mapAt } from "../page/side_by_side.mjs";
import { sentences } from "../page/traces.mjs";
import { answered, questions } from "../page/hops.mjs";
import { isCapture, isText } from "../page/file_kinds.mjs";
import { captureOf } from "../page/pcap.mjs";
import { isOfInternet } from "../page/script.mjs";
import { openCapture } from "../page/capture.mjs";
import { plan } from "../page/internet_map.mjs";
import { recordsOf } from "../page/records.mjs";
import { steps } from "../page/timeline.mjs";
import { svgText } from "../page/drawing.mjs";

const HELP = `tools/picture draws a script or a capture as SVG to standard output:

    tools/picture SCRIPT.internet               the map of an internet at the end of the script
    tools/picture --after LINE SCRIPT.internet  the map after a line of the script
    tools/picture --trace N SCRIPT.internet     the map at the Nth trace, with the way of its packet
    tools/picture --steps SCRIPT.internet       maps side by side: before something fails, as it fails, and afterwards
    tools/picture SCRIPT.script                 who sent what to whom, and when: a ladder
    tools/picture CAPTURE.pcap                  the same of a capture, also of pcapng
    tools/picture --kept [FOLDER]               draws the pictures of the stories in examples, or in another folder
    tools/picture --bench                       measures how long pictures of long scripts take

A capture may have any name; another file is taken for a script if its name doesn't end as above. A script is drawn up to its first wrong
line. If that stands before the first line that acts, the file is no script, and is refused with the line and what was expected there.

The program ipxr says what happens: the one that the variable IPXR names; else the built one, that of the archive in which this lies, or
the system's. docs/PICTURES.md shows pictures of each kind.
`;
const USAGE = "usage: tools/picture [--after LINE | --trace N | --steps] FILE, or --kept [FOLDER], or --help";
// Which trace of a story its second picture shows; a story that isn't named has none.
const SHOWN_TRACES = { ring: 4, "counting-up": 2, forged: 5, "second-wait": 2, "first-packet": 1 };
const KIND = /\.(internet|script|pcap)$/;
const EXAMPLES = fileURLToPath(new URL("../examples", import.meta.url));

// ---- Maps ----

function mapOf(name, { script, said }, how) {
    if (!script.networks.length) throw new Fault(`${name} has no router with a port`);
    const all = steps(script, said);
    const asked = questions(script, all);
    if (asked) answered(asked, played(asked.text, true).said);
    if (how.word === "--steps") {
        const drawing = drawMoments(script, all);
        if (!drawing) throw new Fault(`in ${name} no port goes down, and no router stops`);
        return drawing;
    }
    const [step, words] = shownStep(name, script, all, how);
    return mapAt(script, plan(script), step, { words: [...words, ...wrongLine(all)] });
}

// The line that is wrong, where one is, as a sentence: what stands behind it wasn't played.
function wrongLine(all) {
    const wrong = all[all.length - 1].said.find((it) => it.startsWith("line "));
    return wrong ? [{ text: wrong, isLost: true }] : [];
}

// The step whose map is shown, and what is said of it.
function shownStep(name, script, all, { word, number }) {
    if (word === "--trace") {
        const traces = all.filter((it) => it.words[0] === "trace" && !it.said[0]?.startsWith("line "));
        if (number > traces.length) throw new Fault(`${name} has ${traces.length} traces`);
        const step = traces[number - 1];
        return [step, sentences(step, script)];
    }
    if (word === "--after") {
        if (number > script.lines.length) throw new Fault(`${name} has ${script.lines.length} lines`);
        return [still(all.filter((it) => it.line < number).pop()), []];
    }
    return [still(all[all.length - 1]), []];
}

// A step without the way of a packet.
const still = (step) => ({ ...step, said: [] });

// ---- Ladders ----

function ladderOf({ script, said }) {
    const all = steps(script, said);
    const read = recordsOf(run("decode", captureOf(packetsOf(all))).text).records;
    const labels = read.map((it) => (it.isPacket ? it : { kind: "data", text: "no packet" }));
    return drawLadder(ofSteps(all, script.routers[0].ports.map((it) => it.network), labels));
}

function captureLadder(file, content) {
    if (isText(content)) throw new Fault(`${file}: this is text, and its name that of a capture: scripts end in .script or .internet`);
    const capture = openCapture(new Uint8Array(content), (bytes) => {
        const { text, ...done } = run("decode", bytes);
        return { ...done, text: Buffer.from(text, "latin1") };
    });
    if (!capture.count && capture.fault) throw new Fault(`${file}: ${capture.why || `this is no capture that is read (${capture.fault})`}`);
    return drawLadder(ofRecords(capture.ladder(capture.count)));
}

// ---- Files ----

function kindOf(name, content) {
    if (isCapture(content)) return "pcap";
    const named = KIND.exec(name);
    if (named) return named[1];
    return isOfInternet(content.toString("utf8")) ? "internet" : "script";
}

function drawingOf(file, how) {
    const content = contentOf(file);
    if (!content.length) throw new Fault(`${file} is empty: expected a script or a capture`);
    const kind = kindOf(file, content);
    if (kind !== "pcap") seeScript(file, content, kind === "internet");
    if (kind === "internet") return mapOf(file, played(content.toString("utf8"), true), how);
    if (how.word) throw new Fault(`${file} is no script of an internet: ${how.word} is for those`);
    const drawing = kind === "script" ? ladderOf(played(content.toString("utf8"), false)) : captureLadder(file, content);
    if (!drawing) throw new Fault(`${file} has no packet to draw`);
    return drawing;
}

// The text of a picture.
function picture(file, how = {}) {
    return svgText(Object.assign(drawingOf(file, how), { title: basename(file) }));
}

// The pictures of a folder's stories: of internets those of before and after where something fails, and the traces that are named above.
function writeKept(folder) {
    const files = namesIn(folder).filter((it) => KIND.test(it)).sort();
    if (!files.length) throw new Fault(`${folder} has no script and no capture`);
    for (const file of files) {
        const name = file.replace(KIND, "");
        const content = contentOf(`${folder}/${file}`).toString("utf8");
        const fails = file.endsWith(".internet") && /^(down|stop) /m.test(content);
        writeFileSync(`${folder}/${name}.svg`, picture(`${folder}/${file}`, fails ? { word: "--steps" } : {}));
        const number = SHOWN_TRACES[name];
        if (number) writeFileSync(`${folder}/${name}-trace.svg`, picture(`${folder}/${file}`, { word: "--trace", number }));
    }
}

// ---- How long it takes ----

const LENGTHS = [500, 1000, 2000, 4000];
const PORTS = ["port 00000010 000000000001 1 576", "port 00000020 000000000002 1 576"];
const RESPONSE = "FFFF0028000100000020FFFFFFFFFFFF0453000000200000000000BB045300020000003000010002";
const PACKET = "FFFF001E0000000000200000000000CC4003000000100000000000AA4003";

// A script of one router, and one of an internet, of so many lines each, in which in turn time passes, packets come, and ports go down and
// up.
const LONG = {
    script: (count) => [...PORTS, "start", ...filled(count - 3, ["second 20", `in 1 ${RESPONSE}`, `in 0 ${PACKET}`])],
    internet: (count) => ["router", ...PORTS, "router", "port 00000020 000000000003 1 576", "start 0", "start 1",
        ...filled(count - 7, ["second 20", "settle 1000", `trace 0 0 100 ${PACKET}`, "down 1 0", "settle 1000", "up 1 0"])],
};
const filled = (count, lines) => Array.from({ length: count }, (_, k) => lines[k % lines.length]);

function bench() {
    const draw = {
        ladder: (count) => ladderOf(played(LONG.script(count).join("\n"), false)),
        map: (count) => mapOf("", played(LONG.internet(count).join("\n"), true), {}),
        "side by side": (count) => mapOf("", played(LONG.internet(count).join("\n"), true), { word: "--steps" }),
    };
    for (const [name, one] of Object.entries(draw)) {
        for (const count of LENGTHS) {
            const begun = performance.now();
            const bytes = svgText(one(count)).length;
            process.stdout.write(`${name} of ${count} lines: ${Math.round(performance.now() - begun)} ms, ${bytes} bytes\n`);
        }
    }
}

// ---- Words ----

// What the words ask for: a file and how it is drawn; or nothing, where they are wrong.
function asked(words) {
    const [word, ...more] = words;
    if (["--after", "--trace"].includes(word) && more.length === 2 && /^[1-9]\d*$/.test(more[0])) {
        return { file: more[1], how: { word, number: +more[0] } };
    }
    if (word === "--steps" && more.length === 1) return { file: more[0], how: { word } };
    return words.length === 1 && !word.startsWith("-") ? { file: word, how: {} } : null;
}

function main(words) {
    if (words.includes("--help")) return process.stdout.write(HELP);
    if (words[0] === "--kept" && words.length < 3 && !words[1]?.startsWith("-")) return writeKept(words[1] ?? EXAMPLES);
    if (words.join() === "--bench") return bench();
    const found = asked(words);
    if (!found) throw new Fault(USAGE);
    return process.stdout.write(picture(found.file, found.how));
}

watchOutput("tools/picture");
try {
    main(process.argv.slice(2));
} catch (why) {
    if (!(why instanceof Fault) && !why.code) throw why;
    process.stderr.write(`${why.message.startsWith("usage") ? "" : "tools/picture: "}${why.message}\n`);
    process.exitCode = 1;
}

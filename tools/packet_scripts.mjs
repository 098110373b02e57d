// The packets of scripts, with their words in comments: `# packet WORDS` stands above the command whose packet they tell. Prose and a colon
// may stand before it, and | between the words of several packets, whose commands follow.
import { contentOf, Fault, seeScript } from "./files.mjs";
import { isOfInternet } from "../page/script.mjs";
import { checkedDigits, digitsOf, wordsOfAll } from "./packet_words.mjs";

const TOLD = /^#(?: .*:)? packet (.+)$/;
const NO_BYTES = "-";
// How many words the commands with a packet have, of one router and of an internet. The packet is the last.
const COUNTS = [{ in: 3 }, { in: 4, trace: 5 }];

// A script's text, which keeps each of its bytes, and whether it is one of an internet.
export function scriptOf(file) {
    const text = contentOf(file).toString("latin1");
    return [text, file.endsWith(".internet") || (!file.endsWith(".script") && isOfInternet(text))];
}

const wordsOf = (text) => text.split(/[ \t]+/).filter((it) => it);
const withoutReturn = (line) => line.replace(/\r$/, "");

// Whether a line has a packet.
const hasPacket = (words, isInternet) => COUNTS[+isInternet][words[0]] === words.length;

const digitsIn = (line) => /\S+(?=\s*$)/.exec(line)[0];
const withDigits = (line, digits) => line.replace(/\S+(?=\s*$)/, digits || NO_BYTES);

// The line as a fault names it.
function inLine(number, act) {
    try {
        return act();
    } catch (why) {
        if (!(why instanceof Fault)) throw why;
        throw new Fault(`line ${number}: ${why.message}`);
    }
}

// The lines of a script: each with the words of its packet, where a comment tells them.
function* told(lines, isInternet) {
    let waiting = [];
    for (const [k, line] of lines.entries()) {
        const comment = TOLD.exec(withoutReturn(line));
        const words = line.startsWith("#") ? [] : wordsOf(withoutReturn(line));
        const isPacket = hasPacket(words, isInternet);
        const mayWait = isPacket || (!comment && !words.length);
        if (waiting.length && !mayWait) throw new Fault(`line ${k + 1}: expected the packet of '${waiting[0]}' before it`);
        if (comment) waiting = comment[1].split(" | ").map((it) => it.trim());
        const isTold = isPacket && words[words.length - 1] !== NO_BYTES && waiting.length > 0;
        yield { line, number: k + 1, isPacket, words: isTold ? wordsOf(waiting.shift()) : null };
    }
    if (waiting.length) throw new Fault(`expected at the end the packet of '${waiting[0]}'`);
}

// A script in which each packet whose words are told has the digits that they give.
export function filled(text, isInternet) {
    const lines = [...told(text.split("\n"), isInternet)];
    return lines.map((it) => (it.words ? withDigits(it.line, inLine(it.number, () => digitsOf(it.words))) : it.line)).join("\n");
}

// A script with a comment above each packet whose words aren't told yet.
export function commented(text, isInternet) {
    const lines = [...told(text.split("\n"), isInternet)];
    const lacking = lines.filter((it) => it.isPacket && !it.words && digitsIn(it.line) !== NO_BYTES);
    const found = wordsOfAll(lacking.map((it) => inLine(it.number, () => checkedDigits(digitsIn(it.line)))));
    const above = new Map(lacking.map((it, k) => [it.number, `# packet ${found[k].join(" ")}${it.line.endsWith("\r") ? "\r" : ""}`]));
    return lines.flatMap((it) => (above.has(it.number) ? [above.get(it.number), it.line] : [it.line])).join("\n");
}

// What an act makes of a file that is a script, or has packets as a part of one has.
export function ofScript(file, act) {
    const [text, isInternet] = scriptOf(file);
    const made = act(text, isInternet);
    const hasPackets = [...told(text.split("\n"), isInternet)].some((it) => it.isPacket);
    if (!hasPackets) seeScript(file, Buffer.from(text, "latin1"), isInternet);
    return made;
}

// The packets of a script, with the line and, where they are told, the words of each.
export function packetsOf(text, isInternet) {
    const lines = [...told(text.split("\n"), isInternet)].filter((it) => it.isPacket);
    const digitsOfLine = ({ number, line }) => inLine(number, () => checkedDigits(digitsIn(withoutReturn(line))));
    return lines.map((it) => ({ number: it.number, words: it.words, digits: digitsOfLine(it) }));
}
